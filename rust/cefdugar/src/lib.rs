//! Safe calls of the proved library behind `include/cefdugar.h`.
//!
//! The functions of this page answer with a `Result`, as a Rust program likes
//! it. [`plain`] has the same calls one to one: numbers are lent and a number
//! is answered, so that a caller sees what was set and what was left.

pub mod builder;
pub mod delta;
pub mod manager;
pub mod messages;
pub mod plain;
pub mod receiver;
pub mod rules;
pub mod snap;
pub mod storage;
mod sys;
pub mod table;

use std::fmt;

/// A refusal, by its number.
#[derive(Clone, Copy, Debug, Eq, Hash, PartialEq)]
pub struct Refusal(pub u32);

impl Refusal {
    pub const UNEXPECTED_END: Refusal = Refusal(1);
    pub const INT_OUT_OF_RANGE: Refusal = Refusal(2);
    pub const DELETED_ITEMS_UNPACKING: Refusal = Refusal(3);
    pub const ITEM_DIFFS_UNPACKING: Refusal = Refusal(4);
    pub const TYPE_ID_RANGE: Refusal = Refusal(5);
    pub const ID_RANGE: Refusal = Refusal(6);
    pub const NEGATIVE_SIZE: Refusal = Refusal(7);
    pub const TOO_LONG_SNAP: Refusal = Refusal(8);
    pub const TOO_MANY_ITEMS: Refusal = Refusal(9);
    pub const DELTA_DIFFERING_SIZES: Refusal = Refusal(10);
    pub const OFFSETS_UNPACKING: Refusal = Refusal(11);
    pub const INVALID_OFFSET: Refusal = Refusal(12);
    pub const ITEMS_UNPACKING: Refusal = Refusal(13);
    pub const DUPLICATE_KEY: Refusal = Refusal(14);
    pub const DUPLICATE_UUID_TYPE: Refusal = Refusal(15);
    pub const INVALID_UUID_TYPE: Refusal = Refusal(16);
    pub const MISSING_UUID_TYPE: Refusal = Refusal(17);
    pub const RECEIVER_OLD_DELTA: Refusal = Refusal(20);
    pub const INVALID_NUM_PARTS: Refusal = Refusal(21);
    pub const INVALID_PART: Refusal = Refusal(22);
    pub const DUPLICATE_PART: Refusal = Refusal(23);
    pub const STORAGE_OLD_DELTA: Refusal = Refusal(30);
    pub const UNKNOWN_SNAP: Refusal = Refusal(31);
    pub const INVALID_CRC: Refusal = Refusal(32);
    pub const CAPACITY_ERROR: Refusal = Refusal(40);
    pub const SCRATCH_TOO_SHORT: Refusal = Refusal(41);
    pub const INPUT_TOO_LONG: Refusal = Refusal(42);
    pub const PART_TOO_LONG: Refusal = Refusal(43);
    pub const STORE_FULL: Refusal = Refusal(44);
    pub const INVALID_TYPE_ID: Refusal = Refusal(45);
    pub const KNOWN_SIZE_DIFFERS: Refusal = Refusal(46);
    pub const NOT_IN_FORM: Refusal = Refusal(47);
    /// A packed integer has a padding bit set; its value is not used.
    pub const NON_ZERO_INT_PADDING: Refusal = Refusal(52);
    pub const SHORT_RULE: Refusal = Refusal(55);
}

impl fmt::Display for Refusal {
    fn fmt(&self, f: &mut fmt::Formatter) -> fmt::Result {
        write!(f, "refused {}", self.0)
    }
}

impl std::error::Error for Refusal {}

/// How many kinds of warning there are.
pub const WARNINGS: usize = 12;

/// The counts of all kinds of warning, in the order of the constants.
#[derive(Clone, Copy, Debug, Default, Eq, Hash, PartialEq)]
pub struct Warnings(pub [usize; WARNINGS]);

impl Warnings {
    pub const OVERLONG_INT_ENCODING: usize = 0;
    pub const NON_ZERO_PADDING: usize = 1;
    pub const DUPLICATE_DELETE: usize = 2;
    pub const DUPLICATE_UPDATE: usize = 3;
    pub const UNKNOWN_DELETE: usize = 4;
    pub const DELETE_UPDATE: usize = 5;
    pub const NUM_UPDATED_ITEMS: usize = 6;
    pub const EXCESS_SNAP_DATA: usize = 7;
    pub const EXCESS_UUID_ITEM_DATA: usize = 8;
    pub const DUPLICATE_SNAP: usize = 9;
    /// A part whose base, part count or sum is not the first part's.
    pub const DIFFERING_ATTRIBUTES: usize = 10;
    pub const WEIRD_NEGATIVE_DELTA_TICK: usize = 11;

    /// Whether nothing was worth a warning.
    pub fn is_none(&self) -> bool {
        self.0.iter().all(|&count| count == 0)
    }
}

#[inline]
fn answer<T>(number: u32, value: T) -> Result<T, Refusal> {
    match number {
        0 => Ok(value),
        number => Err(Refusal(number)),
    }
}

/// The packed integer that begins at place `at` of `src`, and the place after
/// it. Refused: `INPUT_TOO_LONG`; `UNEXPECTED_END` where the bytes end inside
/// it; `NON_ZERO_INT_PADDING`.
pub fn read_int(src: &[u8], at: usize) -> (Result<(i32, usize), Refusal>, Warnings) {
    let (mut value, mut next) = (0, 0);
    let mut warnings = Warnings::default();
    let number = plain::read_int(src, at, &mut value, &mut next, &mut warnings);
    (answer(number, (value, next)), warnings)
}

/// Where a reader stands after a read.
#[derive(Clone, Copy, Debug, Eq, PartialEq)]
pub struct Standing {
    /// Its place: behind the integer, or the end where it was refused; where
    /// it stood if the entries are too many to read.
    pub at: usize,
    /// How many entries are left.
    pub left: usize,
    /// Whether none are.
    pub empty: bool,
}

// What the calls leave where the entries are too many to read: the reader
// stands where it stood.
fn standing(len: usize, at: usize) -> (usize, usize, u32) {
    (at, len.saturating_sub(at), (len <= at).into())
}

/// The next integer of a reader over packed bytes that stands at place `at`,
/// and where it then stands. Refused: `INPUT_TOO_LONG`; `UNEXPECTED_END` where
/// the bytes end inside it; `NON_ZERO_INT_PADDING`.
pub fn unpacker_read_int(src: &[u8], at: usize) -> (Result<i32, Refusal>, Standing, Warnings) {
    let mut value = 0;
    let (mut next, mut left, mut empty) = standing(src.len(), at);
    let mut warnings = Warnings::default();
    let number = plain::unpacker_read_int(
        src,
        at,
        &mut value,
        &mut next,
        &mut left,
        &mut empty,
        &mut warnings,
    );
    let standing = Standing {
        at: next,
        left,
        empty: empty != 0,
    };
    (answer(number, value), standing, warnings)
}

/// The next int of a reader over ints that stands at place `at`, and where it
/// then stands. Refused: `INPUT_TOO_LONG`; `UNEXPECTED_END` where no int is
/// left.
pub fn int_unpacker_read_int(src: &[i32], at: usize) -> (Result<i32, Refusal>, Standing) {
    let mut value = 0;
    let (mut next, mut left, mut empty) = standing(src.len(), at);
    let number =
        plain::int_unpacker_read_int(src, at, &mut value, &mut next, &mut left, &mut empty);
    let standing = Standing {
        at: next,
        left,
        empty: empty != 0,
    };
    (answer(number, value), standing)
}

/// Writes `value` in its shortest form at place `at` of `out` and gives the
/// place after it. Refused: `CAPACITY_ERROR` where it does not fit; `out` is
/// then left as it was.
pub fn write_int(out: &mut [u8], at: usize, value: i32) -> Result<usize, Refusal> {
    let mut next = 0;
    let number = plain::write_int(out, at, value, &mut next);
    answer(number, next)
}

/// What [`unpack`] found.
#[derive(Clone, Copy, Debug, Eq, PartialEq)]
pub struct Unpacked {
    /// How many ints were written.
    pub count: usize,
    /// Whether the end of the bytes cut off one more.
    pub cut: bool,
}

/// Reads all the packed integers of `src` into the front of `out`. Refused:
/// `INPUT_TOO_LONG`; `NON_ZERO_INT_PADDING`, with the warnings of the integers
/// before; `CAPACITY_ERROR` where they do not fit. `out` is then left as it was.
pub fn unpack(src: &[u8], out: &mut [i32]) -> (Result<Unpacked, Refusal>, Warnings) {
    let (mut count, mut cut) = (0, 0);
    let mut warnings = Warnings::default();
    let number = plain::unpack(src, out, &mut count, &mut cut, &mut warnings);
    let unpacked = Unpacked {
        count,
        cut: cut != 0,
    };
    (answer(number, unpacked), warnings)
}
