//! Deltas between tables, each in an area of ints that the caller lends, and
//! the differences of single items.
//!
//! `sizes` is a list by type of how long the data of its items is known to be;
//! a type that is absent, or whose entry is negative, has no known size.

use crate::answer;
use crate::plain;
use crate::Refusal;
use crate::Warnings;
use std::fmt;

/// The most ints that a delta between two tables takes.
pub const INTS: usize = 18_433;

/// The most bytes of a packed delta that a printer takes: 32 parts of 900.
pub const PACKED_BYTES: usize = 28_800;

/// Why there is no delta between two tables.
#[derive(Clone, Copy, Debug, Eq, Hash, PartialEq)]
pub enum NoDelta {
    /// Both tables have an item with this key, with data of different lengths.
    /// Of all such keys it is the least one, read as unsigned.
    Clash(i32),
    /// `NOT_IN_FORM` or `CAPACITY_ERROR`; for a store also `STORE_FULL`.
    Refused(Refusal),
}

impl NoDelta {
    pub fn refusal(self) -> Refusal {
        match self {
            NoDelta::Clash(_) => Refusal::DELTA_DIFFERING_SIZES,
            NoDelta::Refused(refusal) => refusal,
        }
    }
}

impl fmt::Display for NoDelta {
    fn fmt(&self, f: &mut fmt::Formatter) -> fmt::Result {
        match self {
            NoDelta::Clash(key) => write!(f, "{}, key {key}", self.refusal()),
            NoDelta::Refused(refusal) => refusal.fmt(f),
        }
    }
}

impl std::error::Error for NoDelta {}

/// Writes the empty delta to the front of `out` and gives how many ints it
/// takes. Refused: `CAPACITY_ERROR`.
pub fn clear(out: &mut [i32]) -> Result<usize, Refusal> {
    let mut count = 0;
    let number = plain::delta_clear(out, &mut count);
    answer(number, count)
}

/// Makes the delta that leads from the table in `base` to the one in `target`
/// in the front of `out` and gives how many ints it takes. A refused call
/// leaves `out`.
pub fn create(base: &[i32], target: &[i32], out: &mut [i32]) -> Result<usize, NoDelta> {
    let (mut count, mut clash) = (0, 0);
    let number = plain::delta_create(base, target, out, &mut count, &mut clash);
    match answer(number, count) {
        Ok(count) => Ok(count),
        Err(Refusal::DELTA_DIFFERING_SIZES) => Err(NoDelta::Clash(clash)),
        Err(refusal) => Err(NoDelta::Refused(refusal)),
    }
}

/// Writes a delta to the front of `out`, without the sizes that are known, and
/// gives how many ints. Refused: `NOT_IN_FORM`, `KNOWN_SIZE_DIFFERS`,
/// `CAPACITY_ERROR`; `out` is then left.
pub fn write_to_ints(area: &[i32], sizes: &[i32], out: &mut [i32]) -> Result<usize, Refusal> {
    let mut count = 0;
    let number = plain::delta_write_to_ints(area, sizes, out, &mut count);
    answer(number, count)
}

/// Packs a delta into the front of `out`, without the sizes that are known,
/// and gives how many bytes. Refused: `NOT_IN_FORM`, `KNOWN_SIZE_DIFFERS`,
/// `CAPACITY_ERROR`; `out` is then left.
pub fn write(area: &[i32], sizes: &[i32], out: &mut [u8]) -> Result<usize, Refusal> {
    let mut count = 0;
    let number = plain::delta_write(area, sizes, out, &mut count);
    answer(number, count)
}

/// Reads a delta of ints, its keys in any order, into the front of `out` and
/// gives how many ints it takes there. A refused call leaves `out`. `scratch`,
/// of [`table::SCRATCH`](crate::table::SCRATCH) ints or more, is zeros
/// afterwards. More of it saves time where there are many keys that do not
/// rise: two ints a deleted key or an update are as many as help.
pub fn read_from_ints(
    src: &[i32],
    sizes: &[i32],
    out: &mut [i32],
    scratch: &mut [i32],
) -> (Result<usize, Refusal>, Warnings) {
    let mut count = 0;
    let mut warnings = Warnings::default();
    let number = plain::delta_read_from_ints(src, sizes, out, scratch, &mut count, &mut warnings);
    (answer(number, count), warnings)
}

/// Reads a packed delta, its keys in any order, into the front of `out` and
/// gives how many ints it takes there. An integer with a padding bit set is
/// refused where it is read (`NON_ZERO_INT_PADDING`). A refused call leaves
/// `out`. `scratch`, of [`table::SCRATCH`](crate::table::SCRATCH) ints and one
/// a byte or more, is zeros afterwards.
pub fn read(
    src: &[u8],
    sizes: &[i32],
    out: &mut [i32],
    scratch: &mut [i32],
) -> (Result<usize, Refusal>, Warnings) {
    let mut count = 0;
    let mut warnings = Warnings::default();
    let number = plain::delta_read(src, sizes, out, scratch, &mut count, &mut warnings);
    (answer(number, count), warnings)
}

/// The differences of an item's data from the base's, where it has any, into
/// the front of `out`. Refused: `DELTA_DIFFERING_SIZES`, `CAPACITY_ERROR`;
/// `out` is then left.
pub fn create_item(from: Option<&[i32]>, to: &[i32], out: &mut [i32]) -> Result<usize, Refusal> {
    let mut count = 0;
    let (has_from, from) = flagged(from);
    let number = plain::create_item_delta(has_from, from, to, out, &mut count);
    answer(number, count)
}

/// An item's data from its differences and the base's data, where it has any,
/// into the front of `out`. Refused: `DELTA_DIFFERING_SIZES`,
/// `CAPACITY_ERROR`; `out` is then left.
pub fn apply_item(from: Option<&[i32]>, delta: &[i32], out: &mut [i32]) -> Result<usize, Refusal> {
    let mut count = 0;
    let (has_from, from) = flagged(from);
    let number = plain::apply_item_delta(has_from, from, delta, out, &mut count);
    answer(number, count)
}

/// Whether there are ints, and those.
fn flagged(ints: Option<&[i32]>) -> (u32, &[i32]) {
    match ints {
        Some(ints) => (1, ints),
        None => (0, &[]),
    }
}
