//! Tables of keyed items, each in an area of ints that the caller lends.

use crate::answer;
use crate::plain;
use crate::Refusal;
use crate::Warnings;

/// The most items of a table.
pub const ITEMS: usize = 1_024;
/// The most ints that a table takes.
pub const INTS: usize = 16_384;
/// The least scratch; reading bytes also asks for one int a byte.
pub const SCRATCH: usize = 16_384;
/// The most bytes or ints that are read.
pub const INPUT: usize = 1_048_576;

/// Writes the empty table to the front of `out` and gives how many ints it
/// takes. Refused: `CAPACITY_ERROR`.
pub fn empty(out: &mut [i32]) -> Result<usize, Refusal> {
    let mut count = 0;
    let number = plain::table_empty(out, &mut count);
    answer(number, count)
}

/// Reads a packed table into the front of `out` and gives how many ints it
/// takes. An integer with a padding bit set, also behind the table, refuses it
/// (`NON_ZERO_INT_PADDING`). A refused call leaves `out`. `scratch`, of
/// [`SCRATCH`] ints and one a byte or more, is zeros afterwards.
pub fn read(
    src: &[u8],
    out: &mut [i32],
    scratch: &mut [i32],
) -> (Result<usize, Refusal>, Warnings) {
    let mut count = 0;
    let mut warnings = Warnings::default();
    let number = plain::table_read(src, out, scratch, &mut count, &mut warnings);
    (answer(number, count), warnings)
}

/// Reads a table of ints into the front of `out` and gives how many ints it
/// takes. A refused call leaves `out`.
pub fn read_from_ints(src: &[i32], out: &mut [i32]) -> (Result<usize, Refusal>, Warnings) {
    let mut count = 0;
    let mut warnings = Warnings::default();
    let number = plain::table_read_from_ints(src, out, &mut count, &mut warnings);
    (answer(number, count), warnings)
}

/// Applies the delta in `delta` to the table in `base`, into the front of
/// `out`, and gives how many ints the result takes. A refused call leaves
/// `out`. `scratch`, of [`SCRATCH`] ints or more, is zeros afterwards.
pub fn read_with_delta(
    base: &[i32],
    delta: &[i32],
    out: &mut [i32],
    scratch: &mut [i32],
) -> (Result<usize, Refusal>, Warnings) {
    let mut count = 0;
    let mut warnings = Warnings::default();
    let number = plain::table_read_with_delta(base, delta, out, scratch, &mut count, &mut warnings);
    (answer(number, count), warnings)
}

/// Packs a table into the front of `out` and gives how many bytes. Refused:
/// `NOT_IN_FORM`, `CAPACITY_ERROR`; `out` is then left.
pub fn write(area: &[i32], out: &mut [u8]) -> Result<usize, Refusal> {
    let mut count = 0;
    let number = plain::table_write(area, out, &mut count);
    answer(number, count)
}

/// Writes a table to the front of `out` and gives how many ints. Refused:
/// `NOT_IN_FORM`, `CAPACITY_ERROR`; `out` is then left.
pub fn write_to_ints(area: &[i32], out: &mut [i32]) -> Result<usize, Refusal> {
    let mut count = 0;
    let number = plain::table_write_to_ints(area, out, &mut count);
    answer(number, count)
}

/// How many items a table has. Refused: `NOT_IN_FORM`.
pub fn num_items(area: &[i32]) -> Result<usize, Refusal> {
    let mut count = 0;
    let number = plain::table_num_items(area, &mut count);
    answer(number, count)
}

/// Whether a table has an item. Refused: `NOT_IN_FORM`.
pub fn has_item(area: &[i32], raw_type_id: u16, id: u16) -> Result<bool, Refusal> {
    let mut has = 0;
    let number = plain::table_has_item(area, raw_type_id, id, &mut has);
    answer(number, has != 0)
}

/// Copies an item's data to the front of `out` and gives how many ints; 0
/// where there is no such item. Refused: `NOT_IN_FORM`, `CAPACITY_ERROR`; `out`
/// is then left.
pub fn item(area: &[i32], raw_type_id: u16, id: u16, out: &mut [i32]) -> Result<usize, Refusal> {
    let mut count = 0;
    let number = plain::table_item(area, raw_type_id, id, out, &mut count);
    answer(number, count)
}

/// The sum of all data ints. Refused: `NOT_IN_FORM`.
pub fn crc(area: &[i32]) -> Result<i32, Refusal> {
    let mut crc = 0;
    let number = plain::table_crc(area, &mut crc);
    answer(number, crc)
}

/// The key of item `i` in the order of keys read as signed, or none past the
/// end. Refused: `NOT_IN_FORM`.
pub fn walk_key(area: &[i32], i: usize) -> Result<Option<i32>, Refusal> {
    let (mut key, mut end) = (0, 0);
    let number = plain::table_walk_key(area, i, &mut key, &mut end);
    answer(number, (end == 0).then_some(key))
}

/// Copies the data of item `i` in that order to the front of `out` and gives
/// how many ints; 0 past the end. Refused: `NOT_IN_FORM`, `CAPACITY_ERROR`;
/// `out` is then left.
pub fn walk_item(area: &[i32], i: usize, out: &mut [i32]) -> Result<usize, Refusal> {
    let mut count = 0;
    let number = plain::table_walk_item(area, i, out, &mut count);
    answer(number, count)
}

/// Adds an item to the table in `area` and gives how many ints the table now
/// takes. Refused: `NOT_IN_FORM`, `DUPLICATE_KEY`, `TOO_MANY_ITEMS`,
/// `TOO_LONG_SNAP`, `CAPACITY_ERROR`; `area` is then left.
pub fn add_item(
    area: &mut [i32],
    raw_type_id: u16,
    id: u16,
    values: &[i32],
) -> Result<usize, Refusal> {
    let mut count = 0;
    let number = plain::table_add_item(area, raw_type_id, id, values, &mut count);
    answer(number, count)
}
