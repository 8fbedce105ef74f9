//! Tables with types that are made item by item, each in an area of ints that
//! the caller lends.

use crate::answer;
use crate::plain;
use crate::snap::TypeId;
use crate::Refusal;

/// Writes the table of a new builder to the front of `out` and gives how many
/// ints it takes. Refused: `CAPACITY_ERROR`.
pub fn new(out: &mut [i32]) -> Result<usize, Refusal> {
    let mut count = 0;
    let number = plain::builder_new(out, &mut count);
    answer(number, count)
}

/// Adds an item to the builder's table in `area` and gives how many ints that
/// takes then. An item of a new kind comes with the item that names the kind,
/// which stays, if it fits, where the other is refused; else a refused call
/// leaves `area`.
pub fn add_item(
    area: &mut [i32],
    type_id: TypeId,
    id: u16,
    values: &[i32],
) -> Result<usize, Refusal> {
    let mut count = 0;
    let number = plain::builder_add_item(area, &type_id.plain(), id, values, &mut count);
    answer(number, count)
}

/// How many ints the builder's table in `area` takes. Refused: `NOT_IN_FORM`.
pub fn finish(area: &[i32]) -> Result<usize, Refusal> {
    let mut count = 0;
    let number = plain::builder_finish(area, &mut count);
    answer(number, count)
}
