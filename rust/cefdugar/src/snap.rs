//! Tables whose items have numbers or kinds of 16 bytes as types.

use crate::answer;
use crate::plain;
use crate::Refusal;
use crate::Warnings;

/// A type: a number from 1 to 3fff hex, or a kind.
#[derive(Clone, Copy, Debug, Eq, Hash, PartialEq)]
pub enum TypeId {
    Ordinal(u16),
    Uuid([u8; 16]),
}

impl TypeId {
    /// As the calls of [`plain`] take it.
    pub fn plain(self) -> plain::Type {
        match self {
            TypeId::Ordinal(ordinal) => plain::Type {
                is_uuid: 0,
                ordinal,
                uuid: [0; 4],
            },
            TypeId::Uuid(bytes) => plain::Type {
                is_uuid: 1,
                ordinal: 0,
                uuid: uuid_to_ints(bytes),
            },
        }
    }
}

/// The four ints of a kind's 16 bytes, each with its highest byte first.
pub fn uuid_to_ints(bytes: [u8; 16]) -> [i32; 4] {
    let mut ints = [0; 4];
    for (int, four) in ints.iter_mut().zip(bytes.chunks(4)) {
        *int = i32::from_be_bytes([four[0], four[1], four[2], four[3]]);
    }
    ints
}

/// The 16 bytes of a kind's four ints.
pub fn uuid_from_ints(ints: [i32; 4]) -> [u8; 16] {
    let mut bytes = [0; 16];
    for (four, int) in bytes.chunks_mut(4).zip(ints) {
        four.copy_from_slice(&int.to_be_bytes());
    }
    bytes
}

/// Reads a packed table with sound types into the front of `out` and gives how
/// many ints it takes. Padding bits are refused as in
/// [`table::read`](crate::table::read). A refused call leaves `out`. `scratch`,
/// of [`table::SCRATCH`](crate::table::SCRATCH) ints and one a byte or more, is
/// zeros afterwards.
pub fn read(
    src: &[u8],
    out: &mut [i32],
    scratch: &mut [i32],
) -> (Result<usize, Refusal>, Warnings) {
    let mut count = 0;
    let mut warnings = Warnings::default();
    let number = plain::snap_read(src, out, scratch, &mut count, &mut warnings);
    (answer(number, count), warnings)
}

/// Reads a table of ints with sound types into the front of `out` and gives
/// how many ints it takes. A refused call leaves `out`. `scratch`, of
/// [`table::SCRATCH`](crate::table::SCRATCH) ints or more, is zeros
/// afterwards.
pub fn read_from_ints(
    src: &[i32],
    out: &mut [i32],
    scratch: &mut [i32],
) -> (Result<usize, Refusal>, Warnings) {
    let mut count = 0;
    let mut warnings = Warnings::default();
    let number = plain::snap_read_from_ints(src, out, scratch, &mut count, &mut warnings);
    (answer(number, count), warnings)
}

/// Applies the delta in `delta` to the table in `base`, into the front of
/// `out`, judges the types of the result and gives how many ints it takes. A
/// refused call leaves `out`. `scratch`, of
/// [`table::SCRATCH`](crate::table::SCRATCH) ints or more, is zeros
/// afterwards.
pub fn read_with_delta(
    base: &[i32],
    delta: &[i32],
    out: &mut [i32],
    scratch: &mut [i32],
) -> (Result<usize, Refusal>, Warnings) {
    let mut count = 0;
    let mut warnings = Warnings::default();
    let number = plain::snap_read_with_delta(base, delta, out, scratch, &mut count, &mut warnings);
    (answer(number, count), warnings)
}

/// The raw type of a type, if the table has one. Refused: `NOT_IN_FORM`,
/// `INVALID_TYPE_ID`.
pub fn raw_type_id(area: &[i32], type_id: TypeId) -> Result<Option<u16>, Refusal> {
    let (mut known, mut raw_type_id) = (0, 0);
    let number = plain::snap_raw_type_id(area, &type_id.plain(), &mut known, &mut raw_type_id);
    answer(number, (known != 0).then_some(raw_type_id))
}

/// The type of a raw type, if it has one. Refused: `NOT_IN_FORM`.
pub fn type_id(area: &[i32], raw_type_id: u16) -> Result<Option<TypeId>, Refusal> {
    let (mut kind, mut ordinal, mut uuid) = (0, 0, [0; 4]);
    let number = plain::snap_type_id(area, raw_type_id, &mut kind, &mut ordinal, &mut uuid);
    let found = match kind {
        0 => None,
        1 => Some(TypeId::Ordinal(ordinal)),
        _ => Some(TypeId::Uuid(uuid_from_ints(uuid))),
    };
    answer(number, found)
}

/// Whether a table has an item. Refused: `NOT_IN_FORM`, `INVALID_TYPE_ID`.
pub fn has_item(area: &[i32], type_id: TypeId, id: u16) -> Result<bool, Refusal> {
    let mut has = 0;
    let number = plain::snap_has_item(area, &type_id.plain(), id, &mut has);
    answer(number, has != 0)
}

/// Copies an item's data to the front of `out` and gives how many ints; none
/// where there is no such item. Refused: `NOT_IN_FORM`, `INVALID_TYPE_ID`,
/// `CAPACITY_ERROR`; `out` is then left.
pub fn item(area: &[i32], type_id: TypeId, id: u16, out: &mut [i32]) -> Result<usize, Refusal> {
    let mut count = 0;
    let number = plain::snap_item(area, &type_id.plain(), id, out, &mut count);
    answer(number, count)
}
