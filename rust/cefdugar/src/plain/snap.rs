//! The calls on tables with types, on builders, and on deltas that are
//! applied.

// Every call below is sound: references are valid, not null and do not
// overlap, and the lengths are those of the slices.

use crate::sys;
use crate::Warnings;

/// A type, as the calls take it: a kind where `is_uuid` is not 0, else a
/// number. What is not asked for is not looked at.
#[derive(Clone, Copy, Debug, Eq, PartialEq)]
pub struct Type {
    pub is_uuid: u32,
    pub ordinal: u16,
    pub uuid: [i32; 4],
}

/// Applies a delta to a table, into the front of `out`. Refused: `out` and
/// `count` are left. `scratch` is then zeros, and `warnings` set, in any case.
pub fn table_read_with_delta(
    base: &[i32],
    delta: &[i32],
    out: &mut [i32],
    scratch: &mut [i32],
    count: &mut usize,
    warnings: &mut Warnings,
) -> u32 {
    unsafe {
        sys::cef_table_read_with_delta(
            base.as_ptr(),
            base.len(),
            delta.as_ptr(),
            delta.len(),
            out.as_mut_ptr(),
            out.len(),
            scratch.as_mut_ptr(),
            scratch.len(),
            count,
            &mut warnings.0,
        )
    }
}

/// Applies a delta to a table and judges the types of the result. Refused:
/// `out` and `count` are left. `scratch` is then zeros, and `warnings` set, in
/// any case.
pub fn snap_read_with_delta(
    base: &[i32],
    delta: &[i32],
    out: &mut [i32],
    scratch: &mut [i32],
    count: &mut usize,
    warnings: &mut Warnings,
) -> u32 {
    unsafe {
        sys::cef_snap_read_with_delta(
            base.as_ptr(),
            base.len(),
            delta.as_ptr(),
            delta.len(),
            out.as_mut_ptr(),
            out.len(),
            scratch.as_mut_ptr(),
            scratch.len(),
            count,
            &mut warnings.0,
        )
    }
}

/// Reads a packed table with sound types into the front of `out`. Refused:
/// `out` and `count` are left. `scratch` is then zeros, and `warnings` set, in
/// any case.
pub fn snap_read(
    src: &[u8],
    out: &mut [i32],
    scratch: &mut [i32],
    count: &mut usize,
    warnings: &mut Warnings,
) -> u32 {
    unsafe {
        sys::cef_snap_read(
            src.as_ptr(),
            src.len(),
            out.as_mut_ptr(),
            out.len(),
            scratch.as_mut_ptr(),
            scratch.len(),
            count,
            &mut warnings.0,
        )
    }
}

/// Reads a table of ints with sound types into the front of `out`. Refused:
/// `out` and `count` are left. `scratch` is then zeros, and `warnings` set, in
/// any case.
pub fn snap_read_from_ints(
    src: &[i32],
    out: &mut [i32],
    scratch: &mut [i32],
    count: &mut usize,
    warnings: &mut Warnings,
) -> u32 {
    unsafe {
        sys::cef_snap_read_from_ints(
            src.as_ptr(),
            src.len(),
            out.as_mut_ptr(),
            out.len(),
            scratch.as_mut_ptr(),
            scratch.len(),
            count,
            &mut warnings.0,
        )
    }
}

/// The raw type of a type: `known` is 1, or 0 where the table has none, which
/// leaves `raw_type_id`. Refused (47, 45): both are left.
pub fn snap_raw_type_id(
    area: &[i32],
    type_id: &Type,
    known: &mut u32,
    raw_type_id: &mut u16,
) -> u32 {
    unsafe {
        sys::cef_snap_raw_type_id(
            area.as_ptr(),
            area.len(),
            type_id.is_uuid,
            type_id.ordinal,
            &type_id.uuid,
            known,
            raw_type_id,
        )
    }
}

/// The type of a raw type: `kind` is 1 and `ordinal` set, or 2 and `uuid` set,
/// or 0 where it has none. Refused (47): all three are left.
pub fn snap_type_id(
    area: &[i32],
    raw_type_id: u16,
    kind: &mut u32,
    ordinal: &mut u16,
    uuid: &mut [i32; 4],
) -> u32 {
    unsafe { sys::cef_snap_type_id(area.as_ptr(), area.len(), raw_type_id, kind, ordinal, uuid) }
}

/// Whether a table has an item: 1 or 0. Refused (47, 45): `has` is left.
pub fn snap_has_item(area: &[i32], type_id: &Type, id: u16, has: &mut u32) -> u32 {
    unsafe {
        sys::cef_snap_has_item(
            area.as_ptr(),
            area.len(),
            type_id.is_uuid,
            type_id.ordinal,
            &type_id.uuid,
            id,
            has,
        )
    }
}

/// Copies an item's data to the front of `out`; none where there is no such
/// item. Refused (47, 45, 40): `out` and `count` are left.
pub fn snap_item(area: &[i32], type_id: &Type, id: u16, out: &mut [i32], count: &mut usize) -> u32 {
    unsafe {
        sys::cef_snap_item(
            area.as_ptr(),
            area.len(),
            type_id.is_uuid,
            type_id.ordinal,
            &type_id.uuid,
            id,
            out.as_mut_ptr(),
            out.len(),
            count,
        )
    }
}

/// Writes the table of a new builder to the front of `out`. Refused (40):
/// `out` and `count` are left.
pub fn builder_new(out: &mut [i32], count: &mut usize) -> u32 {
    unsafe { sys::cef_builder_new(out.as_mut_ptr(), out.len(), count) }
}

/// Adds an item to a builder's table. Refused (47, 45, 14, 9, 8, 40): `count`
/// is left, and `area` but for the item of a new kind, which stays where it
/// was added.
pub fn builder_add_item(
    area: &mut [i32],
    type_id: &Type,
    id: u16,
    values: &[i32],
    count: &mut usize,
) -> u32 {
    unsafe {
        sys::cef_builder_add_item(
            area.as_mut_ptr(),
            area.len(),
            type_id.is_uuid,
            type_id.ordinal,
            &type_id.uuid,
            id,
            values.as_ptr(),
            values.len(),
            count,
        )
    }
}

/// How many ints a builder's table takes. Refused (47): `count` is left.
pub fn builder_finish(area: &[i32], count: &mut usize) -> u32 {
    unsafe { sys::cef_builder_finish(area.as_ptr(), area.len(), count) }
}
