//! The calls of `include/cefdugar.h` one to one: 0 or the refusal's number is
//! answered, and results go to what the caller lends.

// Every call below is sound: references are valid, not null and do not
// overlap, and the lengths are those of the slices.

use crate::sys;
use crate::Warnings;

mod snap;

pub use snap::*;

/// Reads the packed integer at place `at` of `src`. Refused (42, 1, 52): `value`
/// and `next` are left. `warnings` is always set.
pub fn read_int(
    src: &[u8],
    at: usize,
    value: &mut i32,
    next: &mut usize,
    warnings: &mut Warnings,
) -> u32 {
    unsafe { sys::cef_read_int(src.as_ptr(), src.len(), at, value, next, &mut warnings.0) }
}

/// What a reader over packed bytes answers that stands at place `at`: the next
/// integer, and its place, the bytes left and whether there are none. Refused
/// (1, 52): `value` is left. Refused (42): `value`, `next`, `left` and `empty`
/// are left. `warnings` is always set.
pub fn unpacker_read_int(
    src: &[u8],
    at: usize,
    value: &mut i32,
    next: &mut usize,
    left: &mut usize,
    empty: &mut u32,
    warnings: &mut Warnings,
) -> u32 {
    unsafe {
        sys::cef_unpacker_read_int(
            src.as_ptr(),
            src.len(),
            at,
            value,
            next,
            left,
            empty,
            &mut warnings.0,
        )
    }
}

/// The same of a reader over ints.
pub fn int_unpacker_read_int(
    src: &[i32],
    at: usize,
    value: &mut i32,
    next: &mut usize,
    left: &mut usize,
    empty: &mut u32,
) -> u32 {
    unsafe { sys::cef_int_unpacker_read_int(src.as_ptr(), src.len(), at, value, next, left, empty) }
}

/// Writes `value` at place `at` of `out`. Refused (40): `out` and `next` are
/// left.
pub fn write_int(out: &mut [u8], at: usize, value: i32, next: &mut usize) -> u32 {
    unsafe { sys::cef_write_int(out.as_mut_ptr(), out.len(), at, value, next) }
}

/// Reads all the packed integers of `src` into the front of `out`. Refused
/// (42, 52, 40): `out`, `count` and `cut` are left. `warnings` is always set.
pub fn unpack(
    src: &[u8],
    out: &mut [i32],
    count: &mut usize,
    cut: &mut u32,
    warnings: &mut Warnings,
) -> u32 {
    unsafe {
        sys::cef_unpack(
            src.as_ptr(),
            src.len(),
            out.as_mut_ptr(),
            out.len(),
            count,
            cut,
            &mut warnings.0,
        )
    }
}

/// Writes the empty table to the front of `out`. Refused (40): `out` and
/// `count` are left.
pub fn table_empty(out: &mut [i32], count: &mut usize) -> u32 {
    unsafe { sys::cef_table_empty(out.as_mut_ptr(), out.len(), count) }
}

/// Reads a packed table into the front of `out`. Refused: `out` and `count`
/// are left. `warnings` is always set, and `scratch` always zeros.
pub fn table_read(
    src: &[u8],
    out: &mut [i32],
    scratch: &mut [i32],
    count: &mut usize,
    warnings: &mut Warnings,
) -> u32 {
    unsafe {
        sys::cef_table_read(
            src.as_ptr(),
            src.len(),
            out.as_mut_ptr(),
            out.len(),
            scratch.as_mut_ptr(),
            scratch.len(),
            count,
            &mut warnings.0,
        )
    }
}

/// Reads a table of ints into the front of `out`. Refused: `out` and `count`
/// are left. `warnings` is always set.
pub fn table_read_from_ints(
    src: &[i32],
    out: &mut [i32],
    count: &mut usize,
    warnings: &mut Warnings,
) -> u32 {
    unsafe {
        sys::cef_table_read_from_ints(
            src.as_ptr(),
            src.len(),
            out.as_mut_ptr(),
            out.len(),
            count,
            &mut warnings.0,
        )
    }
}

/// Packs a table into the front of `out`. Refused (47, 40): `out` and `count`
/// are left.
pub fn table_write(area: &[i32], out: &mut [u8], count: &mut usize) -> u32 {
    unsafe {
        sys::cef_table_write(
            area.as_ptr(),
            area.len(),
            out.as_mut_ptr(),
            out.len(),
            count,
        )
    }
}

/// Writes a table to the front of `out`. Refused (47, 40): `out` and `count`
/// are left.
pub fn table_write_to_ints(area: &[i32], out: &mut [i32], count: &mut usize) -> u32 {
    unsafe {
        sys::cef_table_write_to_ints(
            area.as_ptr(),
            area.len(),
            out.as_mut_ptr(),
            out.len(),
            count,
        )
    }
}

/// How many items a table has. Refused (47): `count` is left.
pub fn table_num_items(area: &[i32], count: &mut usize) -> u32 {
    unsafe { sys::cef_table_num_items(area.as_ptr(), area.len(), count) }
}

/// Whether a table has an item: 1 or 0. Refused (47): `has` is left.
pub fn table_has_item(area: &[i32], raw_type_id: u16, id: u16, has: &mut u32) -> u32 {
    unsafe { sys::cef_table_has_item(area.as_ptr(), area.len(), raw_type_id, id, has) }
}

/// Copies an item's data to the front of `out`; none where there is no such
/// item. Refused (47, 40): `out` and `count` are left.
pub fn table_item(
    area: &[i32],
    raw_type_id: u16,
    id: u16,
    out: &mut [i32],
    count: &mut usize,
) -> u32 {
    unsafe {
        sys::cef_table_item(
            area.as_ptr(),
            area.len(),
            raw_type_id,
            id,
            out.as_mut_ptr(),
            out.len(),
            count,
        )
    }
}

/// The sum of all data ints. Refused (47): `crc` is left.
pub fn table_crc(area: &[i32], crc: &mut i32) -> u32 {
    unsafe { sys::cef_table_crc(area.as_ptr(), area.len(), crc) }
}

/// The key of item `i` of the walk, or its `end`, which leaves `key`. Refused
/// (47): `key` and `end` are left.
pub fn table_walk_key(area: &[i32], i: usize, key: &mut i32, end: &mut u32) -> u32 {
    unsafe { sys::cef_table_walk_key(area.as_ptr(), area.len(), i, key, end) }
}

/// Copies the data of item `i` of the walk to the front of `out`; none past
/// the end. Refused (47, 40): `out` and `count` are left.
pub fn table_walk_item(area: &[i32], i: usize, out: &mut [i32], count: &mut usize) -> u32 {
    unsafe {
        sys::cef_table_walk_item(
            area.as_ptr(),
            area.len(),
            i,
            out.as_mut_ptr(),
            out.len(),
            count,
        )
    }
}

/// Adds an item to the table in `area`. Refused (47, 14, 9, 8, 40): `area` and
/// `count` are left.
pub fn table_add_item(
    area: &mut [i32],
    raw_type_id: u16,
    id: u16,
    values: &[i32],
    count: &mut usize,
) -> u32 {
    unsafe {
        sys::cef_table_add_item(
            area.as_mut_ptr(),
            area.len(),
            raw_type_id,
            id,
            values.as_ptr(),
            values.len(),
            count,
        )
    }
}

/// The key and the action of the rule that wins for an ingredient among the
/// items of the raw types in `types`: `found` is 1, or 0 where there is none,
/// which leaves `key` and `action`. Refused (47, 55): all three are left.
pub fn rule_winner(
    area: &[i32],
    types: &[u16],
    ingredient: i32,
    found: &mut u32,
    key: &mut i32,
    action: &mut i32,
) -> u32 {
    unsafe {
        sys::cef_rule_winner(
            area.as_ptr(),
            area.len(),
            types.as_ptr(),
            types.len(),
            ingredient,
            found,
            key,
            action,
        )
    }
}

/// Writes the empty delta to the front of `out`. Refused (40): `out` and
/// `count` are left.
pub fn delta_clear(out: &mut [i32], count: &mut usize) -> u32 {
    unsafe { sys::cef_delta_clear(out.as_mut_ptr(), out.len(), count) }
}

/// Makes the delta from one table to another in the front of `out`. Refused
/// (47, 10, 40): `out` and `count` are left. At 10 `clash` is the least key,
/// read as unsigned, that both have with data of different lengths; else it is
/// left.
pub fn delta_create(
    base: &[i32],
    target: &[i32],
    out: &mut [i32],
    count: &mut usize,
    clash: &mut i32,
) -> u32 {
    unsafe {
        sys::cef_delta_create(
            base.as_ptr(),
            base.len(),
            target.as_ptr(),
            target.len(),
            out.as_mut_ptr(),
            out.len(),
            count,
            clash,
        )
    }
}

/// Writes a delta under known sizes to the front of `out`. Refused (47, 46,
/// 40): `out` and `count` are left.
pub fn delta_write_to_ints(area: &[i32], sizes: &[i32], out: &mut [i32], count: &mut usize) -> u32 {
    unsafe {
        sys::cef_delta_write_to_ints(
            area.as_ptr(),
            area.len(),
            sizes.as_ptr(),
            sizes.len(),
            out.as_mut_ptr(),
            out.len(),
            count,
        )
    }
}

/// Packs a delta under known sizes into the front of `out`. Refused (47, 46,
/// 40): `out` and `count` are left.
pub fn delta_write(area: &[i32], sizes: &[i32], out: &mut [u8], count: &mut usize) -> u32 {
    unsafe {
        sys::cef_delta_write(
            area.as_ptr(),
            area.len(),
            sizes.as_ptr(),
            sizes.len(),
            out.as_mut_ptr(),
            out.len(),
            count,
        )
    }
}

/// Reads a delta of ints under known sizes into the front of `out`. Refused:
/// `out` and `count` are left. `scratch` is then zeros, and `warnings` set, in
/// any case.
pub fn delta_read_from_ints(
    src: &[i32],
    sizes: &[i32],
    out: &mut [i32],
    scratch: &mut [i32],
    count: &mut usize,
    warnings: &mut Warnings,
) -> u32 {
    unsafe {
        sys::cef_delta_read_from_ints(
            src.as_ptr(),
            src.len(),
            sizes.as_ptr(),
            sizes.len(),
            out.as_mut_ptr(),
            out.len(),
            scratch.as_mut_ptr(),
            scratch.len(),
            count,
            &mut warnings.0,
        )
    }
}

/// Reads a packed delta under known sizes into the front of `out`. Refused:
/// `out` and `count` are left. `scratch` is then zeros, and `warnings` set, in
/// any case.
pub fn delta_read(
    src: &[u8],
    sizes: &[i32],
    out: &mut [i32],
    scratch: &mut [i32],
    count: &mut usize,
    warnings: &mut Warnings,
) -> u32 {
    unsafe {
        sys::cef_delta_read(
            src.as_ptr(),
            src.len(),
            sizes.as_ptr(),
            sizes.len(),
            out.as_mut_ptr(),
            out.len(),
            scratch.as_mut_ptr(),
            scratch.len(),
            count,
            &mut warnings.0,
        )
    }
}

/// The differences of `to` from `from` into the front of `out`; where
/// `has_from` is 0, `to` itself. Refused (10, 40): `out` and `count` are left.
pub fn create_item_delta(
    has_from: u32,
    from: &[i32],
    to: &[i32],
    out: &mut [i32],
    count: &mut usize,
) -> u32 {
    unsafe {
        sys::cef_create_item_delta(
            has_from,
            from.as_ptr(),
            from.len(),
            to.as_ptr(),
            to.len(),
            out.as_mut_ptr(),
            out.len(),
            count,
        )
    }
}

/// `from` with the differences added, into the front of `out`; where
/// `has_from` is 0, the differences themselves. Refused (10, 40): `out` and
/// `count` are left.
pub fn apply_item_delta(
    has_from: u32,
    from: &[i32],
    delta: &[i32],
    out: &mut [i32],
    count: &mut usize,
) -> u32 {
    unsafe {
        sys::cef_apply_item_delta(
            has_from,
            from.as_ptr(),
            from.len(),
            delta.as_ptr(),
            delta.len(),
            out.as_mut_ptr(),
            out.len(),
            count,
        )
    }
}
