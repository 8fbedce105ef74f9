//! Tables with types, and deltas to them, good and bad.

use crate::core::random::Random;
use crate::core::shrink::Shrink;
use crate::parts::deltas;
use crate::parts::tables::oracle::parts;
use crate::parts::tables::oracle::Item;
use cefdugar::snap::uuid_from_ints;
use cefdugar::snap::uuid_to_ints;
use cefdugar::snap::TypeId;

/// Kinds, of which some differ in one int.
pub const KINDS: [[i32; 4]; 6] = [
    [0, 0, 0, 0],
    [1, 2, 3, 4],
    [1, 2, 3, 5],
    [2, 2, 3, 4],
    [-1, i32::MIN, i32::MAX, 0x0102_0304],
    [i32::MIN, 0, 0, 0],
];

/// Raw types at the ends of their ranges.
pub const TYPES: [u16; 9] = [0, 1, 2, 0x3fff, 0x4000, 0x4001, 0x7fff, 0x8000, 0xffff];

/// Ids of items of type 0, in a builder's order and not.
const KIND_IDS: [u16; 7] = [0x4000, 0x4001, 0x4003, 0x8000, 0xffff, 5, 0];

/// The key of a type and an id.
pub fn key(raw_type_id: u16, id: u16) -> i32 {
    (u32::from(raw_type_id) << 16 | u32::from(id)) as i32
}

pub fn kind(ints: [i32; 4]) -> TypeId {
    TypeId::Uuid(uuid_from_ints(ints))
}

fn ints(len: usize, random: &mut Random) -> Vec<i32> {
    (0..len).map(|_| random.int()).collect()
}

fn some_kind(random: &mut Random) -> [i32; 4] {
    match random.below(4) {
        0 => [(); 4].map(|()| random.int()),
        _ => random.pick(&KINDS),
    }
}

/// Items without the later one of two with the same key.
fn distinct(items: Vec<Item>) -> Vec<Item> {
    let mut result: Vec<Item> = vec![];
    for item in items {
        if result.iter().all(|(key, _)| *key != item.0) {
            result.push(item);
        }
    }
    result
}

/// Items of a table as a builder builds it, in any order.
pub fn built(random: &mut Random) -> Vec<Item> {
    let count = random.pick(&[0, 0, 1, 2, 3, 6]);
    let kinds = &KINDS[..count];
    let mut items: Vec<Item> = (0x4000..)
        .zip(kinds)
        .map(|(id, kind)| (key(0, id), kind.to_vec()))
        .collect();
    for _ in 0..random.pick(&[0, 1, 2, 4, 8, 20]) {
        let raw_type_id = match random.below(2) {
            0 if count > 0 => 0x4000 + random.below(count) as u16,
            _ => random.pick(&[1, 2, 3, 0x3fff]),
        };
        let id = random.pick(&[0, 1, 2, 7, 0x4000, 0xffff]);
        let len = random.pick(&[0, 0, 1, 2, 4, 5]);
        items.push((key(raw_type_id, id), ints(len, random)));
    }
    distinct(items)
}

/// An item of type 0: its id and its kind are any, and at times it is too
/// short or too long.
fn kind_item(random: &mut Random) -> Item {
    let mut data = some_kind(random).to_vec();
    match random.below(6) {
        0 => data.extend(ints(random.pick(&[1, 2, 60]), random)),
        1 if random.chance(1, 3) => data.truncate(random.below(4)),
        _ => {}
    }
    (key(0, random.pick(&KIND_IDS)), data)
}

/// Items with distinct keys, in any order, whose types are sound or not.
pub fn items(random: &mut Random) -> Vec<Item> {
    let mut items = built(random);
    if random.chance(1, 2) {
        return items;
    }
    for _ in 0..random.pick(&[1, 1, 2, 4]) {
        let item = kind_item(random);
        // A kind that is present already comes again with another id.
        items.insert(random.below(items.len() + 1), item);
    }
    for _ in 0..random.pick(&[0, 0, 1, 2]) {
        let (_, id) = parts(items[random.below(items.len())].0);
        let raw_type_id = match random.below(2) {
            0 => id.max(1),
            _ => random.pick(&TYPES).max(1),
        };
        items.push((key(raw_type_id, random.below(3) as u16), ints(1, random)));
    }
    distinct(items)
}

/// The ints of a delta in form, from keys in any order; repeated ones are left
/// out.
pub fn delta(mut deleted: Vec<i32>, updated: Vec<Item>) -> Vec<i32> {
    deleted.sort_unstable();
    deleted.dedup();
    let mut updated = distinct(updated);
    updated.sort_by_key(|(key, _)| *key);
    deltas::inputs::listed(&deleted, &updated)
}

/// An update of an item: mostly of the same length, and often without a change.
fn update(data: &[i32], random: &mut Random) -> Vec<i32> {
    let len = match random.below(16) {
        0 => data.len() + 1,
        1 => data.len().saturating_sub(1),
        _ => data.len(),
    };
    match random.below(3) {
        0 => ints(len, random),
        1 => vec![1; len],
        _ => vec![0; len],
    }
}

/// A delta in form to a table: some of its items are deleted, some updated,
/// some both, and some keys are not in the table.
pub fn delta_to(base: &[Item], random: &mut Random) -> Vec<i32> {
    let [deletes, updates] = random.pick(&[[0, 3], [1, 3], [3, 1], [2, 2], [6, 6]]);
    let (mut deleted, mut updated) = (vec![], vec![]);
    for (key, data) in base {
        if random.chance(deletes, 6) {
            deleted.push(*key);
        }
        if random.chance(updates, 6) {
            updated.push((*key, update(data, random)));
        }
    }
    let others = random.pick(&[0, 0, 1, 3, 20]);
    for (key, data) in items(random).into_iter().take(others) {
        match random.below(6) {
            0 => deleted.push(key),
            _ => updated.push((key, data)),
        }
    }
    delta(deleted, updated)
}

/// A type that an item may be asked for or added with.
pub fn type_id(random: &mut Random) -> TypeId {
    match random.below(5) {
        0 => TypeId::Ordinal(random.pick(&TYPES)),
        1 => TypeId::Ordinal(random.pick(&[1, 2])),
        _ => kind(some_kind(random)),
    }
}

impl Shrink for TypeId {
    fn offer(&self, take: &mut dyn FnMut(TypeId) -> bool) -> bool {
        match *self {
            TypeId::Ordinal(ordinal) => {
                usize::from(ordinal).offer(&mut |number| take(TypeId::Ordinal(number as u16)))
            }
            TypeId::Uuid(bytes) => (0..4).any(|i| {
                let ints = uuid_to_ints(bytes);
                ints[i].offer(&mut |int| {
                    let mut simpler = ints;
                    simpler[i] = int;
                    take(kind(simpler))
                })
            }),
        }
    }
}
