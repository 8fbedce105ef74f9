//! Pairs of tables, deltas and known sizes of all sorts, good and bad.

use super::oracle::known_size;
use crate::core::random::Random;
use crate::core::shrink::Shrink;
use crate::parts::tables;
use crate::parts::tables::oracle::parts;
use crate::parts::tables::oracle::Item;

/// Ints that reach each branch of judging a delta's form, for short lists.
pub const TELLING: [i32; 5] = [0, 1, 2, -1, 65_536];

/// The ints of a delta in the given order, without a check.
pub fn listed(deleted: &[i32], updated: &[Item]) -> Vec<i32> {
    let mut ints = vec![deleted.len() as i32, updated.len() as i32, 0];
    ints.extend(deleted);
    for (key, data) in updated {
        let (raw_type_id, id) = parts(*key);
        ints.extend([i32::from(raw_type_id), i32::from(id), data.len() as i32]);
        ints.extend(data);
    }
    ints
}

/// All tables that have each of the keys at the ends of both orders, with no
/// data or with one int.
pub fn clashing() -> Vec<Vec<i32>> {
    let keys = tables::inputs::KEYS;
    (0..1 << keys.len())
        .map(|set: usize| {
            let len = |i: usize| set >> i & 1;
            let items: Vec<Item> = (0..keys.len())
                .map(|i| (keys[i], vec![keys[i] ^ 5; len(i)]))
                .collect();
            tables::inputs::listed(&tables::sorted(&items))
        })
        .collect()
}

/// A table that has much in common with another: some items are removed, some
/// changed, some added. At times one of them gets longer or shorter.
pub fn related(items: &[Item], random: &mut Random) -> Vec<Item> {
    let mut result = vec![];
    for (key, data) in items {
        let mut data = data.clone();
        match random.below(6) {
            0 => continue,
            1 => data.iter_mut().for_each(|int| *int = random.int()),
            2 => {
                if let Some(int) = data.first_mut() {
                    *int = int.wrapping_add(1);
                }
            }
            _ => {}
        }
        if random.chance(1, 60) {
            match random.below(2) {
                0 => data.push(random.int()),
                _ => drop(data.pop()),
            }
        }
        result.push((*key, data));
    }
    for (key, data) in tables::inputs::items(random).into_iter().take(4) {
        if items.iter().all(|(other, _)| *other != key) {
            result.push((key, data));
        }
    }
    result
}

/// Distinct keys, rising in signed order.
fn keys(random: &mut Random) -> Vec<i32> {
    let count = random.pick(&[0, 0, 1, 1, 2, 3, 5, 12]);
    let mut keys: Vec<i32> = (0..count).map(|_| tables::inputs::key(random)).collect();
    keys.sort_unstable();
    keys.dedup();
    keys
}

/// A delta in form. Mostly, items of one type have one length.
pub fn delta(random: &mut Random) -> (Vec<i32>, Vec<Item>) {
    let uniform = random.chance(3, 4);
    let deleted = keys(random);
    let mut updated = vec![];
    for key in keys(random) {
        let len = match uniform {
            true => usize::from(parts(key).0 % 4),
            false => random.pick(&[0, 1, 2, 7]),
        };
        updated.push((key, (0..len).map(|_| random.int()).collect()));
    }
    (deleted, updated)
}

/// A delta with keys in any order and some of them repeated, and with keys
/// that are both deleted and updated.
pub fn jumbled(random: &mut Random) -> (Vec<i32>, Vec<Item>) {
    let (mut deleted, mut updated) = delta(random);
    for (key, _) in &updated {
        if random.chance(1, 3) {
            deleted.push(*key);
        }
    }
    for _ in 0..random.pick(&[0, 0, 1, 3]) {
        if !deleted.is_empty() {
            deleted.push(random.pick(&deleted));
        }
        if !updated.is_empty() {
            let (key, mut data) = updated[random.below(updated.len())].clone();
            data.iter_mut().for_each(|int| *int = random.int());
            updated.push((key, data));
        }
    }
    shuffle(&mut deleted, random);
    shuffle(&mut updated, random);
    (deleted, updated)
}

/// Puts a list into any order.
pub fn shuffle<T>(list: &mut [T], random: &mut Random) {
    for last in (1..list.len()).rev() {
        list.swap(last, random.between(0, last));
    }
}

/// The ints of a delta as they are sent under known sizes: a size that is
/// known, right or not, is left out.
pub fn sent(deleted: &[i32], updated: &[Item], sizes: &[i32]) -> Vec<i32> {
    let mut ints = listed(deleted, &[]);
    ints[1] = updated.len() as i32;
    for (key, data) in updated {
        let (raw_type_id, id) = parts(*key);
        ints.extend([i32::from(raw_type_id), i32::from(id)]);
        if known_size(sizes, raw_type_id).is_none() {
            ints.push(data.len() as i32);
        }
        ints.extend(data);
    }
    ints
}

/// The lengths of updates by their types, in a list of `len` types; all others
/// are unknown. The last update of a type counts.
pub fn right_sizes(updated: &[Item], len: usize) -> Vec<i32> {
    let mut sizes = vec![-1; len];
    for (key, data) in updated {
        if let Some(size) = sizes.get_mut(usize::from(parts(*key).0)) {
            *size = data.len() as i32;
        }
    }
    sizes
}

/// Known sizes for a delta's updates: none, unknown ones, right ones, some
/// wrong ones, any.
pub fn sizes(updated: &[Item], random: &mut Random) -> Vec<i32> {
    const UNKNOWN: [i32; 3] = [-1, -7, i32::MIN];
    let len = match random.below(12) {
        0 => 65_536,
        1 => 32_768,
        _ => random.pick(&[1, 2, 3, 5, 6, 40]),
    };
    match random.below(8) {
        0 => vec![],
        1 => (0..len).map(|_| random.pick(&UNKNOWN)).collect(),
        2 => {
            let mut sizes = right_sizes(updated, len);
            let at = random.below(len);
            sizes[at] = random.pick(&[0, 1, 2, 3, i32::MAX, i32::MIN]);
            sizes
        }
        3 => {
            let mut sizes = right_sizes(updated, len);
            for (key, _) in updated {
                if random.chance(1, 3) {
                    if let Some(size) = sizes.get_mut(usize::from(parts(*key).0)) {
                        *size += random.pick(&[1, -1, 65_536]);
                    }
                }
            }
            sizes
        }
        4 => (0..len.min(40))
            .map(|_| random.pick(&[-1, 0, 1, 2]))
            .collect(),
        _ => right_sizes(updated, len),
    }
}

/// Ints that are shrunk update by update if they form a delta.
#[derive(Clone)]
pub struct Ints(pub Vec<i32>);

/// The deleted keys and the updates of a delta's ints, and the ints after it.
pub fn taken_apart(ints: &[i32]) -> Option<(Vec<i32>, Vec<Item>, Vec<i32>)> {
    let [deleted, updated, 0, rest @ ..] = ints else {
        return None;
    };
    let (deleted, mut rest) = rest.split_at_checked(usize::try_from(*deleted).ok()?)?;
    let mut updates = vec![];
    for _ in 0..*updated {
        let [raw_type_id, id, size, data @ ..] = rest else {
            return None;
        };
        let (raw_type_id, id) = (u16::try_from(*raw_type_id), u16::try_from(*id));
        let key = i32::from(raw_type_id.ok()?) << 16 | i32::from(id.ok()?);
        let (data, behind) = data.split_at_checked(usize::try_from(*size).ok()?)?;
        updates.push((key, data.to_vec()));
        rest = behind;
    }
    Some((deleted.to_vec(), updates, rest.to_vec()))
}

/// The updates of a delta's ints.
pub fn updates_of(ints: &[i32]) -> Vec<Item> {
    taken_apart(ints).expect("a delta's ints").1
}

impl Shrink for Ints {
    fn offer(&self, take: &mut dyn FnMut(Ints) -> bool) -> bool {
        let by_update = taken_apart(&self.0).is_some_and(|delta| {
            delta.offer(&mut |(deleted, updated, rest)| {
                let mut ints = listed(&deleted, &updated);
                ints.extend(rest);
                take(Ints(ints))
            })
        });
        by_update || self.0.offer(&mut |ints| take(Ints(ints)))
    }
}
