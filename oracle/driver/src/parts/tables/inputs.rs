//! Tables of all sorts, good and bad.

use super::oracle::Item;
use crate::core::damage::Entry;
use crate::core::random::Random;
use crate::core::shrink::Shrink;

/// Ints that reach each branch of reading, for short lists.
pub const TELLING: [i32; 7] = [0, 1, 2, 4, 8, -1, 65_536];

/// Keys at the ends of both orders.
pub const KEYS: [i32; 6] = [0, 1, 65_538, i32::MAX, i32::MIN, -1];

/// The ints of items in the given order, without a check.
pub fn listed(items: &[Item]) -> Vec<i32> {
    let mut ints = vec![0, items.len() as i32];
    let mut size = 0;
    for (_, data) in items {
        ints.push(size);
        size += 4 * (1 + data.len() as i32);
    }
    ints[0] = size;
    for (key, data) in items {
        ints.push(*key);
        ints.extend(data);
    }
    ints
}

/// A key of any sort.
pub fn key(random: &mut Random) -> i32 {
    match random.below(4) {
        0 => random.pick(&KEYS),
        1 => random.below(40) as i32,
        2 => (random.below(6) as i32) << 16 | random.below(4) as i32,
        _ => random.bits() as i32,
    }
}

/// Items with distinct keys, in any order.
pub fn items(random: &mut Random) -> Vec<Item> {
    let count = random.pick(&[0, 1, 2, 3, 4, 6, 10, 20, 60]);
    let mut items: Vec<Item> = vec![];
    for _ in 0..count {
        let key = key(random);
        if items.iter().all(|(other, _)| *other != key) {
            let len = random.pick(&[0, 0, 1, 1, 2, 3, 5, 12]);
            items.push((key, (0..len).map(|_| random.int()).collect()));
        }
    }
    items
}

/// `count` items with rising keys and `ints` ints of data among them.
pub fn many(count: usize, ints: usize) -> Vec<Item> {
    (0..count)
        .map(|i| {
            let len = ints / count + usize::from(i < ints % count);
            let key = (i as i32).wrapping_mul(0x0040_0001);
            (key, (0..len).map(|j| (i * 7 + j) as i32 - 50).collect())
        })
        .collect()
}

/// Changes an int of the header or of the offsets, or a key to another one.
pub fn misread(ints: &mut [i32], items: &[Item], random: &mut Random) {
    let head = 2 + items.len();
    if items.len() < 2 || random.chance(2, 3) {
        let at = random.below(head);
        ints[at] = ints[at].changed(random);
        return;
    }
    let mut places = vec![];
    let mut at = head;
    for (_, data) in items {
        places.push(at);
        at += 1 + data.len();
    }
    let (from, to) = (random.pick(&places), random.pick(&places));
    ints[to] = ints[from];
}

/// Ints that are shrunk item by item if they form a table.
#[derive(Clone)]
pub struct List(pub Vec<i32>);

/// The items of a table's ints, in their order, and the ints after it.
fn taken_apart(ints: &[i32]) -> Option<(Vec<Item>, Vec<i32>)> {
    let size = usize::try_from(*ints.first()?).ok()? / 4;
    let count = usize::try_from(*ints.get(1)?).ok()?;
    let (offsets, rest) = ints[2..].split_at_checked(count)?;
    let (body, rest) = rest.split_at_checked(size)?;
    let mut places = vec![];
    for &offset in offsets {
        places.push(usize::try_from(offset).ok()? / 4);
    }
    places.push(size);
    let mut items = vec![];
    for ends in places.windows(2) {
        let (key, data) = body.get(ends[0]..ends[1])?.split_first()?;
        items.push((*key, data.to_vec()));
    }
    Some((items, rest.to_vec()))
}

impl Shrink for List {
    fn offer(&self, take: &mut dyn FnMut(List) -> bool) -> bool {
        let by_item = taken_apart(&self.0).is_some_and(|table| {
            table.offer(&mut |(items, rest)| {
                let mut ints = listed(&items);
                ints.extend(rest);
                take(List(ints))
            })
        });
        by_item || self.0.offer(&mut |ints| take(List(ints)))
    }
}
