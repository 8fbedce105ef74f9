//! Tables with rules, lists of types, and other ways to the same table.

use crate::core::random::Random;
use crate::parts::packer::numbered;
use crate::parts::packer::packed;
use crate::parts::tables::inputs::listed;
use crate::parts::tables::oracle::parts;
use crate::parts::tables::oracle::written;
use crate::parts::tables::oracle::Item;
use crate::parts::tables::sorted;
use cefdugar::delta;
use cefdugar::table;
use libtw2_snapshot::snap::RawSnap;

/// Keys on both sides of type 8000 hex: of types 1, 7fff and twice 8000 hex.
/// The two in the middle are the last and the first of their types.
pub const KEYS: [i32; 4] = [0x1_0007, i32::MAX, i32::MIN, i32::MIN + 7];

/// The types of these keys, and 0, which none of them has.
pub const TYPES: [u16; 4] = [0, 1, 0x7fff, 0x8000];

/// Types in random tables.
const MORE_TYPES: [u16; 10] = [0, 1, 2, 3, 0x3fff, 0x4000, 0x7fff, 0x8000, 0x8001, 0xffff];

/// Priorities in random tables.
const PRIORITIES: [i32; 8] = [i32::MIN, i32::MIN + 1, -2, -1, 0, 1, i32::MAX - 1, i32::MAX];

/// Ingredients in random tables.
const INGREDIENTS: [i32; 6] = [0, 1, 2, -1, i32::MIN, i32::MAX];

/// The key of a type and an id.
pub fn key(raw_type_id: u16, id: u16) -> i32 {
    (u32::from(raw_type_id) << 16 | u32::from(id)) as i32
}

/// The ints of a table in form.
pub fn area(items: &[Item]) -> Vec<i32> {
    listed(&sorted(items))
}

/// Data of up to four ints: these ingredients, priorities from -1 to 1.
pub fn data(ingredients: &[i32]) -> Vec<Vec<i32>> {
    let mut all = vec![vec![]];
    for &ingredient in ingredients {
        all.push(vec![ingredient]);
        for priority in -1..=1 {
            all.push(vec![ingredient, priority]);
            all.push(vec![ingredient, priority, 9]);
            all.push(vec![ingredient, priority, 9, 1]);
        }
    }
    all
}

/// The item with this data, and with an action that is its key's alone.
fn rule(key: i32, data: &[i32]) -> Item {
    let mut data = data.to_vec();
    if let Some(action) = data.get_mut(2) {
        *action = 10 + (key >> 24) + (key & 7);
    }
    (key, data)
}

/// Calls `each` with all tables of `count` of the [`KEYS`] and this data.
pub fn few<E>(
    count: u32,
    data: &[Vec<i32>],
    mut each: impl FnMut(&[i32]) -> Result<(), E>,
) -> Result<(), E> {
    let places: Vec<usize> = (0..data.len()).collect();
    for chosen in (0..16u32).filter(|chosen| chosen.count_ones() == count) {
        let keys: Vec<i32> = (0..4)
            .filter(|i| chosen >> i & 1 == 1)
            .map(|i| KEYS[i])
            .collect();
        for number in 0..data.len().pow(count) {
            let places = numbered(number, count, &places);
            let items: Vec<Item> = keys
                .iter()
                .zip(&places)
                .map(|(&key, &place)| rule(key, &data[place]))
                .collect();
            each(&listed(&items))?;
        }
    }
    Ok(())
}

/// All lists of up to three of the [`TYPES`].
pub fn short_lists() -> Vec<Vec<u16>> {
    (0..=3)
        .flat_map(|len| (0..4usize.pow(len)).map(move |number| numbered(number, len, &TYPES)))
        .collect()
}

/// A table with rules, and what there is to ask for.
pub struct Rules {
    pub items: Vec<Item>,
    pub types: Vec<u16>,
    pub ingredients: Vec<i32>,
}

impl Rules {
    /// At most `most` items of a few types, with few ingredients and
    /// priorities; in some tables a few items have fewer than three ints.
    pub fn any(random: &mut Random, most: usize) -> Rules {
        let types = some(random, &MORE_TYPES, 6);
        let ingredients = some(random, &INGREDIENTS, 4);
        let priorities = some(random, &PRIORITIES, 3);
        let short = random.chance(1, 3);
        let ids = random.pick(&[4, 300, 65_536]);
        let mut items: Vec<Item> = vec![];
        let count = random.pick(&[0, 1, 2, 3, 5, 8, 20, 60, 200, 1_024]);
        for i in 0..count.min(most) {
            let key = key(random.pick(&types), random.below(ids) as u16);
            let mut data = vec![
                random.pick(&ingredients),
                random.pick(&priorities),
                i as i32,
            ];
            data.resize(random.pick(&[3, 3, 4, 6]), random.pick(&priorities));
            if short && random.chance(1, 12) {
                data.truncate(random.below(3));
            }
            items.push((key, data));
        }
        let mut items = sorted(&items);
        items.dedup_by_key(|(key, _)| *key);
        Rules {
            items,
            types,
            ingredients,
        }
    }
    /// A list of some of the types, and of others.
    pub fn list(&self, random: &mut Random) -> Vec<u16> {
        let len = random.pick(&[0, 1, 1, 2, 3, 4, 6, 12]);
        let one = |_| match random.below(4) {
            0 => random.pick(&MORE_TYPES),
            _ => random.pick(&self.types),
        };
        (0..len).map(one).collect()
    }
}

/// A few entries of a list, some maybe more than once.
fn some<T: Copy>(random: &mut Random, list: &[T], most: usize) -> Vec<T> {
    let len = random.between(1, most);
    (0..len).map(|_| random.pick(list)).collect()
}

/// The table, as the port makes it: read packed, read with its items turned,
/// built in two orders, and by a delta from another table.
pub fn made_again(table: &RawSnap) -> Vec<Vec<i32>> {
    let written = written(table);
    let items: Vec<Item> = table
        .items()
        .map(|item| (item.key(), item.data.to_vec()))
        .collect();
    let turned: Vec<Item> = items.iter().rev().cloned().collect();
    let mut between: Vec<Item> = items.iter().step_by(2).cloned().collect();
    between.extend(items.iter().skip(1).step_by(2).rev().cloned());
    vec![
        read(&packed(&written), written.len()),
        read_ints(&listed(&turned), written.len()),
        built(&turned, written.len()),
        built(&between, written.len() + 3),
        received(&items, &written),
    ]
}

/// Some ints that are no table.
fn blank(len: usize) -> Vec<i32> {
    (0..len as i32).map(|i| 7 - i).collect()
}

fn read(src: &[u8], len: usize) -> Vec<i32> {
    let mut out = blank(len + 2);
    let mut scratch = vec![0; src.len().max(table::SCRATCH)];
    let (said, _) = table::read(src, &mut out, &mut scratch);
    assert!(said == Ok(len));
    out
}

fn read_ints(src: &[i32], len: usize) -> Vec<i32> {
    let mut out = blank(len);
    let (said, _) = table::read_from_ints(src, &mut out);
    assert!(said == Ok(len));
    out
}

fn built(items: &[Item], room: usize) -> Vec<i32> {
    let mut out = blank(room);
    let said = table::empty(&mut out);
    assert!(said == Ok(2));
    for (key, data) in items {
        let (raw_type_id, id) = parts(*key);
        let said = table::add_item(&mut out, raw_type_id, id, data);
        assert!(said.is_ok());
    }
    out
}

/// A table that lacks some of the items, has others, and one more.
fn earlier(items: &[Item]) -> Vec<Item> {
    let mut earlier: Vec<Item> = items
        .iter()
        .enumerate()
        .filter(|(i, _)| i % 3 != 0)
        .map(|(i, (key, data))| {
            let change = |int: &i32| int.wrapping_add(i as i32 % 2);
            (*key, data.iter().map(change).collect())
        })
        .collect();
    let absent = |key: &i32| items.iter().all(|(other, _)| other != key);
    let key = (0..).map(|i| i * 0x1_0001).find(absent);
    earlier.push((key.expect("a free key"), vec![1, 2, 3]));
    earlier
}

fn received(items: &[Item], written: &[i32]) -> Vec<i32> {
    let base = area(&earlier(items));
    let mut delta = blank(delta::INTS);
    let ints = delta::create(&base, written, &mut delta).expect("a delta");
    let mut out = blank(written.len() + 1);
    let mut scratch = vec![0; table::SCRATCH];
    let (said, _) = table::read_with_delta(&base, &delta[..ints], &mut out, &mut scratch);
    assert!(said == Ok(written.len()));
    out
}
