//! Lists of calls on a store: printers' and controllers', with ticks and bases
//! of all sorts.

use super::calls::Step;
use super::oracle::Call;
use super::oracle::Store;
use crate::core::counted::room;
use crate::core::damage::damage;
use crate::core::random::Random;
use crate::core::told::Told;
use crate::parts::deltas;
use crate::parts::receiver::inputs::any_tick;
use crate::parts::tables;
use crate::parts::tables::oracle::Item;
use crate::parts::tables::sorted;
use cefdugar::table;

/// The first type of a kind.
const KINDS: i32 = 0x4000;

/// The key of a type and an id.
pub fn key(raw_type_id: i32, id: i32) -> i32 {
    raw_type_id << 16 | id
}

/// Items with sound types, distinct keys, and mostly one length for each type.
pub fn items(random: &mut Random, most: usize) -> Vec<Item> {
    let mut items: Vec<Item> = vec![];
    let kinds = random.pick(&[0, 0, 0, 1, 3]);
    for kind in 0..kinds {
        let len = random.pick(&[4, 4, 4, 4, 4, 4, 4, 5]);
        let mut data: Vec<i32> = (0..len).map(|_| random.int()).collect();
        data[0] = kind;
        items.push((key(0, KINDS + kind), data));
    }
    for _ in 0..random.below(most + 1) {
        let raw_type_id = match random.below(4) {
            0 if kinds > 0 => KINDS + random.below(kinds as usize) as i32,
            1 => random.between(1, KINDS as usize - 1) as i32,
            _ => random.between(1, 4) as i32,
        };
        let key = key(raw_type_id, random.pick(&[0, 1, 2, 3, 4, 5, 65_535]));
        let len = match random.below(30) {
            0 => random.pick(&[0, 1, 2, 7]),
            _ => raw_type_id as usize % 4,
        };
        if items.iter().all(|(other, _)| *other != key) {
            items.push((key, (0..len).map(|_| random.int()).collect()));
        }
    }
    items
}

/// The items of a table in its written form.
pub fn items_of(table: &[i32]) -> Vec<Item> {
    let snap = tables::oracle::held(table).expect("a table");
    snap.items()
        .map(|item| (item.key(), item.data.to_vec()))
        .collect()
}

/// A table in its written form.
pub fn table_of(items: &[Item]) -> Vec<i32> {
    tables::inputs::listed(&sorted(items))
}

/// A table that has much in common with another one.
pub fn related(table: &[i32], random: &mut Random) -> Vec<i32> {
    let mut items = items_of(table);
    items.retain(|(key, _)| *key as u32 >> 16 == 0 || !random.chance(1, 8));
    for (key, data) in &mut items {
        if *key as u32 >> 16 != 0 && random.chance(1, 3) {
            data.iter_mut().for_each(|int| *int = random.int());
        }
        if random.chance(1, 300) {
            data.push(1);
        }
    }
    for (key, data) in self::items(random, 2) {
        let taken = items.iter().any(|(other, _)| *other == key);
        let kind = key as u32 >> 16 == 0 || key as u32 >> 30 != 0;
        if !taken && !(kind && random.chance(2, 3)) {
            items.push((key, data));
        }
    }
    items.truncate(table::ITEMS);
    table_of(&items)
}

/// The sort of list: how often each call comes, and which bases.
#[derive(Clone, Copy)]
pub struct Mood {
    /// Of 20 calls: `add_delta`, `add_snap`, `set_delta_tick`; the rest is
    /// `reset`, and that only at times.
    parts: [usize; 3],
    /// Whether the base is mostly the oldest table, so that many stay.
    hoards: bool,
    /// About how many items a table has.
    most: usize,
}

/// A list of calls on a new store.
pub fn steps(random: &mut Random) -> Vec<Step> {
    let mut count = random.between(3, 40);
    let mut mood = Mood {
        parts: random.pick(&[[17, 1, 1], [2, 13, 4], [9, 7, 3], [14, 3, 2]]),
        hoards: random.chance(1, 3),
        most: random.pick(&[2, 4, 8, 20]),
    };
    if random.chance(1, 25) {
        count = random.between(130, 220);
        mood.parts = random.pick(&[[19, 1, 0], [1, 18, 1], [12, 8, 0]]);
        (mood.hoards, mood.most) = (true, 3);
    }
    let mut store = Store::new();
    let mut tick = match random.below(3) {
        0 => any_tick(random),
        _ => random.below(5) as i32 - 2,
    };
    let mut steps = vec![];
    for _ in 0..count {
        let newest = store.held.first().map_or(tick, |(tick, _)| *tick);
        tick = match random.below(if mood.hoards { 200 } else { 40 }) {
            0 => any_tick(random),
            1 => newest,
            2 => newest.wrapping_sub(1),
            3 => tick,
            _ => newest.saturating_add(random.between(1, 3) as i32),
        };
        let step = Step {
            call: call(random, &store, tick, mood),
            spare: random.pick(&[0, 0, 0, 1, 2, 50, 300, 300, 300, -1]),
        };
        let [after, _] = store.needs(&step.call);
        let len = room(after, step.spare).max(store.len());
        store.call(&step.call, len);
        steps.push(step);
    }
    steps
}

fn call(random: &mut Random, store: &Store, tick: i32, mood: Mood) -> Call {
    let [deltas, snaps, bases] = mood.parts;
    let place = random.below(20);
    if place < deltas {
        add_delta(random, store, tick, mood)
    } else if place < deltas + snaps {
        add_snap(random, store, tick, mood)
    } else if place < deltas + snaps + bases {
        Call::SetDeltaTick(base(random, store, tick, mood))
    } else if random.chance(1, 4) {
        Call::Reset
    } else {
        add_delta(random, store, tick, mood)
    }
}

/// A base: held, dropped, next to a held one, negative, any.
fn base(random: &mut Random, store: &Store, tick: i32, mood: Mood) -> i32 {
    let held = &store.held;
    let oldest = held.last().map_or(-1, |(tick, _)| *tick);
    if mood.hoards && random.chance(39, 40) {
        return random.pick(&[oldest, oldest, oldest, -1]);
    }
    match random.below(20) {
        0 => any_tick(random),
        1 => tick.wrapping_sub(random.below(4) as i32),
        2 => -1,
        3 => random.pick(&[-2, -3, i32::MIN, i32::MIN + 1]),
        4 if !held.is_empty() => {
            let (tick, _) = &held[random.below(held.len())];
            tick.wrapping_add(random.pick(&[-1, 1]))
        }
        5..=8 => oldest,
        _ if held.is_empty() => -1,
        9..=14 => held[0].0,
        _ => held[random.below(held.len())].0,
    }
}

/// If a delta can be made, it is mostly one for its base; its sum is mostly
/// right.
fn add_delta(random: &mut Random, store: &Store, tick: i32, mood: Mood) -> Call {
    let base = base(random, store, tick, mood);
    let empty = vec![0, 0];
    let from = match random.below(12) {
        0 if !store.held.is_empty() => store.held[random.below(store.held.len())].1.clone(),
        1 => table_of(&items(random, mood.most)),
        _ => store.table_at(base).unwrap_or(&empty).to_vec(),
    };
    let to = match random.below(12) {
        0 => table_of(&tables::inputs::items(random)),
        1 | 2 => table_of(&items(random, mood.most)),
        _ => related(&from, random),
    };
    let mut delta = match deltas::oracle::created(&from, &to) {
        Told::Value(delta) => delta,
        _ => vec![0, 0, 0],
    };
    match random.below(24) {
        0 => {
            let (deleted, updated) = deltas::inputs::delta(random);
            delta = deltas::inputs::listed(&deleted, &updated);
        }
        1 => damage(&mut delta, random),
        2 => delta.extend([7, 8]),
        _ => {}
    }
    let right = tables::oracle::held(&to).map(|snap| snap.crc());
    let crc = match random.below(10) {
        0 | 1 => None,
        2 => Some(random.int()),
        _ => right,
    };
    Call::AddDelta {
        crc,
        base,
        tick,
        delta,
    }
}

fn add_snap(random: &mut Random, store: &Store, tick: i32, mood: Mood) -> Call {
    let mut table = match (random.below(8), store.held.first()) {
        (0, _) => table_of(&tables::inputs::items(random)),
        (1 | 2, _) | (_, None) => table_of(&items(random, mood.most)),
        (_, Some((_, newest))) => related(newest, random),
    };
    match random.below(16) {
        0 => damage(&mut table, random),
        1 => table.extend([5, 6]),
        _ => {}
    }
    Call::AddSnap {
        tick,
        table,
        spare: random.pick(&[0, 0, 0, 0, 1, 3, 20, -1]),
    }
}
