//! Deltas between tables: making, writing and reading; the differences of
//! single items.

pub mod bench;
mod calls;
mod hostile;
pub mod inputs;
pub mod oracle;
mod reads;
mod record;

use super::packer::numbered;
use super::tables;
use super::tables::inputs::KEYS;
use super::tables::oracle::Item;
use super::tables::sorted;
use super::Part;
use super::Rounds;
use crate::core::damage::damage;
use crate::core::random::Random;
use crate::core::report::Difference;
use crate::core::report::Length;
use crate::core::report::Run;
use crate::core::told::Told;
use calls::Calls;
use cefdugar::table;

pub fn part() -> Part {
    Part {
        name: "deltas",
        rounds: Rounds {
            quick: 500,
            full: 100_000,
        },
        compare,
        record: Some(record::fill),
        bench: Some(bench::bench),
    }
}

type Result = std::result::Result<(), Difference>;

fn compare(run: &mut Run) -> Result {
    let mut calls = Calls::new();
    for len in 0..=5 {
        calls.clear(run, len)?;
    }
    item_deltas(run, &mut calls)?;
    few_items(run, &mut calls)?;
    clashes(run, &mut calls)?;
    short_lists(run, &mut calls)?;
    few_updates(run, &mut calls)?;
    limits(run, &mut calls)?;
    reads::fixed(run, &mut calls)?;
    for round in 0..run.rounds {
        let mut random = run.random(round);
        random_pairs(run, &mut calls, &mut random)?;
        random_writes(run, &mut calls, &mut random)?;
        random_items(run, &mut calls, &mut random)?;
        reads::random(run, &mut calls, &mut random)?;
    }
    Ok(())
}

/// The examples of format.rs; then all pairs of up to two ints from a small
/// set, with each flag.
fn item_deltas(run: &mut Run, calls: &mut Calls) -> Result {
    const OLD: [i32; 4] = [0, 1337, 42, 0x7fff_ffff];
    const NEW: [i32; 4] = [0, 1338, 21, -0x8000_0000];
    const DELTA: [i32; 4] = [0, 1, -21, 1];
    const TELLING: [i32; 5] = [0, 1, -1, i32::MIN, i32::MAX];
    for has in [0, 1, 2, u32::MAX] {
        for other in [&NEW, &DELTA] {
            for len in 0..=OLD.len() {
                calls.item(run, has, &OLD[..len], other)?;
            }
        }
        for lens in [[0, 0], [0, 1], [1, 0], [1, 1], [1, 2], [2, 2]] {
            for number in 0..TELLING.len().pow(lens[0] + lens[1]) {
                let ints = numbered(number, lens[0] + lens[1], &TELLING);
                let (from, other) = ints.split_at(lens[0] as usize);
                calls.item(run, has, from, other)?;
            }
        }
    }
    Ok(())
}

/// All tables of up to three items with keys at the ends of both orders,
/// each with no data or one int.
fn few_tables() -> Vec<Vec<i32>> {
    let mut result = vec![];
    // For each key: absent, with no data, with one int.
    for number in 0..3usize.pow(KEYS.len() as u32) {
        let states = numbered(number, KEYS.len() as u32, &[None, Some(0), Some(1)]);
        let items: Vec<Item> = KEYS
            .iter()
            .zip(states)
            .filter_map(|(&key, len)| Some((key, vec![key ^ 5; len?])))
            .collect();
        if items.len() <= 3 {
            result.push(tables::inputs::listed(&sorted(&items)));
        }
    }
    result
}

/// All pairs of those tables.
fn few_items(run: &mut Run, calls: &mut Calls) -> Result {
    let tables = few_tables();
    for base in &tables {
        for target in &tables {
            calls.create(run, base, target)?;
        }
    }
    Ok(())
}

/// Every pair of tables with all those keys, each with no data or one int:
/// every set of them clashes, on both sides of 8000 0000 hex at once.
fn clashes(run: &mut Run, calls: &mut Calls) -> Result {
    let tables = inputs::clashing();
    for base in &tables {
        for target in &tables {
            calls.create(run, base, target)?;
        }
    }
    Ok(())
}

/// All lists of up to seven ints over a small alphabet (eight in a full run)
/// as areas; with no size known, and with all sizes 0.
fn short_lists(run: &mut Run, calls: &mut Calls) -> Result {
    let most = match run.length {
        Length::Quick => 7,
        Length::Full => 8,
    };
    for len in 0..=most {
        for number in 0..inputs::TELLING.len().pow(len) {
            let list = numbered(number, len, &inputs::TELLING);
            calls.write(run, &list, &[])?;
            calls.write(run, &list, &[0, 0, 0])?;
        }
    }
    Ok(())
}

/// All deltas of up to two deleted keys and two updates over a few keys, in
/// every order and with keys doubled, under several known sizes.
fn few_updates(run: &mut Run, calls: &mut Calls) -> Result {
    let mut all = vec![];
    for count in 0..=2 {
        for number in 0..KEYS.len().pow(count) {
            all.push(numbered(number, count, &KEYS));
        }
    }
    for deleted in &all {
        for keys in &all {
            for lens in [[0, 0], [1, 1], [0, 1], [2, 0]] {
                let updated: Vec<Item> = keys
                    .iter()
                    .zip(lens)
                    .map(|(&key, len)| (key, vec![key ^ 3; len]))
                    .collect();
                let mut area = inputs::listed(deleted, &updated);
                calls.write(run, &area, &[])?;
                area.push(7);
                calls.write(run, &area, &[1, 0])?;
                let right = inputs::right_sizes(&updated, 65_536);
                calls.write(run, &area, &right)?;
                calls.write(run, &area, &right[..65_535])?;
                area.truncate(area.len() - 2);
                calls.write(run, &area, &[-1])?;
            }
        }
    }
    Ok(())
}

/// Tables with the most items and the most ints; the longest delta; deltas
/// with more updates than a table has items.
fn limits(run: &mut Run, calls: &mut Calls) -> Result {
    let fullest = table::INTS - 2 - 2 * table::ITEMS;
    let tables: Vec<Vec<Item>> = vec![
        vec![],
        tables::inputs::many(table::ITEMS, 0),
        tables::inputs::many(table::ITEMS, 4 * table::ITEMS),
        tables::inputs::many(table::ITEMS, fullest),
        bench::changed(&tables::inputs::many(table::ITEMS, fullest)),
        // As full, but with other keys.
        tables::inputs::many(table::ITEMS, fullest)
            .into_iter()
            .map(|(key, data)| (key ^ 0x8000, data))
            .collect(),
        tables::inputs::many(1, table::INTS - 4),
        tables::inputs::many(table::ITEMS + 1, 0),
    ];
    for base in &tables {
        for target in &tables {
            let base = tables::inputs::listed(&sorted(base));
            let target = tables::inputs::listed(&sorted(target));
            calls.create(run, &base, &target)?;
        }
    }
    for count in [table::ITEMS, table::ITEMS + 1, 5_000] {
        let mut updated = tables::inputs::many(count, 3 * count);
        updated.sort_by_key(|(key, _)| *key);
        let deleted: Vec<i32> = updated.iter().map(|(key, _)| *key).collect();
        let mut area = inputs::listed(&deleted, &updated);
        calls.write(run, &area, &[])?;
        calls.write(run, &area, &[3; 65_536])?;
        calls.write(run, &area, &[3; 65_535])?;
        area[3 + count / 2] = area[4 + count / 2];
        calls.write(run, &area, &[])?;
    }
    // Counts and sizes that reach far past the end.
    for int in [i32::MAX, i32::MAX - 1, i32::MIN, 65_536, -1] {
        for at in [0, 1, 2, 3, 4, 5, 6] {
            let mut area = inputs::listed(&[3], &[(65_538, vec![5])]);
            area[at] = int;
            calls.write(run, &area, &[])?;
            calls.write(run, &area, &[0, int])?;
        }
    }
    Ok(())
}

fn random_pairs(run: &mut Run, calls: &mut Calls, random: &mut Random) -> Result {
    for _ in 0..100 {
        let base = tables::inputs::items(random);
        let target = match random.below(4) {
            0 => tables::inputs::items(random),
            _ => inputs::related(&base, random),
        };
        let mut base = tables::inputs::listed(&sorted(&base));
        let mut target = tables::inputs::listed(&sorted(&target));
        calls.create(run, &base, &target)?;
        calls.create(run, &target, &base)?;
        // The Rust's delta of two tables is written under known sizes.
        if let Told::Value(area) = oracle::created(&base, &target) {
            calls.write(run, &area, &[])?;
            calls.write(run, &area, &[-1, 2, 1, 0])?;
        }
        base.extend([-9, 9]);
        calls.create(run, &base, &target)?;
        let side = if random.chance(1, 2) {
            &mut base
        } else {
            &mut target
        };
        damage(side, random);
        calls.create(run, &base, &target)?;
    }
    Ok(())
}

fn random_writes(run: &mut Run, calls: &mut Calls, random: &mut Random) -> Result {
    for _ in 0..150 {
        let (deleted, updated) = inputs::delta(random);
        let mut area = inputs::listed(&deleted, &updated);
        for _ in 0..3 {
            calls.write(run, &area, &inputs::sizes(&updated, random))?;
        }
        area.extend([5, 6, 7]);
        calls.write(run, &area, &inputs::sizes(&updated, random))?;
        area.truncate(area.len() - 3);
        damage(&mut area, random);
        calls.write(run, &area, &[])?;
        calls.write(run, &area, &inputs::sizes(&updated, random))?;
    }
    Ok(())
}

fn random_items(run: &mut Run, calls: &mut Calls, random: &mut Random) -> Result {
    for _ in 0..40 {
        let len = random.pick(&[0, 1, 3, 8, 100]);
        let other: Vec<i32> = (0..len).map(|_| random.int()).collect();
        let mut from: Vec<i32> = (0..len).map(|_| random.bits() as i32).collect();
        if random.chance(1, 5) {
            damage(&mut from, random);
        }
        calls.item(run, random.pick(&[0, 1, 1, 1, 1 << 31]), &from, &other)?;
    }
    Ok(())
}
