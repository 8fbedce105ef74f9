//! Tables with types: deltas applied, types judged and looked up, builders.

mod bench;
mod building;
mod calls;
mod inputs;
mod limits;
mod oracle;
mod questions;
mod record;

use super::deltas;
use super::packer::loose;
use super::packer::numbered;
use super::packer::packed;
use super::packer::with_five_bytes;
use super::packer::with_twice_five_bytes;
use super::tables;
use super::tables::oracle::Item;
use super::tables::sorted;
use super::Part;
use super::Rounds;
use crate::core::damage::damage;
use crate::core::random::Random;
use crate::core::report::Difference;
use crate::core::report::Run;
use crate::core::report::Shown;
use crate::core::told::Told;
use calls::Calls;
use cefdugar::snap::TypeId;
use cefdugar::table;
use inputs::key;
use inputs::KINDS;

pub fn part() -> Part {
    Part {
        name: "snaps",
        rounds: Rounds {
            quick: 40,
            full: 100_000,
        },
        compare,
        record: Some(record::fill),
        bench: Some(bench::bench),
    }
}

type Result = std::result::Result<(), Difference>;

/// The least scratch.
const SCRATCH: usize = table::SCRATCH;

fn compare(run: &mut Run) -> Result {
    let mut calls = Calls::new();
    for len in 0..=4 {
        calls.new_builder(run, len)?;
    }
    filed_under_zero(run, &mut calls)?;
    few_deltas(run, &mut calls)?;
    few_types(run, &mut calls)?;
    five_bytes(run, &mut calls)?;
    few_builds(run, &mut calls)?;
    lengths(run, &mut calls)?;
    limits::applied(run, &mut calls)?;
    limits::built(run, &mut calls)?;
    limits::kinds(run, &mut calls)?;
    for round in 0..run.rounds {
        let mut random = run.random(round);
        random_deltas(run, &mut calls, &mut random)?;
        random_tables(run, &mut calls, &mut random)?;
        random_builds(run, &mut calls, &mut random)?;
    }
    Ok(())
}

/// The ints of a table in form.
fn area(items: &[Item]) -> Vec<i32> {
    tables::inputs::listed(&sorted(items))
}

/// Reads a table in the order of its items, and makes all queries of it.
fn everything(run: &mut Run, calls: &mut Calls, items: &[Item]) -> Result {
    let ints = tables::inputs::listed(items);
    calls.read_ints(run, &ints, SCRATCH)?;
    let src = packed(&ints);
    calls.read(run, &src, SCRATCH.max(src.len()))?;
    let area = area(items);
    calls.finish(run, &area)?;
    calls.area(run, &area)
}

/// An item of a kind and one of type 0 with the same id: of these, the Rust's
/// table that was read returns the second, and the port the first.
fn filed_under_zero(run: &mut Run, calls: &mut Calls) -> Result {
    let items = [
        (key(0, 0x4000), KINDS[1].to_vec()),
        (key(0, 7), KINDS[2].to_vec()),
        (key(0x4000, 7), vec![5]),
    ];
    let area = area(&items);
    let kind = inputs::kind(KINDS[1]);
    let snap = oracle::held(&area).expect("sound types");
    let rust = snap.item(oracle::rust_type(kind), 7);
    assert!(rust == Some(&KINDS[2][..]));
    let mut out = [0];
    let said = cefdugar::snap::item(&area, kind, 7, &mut out);
    run.case(
        Shown::compare(&(Ok(1), [5]), &(said, out)),
        || 0usize,
        |_| Shown::compare(&(Ok(1), [5]), &(said, out)),
        |_| "an item of a kind beside one of type 0".to_string(),
    )?;
    everything(run, calls, &items)
}

/// All tables of up to two items with four keys, two of them of kinds, with up
/// to one int; for each, all deltas of up to two deleted keys and two updates.
fn few_deltas(run: &mut Run, calls: &mut Calls) -> Result {
    const KEYS: [i32; 4] = [0x4000, 0x1_0003, 0x4000_0001, -0x8000_0000];
    let mut lists: Vec<Vec<Item>> = vec![];
    for number in 0..3usize.pow(4) {
        let states = numbered(number, 4, &[None, Some(0), Some(1)]);
        let items: Vec<Item> = KEYS
            .iter()
            .zip(states)
            .filter_map(|(&key, len)| Some((key, vec![key ^ 5; len?])))
            .collect();
        if items.len() <= 2 {
            lists.push(items);
        }
    }
    for base in &lists {
        let base = area(base);
        for deleted in lists
            .iter()
            .filter(|list| list.iter().all(|item| item.1.is_empty()))
        {
            let deleted: Vec<i32> = deleted.iter().map(|item| item.0).collect();
            for updated in &lists {
                let delta = inputs::delta(deleted.clone(), updated.clone());
                calls.apply(run, &base, &delta, SCRATCH)?;
            }
        }
    }
    Ok(())
}

/// All tables with three items of type 0, each absent, short, of two kinds or
/// long, and items of four types.
fn few_types(run: &mut Run, calls: &mut Calls) -> Result {
    let long = [&KINDS[1][..], &[9]].concat();
    let named: [Option<&[i32]>; 5] = [
        None,
        Some(&KINDS[1][..3]),
        Some(&KINDS[1]),
        Some(&KINDS[2]),
        Some(&long),
    ];
    for number in 0..named.len().pow(3) {
        let states = numbered(number, 3, &named);
        for types in 0..1 << 4 {
            let mut items: Vec<Item> = [0x4000, 0x8001, 3]
                .iter()
                .zip(&states)
                .filter_map(|(&id, data)| Some((key(0, id), (*data)?.to_vec())))
                .collect();
            for (i, raw_type_id) in [1, 0x4000, 0x8001, 0xffff].into_iter().enumerate() {
                if types >> i & 1 == 1 {
                    items.push((key(raw_type_id, 3), vec![i as i32]));
                }
            }
            everything(run, calls, &items)?;
        }
    }
    Ok(())
}

/// Tables with ints of five bytes in every two places, also behind the table:
/// with sound types, with a kind that is too long, and with one that is missing.
fn five_bytes(run: &mut Run, calls: &mut Calls) -> Result {
    let tables: [&[Item]; 4] = [
        &[],
        &[
            (key(0, 0x4000), KINDS[1].to_vec()),
            (key(0x4000, 7), vec![5]),
        ],
        &[(key(0, 7), vec![1, 2, 3, 5, 9])],
        &[(key(0x8000, 0), vec![])],
    ];
    for items in tables {
        let ints = tables::inputs::listed(items);
        let once = with_five_bytes(&ints);
        for src in once.iter().chain(&with_twice_five_bytes(&ints)) {
            calls.read(run, src, SCRATCH)?;
        }
    }
    Ok(())
}

/// Adds items one by one in areas with as much room as the whole takes, less
/// and more.
fn builds(run: &mut Run, calls: &mut Calls, adds: &[(TypeId, u16, Vec<i32>)]) -> Result {
    let mut whole = vec![0; 2_000];
    for (type_id, id, data) in adds {
        calls.build(run, &mut whole, *type_id, *id, data)?;
    }
    calls.finish(run, &whole)?;
    calls.area(run, &whole)?;
    let needed = cefdugar::builder::finish(&whole).unwrap_or(2);
    for room in [needed, needed - 1, needed / 2, needed + 3] {
        let mut area = vec![0; room];
        for (type_id, id, data) in adds {
            calls.build(run, &mut area, *type_id, *id, data)?;
        }
        calls.finish(run, &area)?;
    }
    Ok(())
}

/// All lists of up to three items of a few types, with two ids.
fn few_builds(run: &mut Run, calls: &mut Calls) -> Result {
    let types = [
        TypeId::Ordinal(0),
        TypeId::Ordinal(1),
        TypeId::Ordinal(0x4000),
        inputs::kind(KINDS[1]),
        inputs::kind(KINDS[2]),
    ];
    for len in 0..=3 {
        for number in 0..types.len().pow(len) {
            for id in [0, 7] {
                let adds: Vec<(TypeId, u16, Vec<i32>)> = numbered(number, len, &types)
                    .into_iter()
                    .enumerate()
                    .map(|(i, type_id)| (type_id, id * (i as u16 & 1), vec![9; i]))
                    .collect();
                builds(run, calls, &adds)?;
            }
        }
    }
    Ok(())
}

/// Inputs and scratch of about the lengths that are judged; areas out of form.
fn lengths(run: &mut Run, calls: &mut Calls) -> Result {
    let good = area(&[(key(0, 0x4000), KINDS[1].to_vec()), (0x4000_0001, vec![5])]);
    let delta = inputs::delta(vec![0x4000_0001], vec![(0x4000_0002, vec![7, 8])]);
    let odd = [8, 1, 0];
    for scratch in [0, 1, SCRATCH - 1, SCRATCH, SCRATCH + 1] {
        for base in [&good[..], &[], &odd, &[0, 0], &good[..good.len() - 1]] {
            calls.read_ints(run, base, scratch)?;
            calls.read(run, &packed(base), scratch)?;
            for delta in [&delta[..], &[], &odd, &[0, 0, 0], &[0, 0, 1]] {
                calls.apply(run, base, delta, scratch)?;
            }
        }
    }
    for len in [table::INPUT, table::INPUT + 1] {
        calls.read_ints(run, &vec![0; len], SCRATCH)?;
        calls.read_ints(run, &vec![0; len], SCRATCH - 1)?;
        for scratch in [len, len - 1] {
            calls.read(run, &vec![0; len], scratch)?;
            calls.read(run, &vec![0xff; len], scratch)?;
        }
    }
    Ok(())
}

/// Deltas of all sorts to random tables, and damaged ones.
fn random_deltas(run: &mut Run, calls: &mut Calls, random: &mut Random) -> Result {
    for _ in 0..150 {
        let items = inputs::items(random);
        let mut base = area(&items);
        let mut delta = inputs::delta_to(&items, random);
        calls.apply(run, &base, &delta, SCRATCH)?;
        let target = deltas::inputs::related(&items, random);
        if let Told::Value(created) = deltas::oracle::created(&base, &area(&target)) {
            calls.apply(run, &base, &created, SCRATCH)?;
        }
        let side = if random.chance(1, 2) {
            &mut base
        } else {
            &mut delta
        };
        damage(side, random);
        calls.apply(run, &base, &delta, SCRATCH)?;
    }
    Ok(())
}

/// Random tables, read and queried, unchanged and damaged.
fn random_tables(run: &mut Run, calls: &mut Calls, random: &mut Random) -> Result {
    for _ in 0..60 {
        let mut items = inputs::items(random);
        everything(run, calls, &items)?;
        deltas::inputs::shuffle(&mut items, random);
        let mut ints = tables::inputs::listed(&items);
        calls.read_ints(run, &ints, SCRATCH)?;
        calls.read(run, &loose(&ints, random), SCRATCH)?;
        damage(&mut ints, random);
        calls.read_ints(run, &ints, SCRATCH)?;
        calls.read(run, &packed(&ints), SCRATCH)?;
        let mut area = area(&items);
        damage(&mut area, random);
        calls.area(run, &area)?;
        calls.finish(run, &area)?;
    }
    Ok(())
}

/// Random lists of items for a builder, and items for tables that it does not
/// build.
fn random_builds(run: &mut Run, calls: &mut Calls, random: &mut Random) -> Result {
    for _ in 0..10 {
        let adds: Vec<(TypeId, u16, Vec<i32>)> = (0..random.below(16))
            .map(|_| {
                let len = random.pick(&[0, 1, 4, 9]);
                let data = (0..len).map(|_| random.int()).collect();
                (inputs::type_id(random), random.below(3) as u16, data)
            })
            .collect();
        builds(run, calls, &adds)?;
        let mut held = area(&inputs::items(random));
        held.extend([0; 20]);
        calls.build(run, &mut held, inputs::type_id(random), 9, &[1])?;
        let mut built = area(&inputs::built(random));
        calls.build(run, &mut built, inputs::type_id(random), 9, &[])?;
        damage(&mut built, random);
        calls.build(run, &mut built, inputs::type_id(random), 9, &[])?;
    }
    Ok(())
}
