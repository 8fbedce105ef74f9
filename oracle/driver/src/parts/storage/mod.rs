//! The store of tables by tick.

pub mod bench;
pub mod calls;
pub mod inputs;
pub mod oracle;
pub mod record;

use super::tables;
use super::Part;
use super::Rounds;
use crate::core::damage::damage;
use crate::core::random::Random;
use crate::core::report::Difference;
use crate::core::report::Run;
use crate::core::text::ints_short;
use calls::Areas;
use calls::Both;
use calls::Step;
use cefdugar::storage::Storage;
use cefdugar::table;
use inputs::table_of;
use oracle::Call;
use oracle::Held;

pub fn part() -> Part {
    Part {
        name: "storage",
        rounds: Rounds {
            quick: 1_000,
            full: 200_000,
        },
        compare,
        record: Some(record::fill),
        bench: Some(bench::bench),
    }
}

type Result = std::result::Result<(), Difference>;

fn compare(run: &mut Run) -> Result {
    let mut areas = Areas::new();
    forms(run, &mut areas)?;
    limits(run, &mut areas)?;
    ends(run, &mut areas)?;
    clashes(run, &mut areas)?;
    for round in 0..run.rounds {
        let mut random = run.random(round);
        let steps = inputs::steps(&mut random);
        let both = all(run, &mut areas, steps)?;
        damaged(run, &mut areas, &mut random, &both)?;
    }
    Ok(())
}

/// A list of calls to a new store on both sides. Each call is a case.
fn all(
    run: &mut Run,
    areas: &mut Areas,
    steps: Vec<Step>,
) -> std::result::Result<Both, Difference> {
    let mut both = Both::new();
    run.cases += steps.len() as u64;
    let mut compare = |both: &mut Both, steps: &[Step]| {
        steps
            .iter()
            .try_for_each(|step| both.call(areas, step))
            .and_then(|()| both.look(areas))
    };
    let compared = compare(&mut both, &steps);
    run.case(
        compared,
        || steps,
        |steps| compare(&mut Both::new(), steps),
        |steps| {
            steps
                .iter()
                .map(calls::print)
                .collect::<Vec<_>>()
                .join("; ")
        },
    )?;
    Ok(both)
}

/// A call of each sort.
fn calls_of_each() -> [Call; 3] {
    [
        Call::AddDelta {
            crc: None,
            base: 0,
            tick: i32::MAX,
            delta: vec![0, 0, 0],
        },
        Call::AddSnap {
            tick: 7,
            table: vec![0, 0],
            spare: 0,
        },
        Call::SetDeltaTick(3),
    ]
}

/// A call that the port alone refuses.
fn refused(
    run: &mut Run,
    areas: &mut Areas,
    (storage, area): (Storage, &[i32]),
    call: &Call,
    scratch: usize,
    number: u32,
) -> Result {
    let mut compare = || areas.refused(storage, call, area, scratch, number);
    run.case(
        compare(),
        || 0usize,
        |_| compare(),
        |_| {
            let area = ints_short(area);
            format!("{storage:?}, area {area}, {call:?}, scratch {scratch}")
        },
    )
}

/// Every call on a store that is out of form.
fn out_of_form(run: &mut Run, areas: &mut Areas, storage: Storage, area: &[i32]) -> Result {
    for call in &calls_of_each() {
        refused(run, areas, (storage, area), call, 0, 47)?;
    }
    run.case(
        areas.unseen(&storage, area),
        || 0usize,
        |_| areas.unseen(&storage, area),
        |_| format!("{storage:?}, area {}, looked at", ints_short(area)),
    )
}

/// The tables of an area with a count, if it is in form.
fn held(count: u32, area: &[i32]) -> Option<Vec<Held>> {
    let mut list = vec![];
    let mut rest = area;
    for _ in 0..count {
        let [tick, size, behind @ ..] = rest else {
            return None;
        };
        let (table, behind) = behind.split_at_checked(usize::try_from(*size).ok()?)?;
        let snap = tables::oracle::held(table)?;
        if tables::oracle::written(&snap).len() != table.len() {
            return None;
        }
        list.push((*tick, table.to_vec()));
        rest = behind;
    }
    (count <= 100 && rest.iter().all(|int| *int == 0)).then_some(list)
}

/// The area that a list of calls left, with a change in it, or with
/// another count: mostly out of form, and then refused by all calls.
fn damaged(run: &mut Run, areas: &mut Areas, random: &mut Random, both: &Both) -> Result {
    for _ in 0..4 {
        let mut area = both.store.area(both.store.len() + random.below(3));
        let mut storage = both.port;
        match random.below(4) {
            0 => storage.counts[0] = random.pick(&[0, 1, 2, 99, 100, 101, u32::MAX]),
            1 => storage.counts[0] = storage.counts[0].wrapping_add(random.pick(&[1, u32::MAX])),
            _ => damage(&mut area, random),
        }
        if held(storage.counts[0], &area).is_none() {
            out_of_form(run, areas, storage, &area)?;
        }
    }
    Ok(())
}

/// Areas that are out of form.
fn forms(run: &mut Run, areas: &mut Areas) -> Result {
    let one = Storage {
        ticks: [5, 6],
        counts: [1, 1, u32::MAX],
    };
    let good = [9, 5, 8, 1, 0, 65_536, 3];
    assert!(held(1, &good).is_some());
    out_of_form(run, areas, one, &[])?;
    for at in 1..good.len() - 1 {
        for int in [-1, 0, 1, 4, 6, 12, i32::MAX, i32::MIN] {
            let mut area = good.to_vec();
            area[at] = int;
            if held(1, &area).is_none() {
                out_of_form(run, areas, one, &area)?;
            }
        }
        out_of_form(run, areas, one, &good[..at])?;
    }
    for area in [&[1][..], &[0, 0, -1], &good] {
        out_of_form(run, areas, Storage::new(), area)?;
    }
    short_scratch(run, areas, (one, &good))
}

/// 41 comes after 47.
fn short_scratch(run: &mut Run, areas: &mut Areas, store: (Storage, &[i32])) -> Result {
    for (delta, number) in [(&[0, 0, 0][..], 41), (&[0, 0, 1], 47), (&[], 47)] {
        let call = Call::AddDelta {
            crc: Some(1),
            base: -7,
            tick: 20,
            delta: delta.to_vec(),
        };
        for scratch in [0, table::SCRATCH - 1] {
            refused(run, areas, store, &call, scratch, number)?;
        }
    }
    Ok(())
}

/// So many items, and so many ints among them.
fn many(count: usize, ints: usize) -> Vec<tables::oracle::Item> {
    (0..count)
        .map(|i| (inputs::key(1, i as i32), vec![i as i32; ints / count]))
        .collect()
}

/// Tables with the most items and ints, which a delta would exceed.
fn limits(run: &mut Run, areas: &mut Areas) -> Result {
    let add = |base, tick, delta: &[i32]| Call::AddDelta {
        crc: None,
        base,
        tick,
        delta: delta.to_vec(),
    };
    for (items, more) in [
        (many(table::ITEMS, 0), vec![]),
        (many(table::ITEMS - 1, 0), vec![]),
        (many(1, table::INTS - 4), vec![]),
        (many(1, table::INTS - 6), vec![]),
        (many(1, table::INTS - 7), vec![4]),
        (many(1, table::INTS - 7), vec![4, 5]),
    ] {
        let update = super::deltas::inputs::listed(&[], &[(inputs::key(2, 5), more)]);
        let snap = Call::AddSnap {
            tick: 3,
            table: table_of(&items),
            spare: 0,
        };
        for spare in [0, -1, 40] {
            let calls = [
                add(-1, 1, &super::deltas::inputs::listed(&[], &items)),
                add(1, 2, &update),
                Call::SetDeltaTick(1),
                snap.clone(),
                add(-2, 4, &update),
            ];
            let steps = calls.map(|call| Step { call, spare });
            all(run, areas, steps.into())?;
        }
    }
    Ok(())
}

/// Tables of which every set of keys clashes with the base, while the store
/// has room; then the same with the most tables held, and with too little room.
fn clashes(run: &mut Run, areas: &mut Areas) -> Result {
    let tables = super::deltas::inputs::clashing();
    let snap = |tick, table: &[i32]| Step {
        call: Call::AddSnap {
            tick,
            table: table.to_vec(),
            spare: 0,
        },
        spare: 0,
    };
    for base in &tables {
        let mut steps = vec![
            snap(0, base),
            Step {
                call: Call::SetDeltaTick(0),
                spare: 0,
            },
        ];
        for table in &tables {
            steps.push(snap(1, table));
            steps.push(Step {
                spare: -1,
                ..snap(1, table)
            });
        }
        all(run, areas, steps)?;
    }
    let mut steps = vec![snap(0, &tables[0])];
    steps.extend((1..100).map(|tick| snap(tick, &[0, 0])));
    for tick in [0, 1] {
        let call = Call::SetDeltaTick(tick);
        steps.push(Step { call, spare: 0 });
        steps.push(snap(100, &tables[9]));
    }
    all(run, areas, steps).map(|_| ())
}

/// Every pair of ticks at the ends of the range, as tick and as base.
fn ends(run: &mut Run, areas: &mut Areas) -> Result {
    const ENDS: [i32; 8] = [i32::MIN, i32::MIN + 1, -2, -1, 0, 1, i32::MAX - 1, i32::MAX];
    for first in ENDS {
        for second in ENDS {
            let add = |base, tick| Call::AddDelta {
                crc: Some(0),
                base,
                tick,
                delta: vec![0, 1, 0, 1, 1, 1, 0],
            };
            let snap = |tick| Call::AddSnap {
                tick,
                table: vec![4, 1, 0, 65_537],
                spare: 0,
            };
            for calls in [
                [add(-1, first), add(first, second), add(second, i32::MAX)],
                [snap(first), add(first, second), add(first, second)],
                [snap(first), snap(second), Call::SetDeltaTick(first)],
                [snap(first), Call::SetDeltaTick(first), snap(second)],
                [snap(first), Call::SetDeltaTick(second), snap(second)],
                [add(-1, first), Call::Reset, add(second, second)],
            ] {
                let steps = calls.map(|call| Step { call, spare: 0 });
                all(run, areas, steps.into())?;
            }
        }
    }
    Ok(())
}
