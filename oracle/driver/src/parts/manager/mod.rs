//! The manager of a printer: messages in, tables held and acknowledged.

mod bench;
pub mod calls;
pub mod inputs;
pub mod oracle;
mod record;

use super::receiver::oracle::Call;
use super::Part;
use super::Rounds;
use crate::core::random::Random;
use crate::core::report::Difference;
use crate::core::report::Run;
use crate::core::shrink::Shrink;
use calls::Areas;
use calls::Both;
use calls::Content;
use calls::Step;
use cefdugar::manager::Manager;
use cefdugar::manager::SCRATCH;
use cefdugar::receiver::AREA_BYTES;
use inputs::List;

pub fn part() -> Part {
    Part {
        name: "manager",
        rounds: Rounds {
            quick: 800,
            full: 60_000,
        },
        compare,
        record: Some(record::fill),
        bench: Some(bench::bench),
    }
}

type Result = std::result::Result<(), Difference>;

impl Shrink for List {
    fn offer(&self, take: &mut dyn FnMut(List) -> bool) -> bool {
        self.steps.offer(&mut |steps| {
            take(List {
                sizes: self.sizes.clone(),
                steps,
            })
        })
    }
}

fn compare(run: &mut Run) -> Result {
    let mut areas = Areas::new();
    forms(run, &mut areas)?;
    differing(run, &mut areas)?;
    padded(run, &mut areas)?;
    for round in 0..run.rounds {
        let mut random = run.random(round);
        let list = inputs::list(&mut random);
        let both = all(run, &mut areas, list)?;
        damaged(run, &mut areas, &mut random, &both)?;
    }
    Ok(())
}

/// A list of messages to a new manager on both sides. Each message is a case.
fn all(run: &mut Run, areas: &mut Areas, list: List) -> std::result::Result<Both, Difference> {
    let mut both = Both::new(areas);
    run.cases += list.steps.len() as u64;
    let mut compare = |both: &mut Both, list: &List| {
        list.steps
            .iter()
            .try_for_each(|step| both.call(areas, &list.sizes, step))
            .and_then(|()| both.printer.store.probe())
    };
    let compared = compare(&mut both, &list);
    run.case(
        compared,
        || list,
        |list| {
            let mut both = Both::new(&mut Areas::new());
            compare(&mut both, list)
        },
        |list| {
            let steps: Vec<_> = list.steps.iter().map(calls::print).collect();
            format!("known sizes {:?}; {}", list.sizes, steps.join("; "))
        },
    )?;
    Ok(both)
}

/// Parts whose base, part count and sum differ from the first part's, each alone
/// and together.
fn differing(run: &mut Run, areas: &mut Areas) -> Result {
    for tick in [1, 10, i32::MAX] {
        for distance in [0, tick.wrapping_add(1), i32::MIN] {
            for sum in [0, -7] {
                for which in 0..8 {
                    let calls = super::receiver::inputs::differing([tick, distance, 3, sum], which);
                    let spare = [40; 2];
                    let steps = calls.into_iter().map(|call| Step { call, spare }).collect();
                    let sizes = vec![];
                    all(run, areas, List { sizes, steps })?;
                }
            }
        }
    }
    Ok(())
}

/// Deltas with an int of five bytes, overlong or padded: in one message, and in
/// two parts of which both may have bytes of that int.
fn padded(run: &mut Run, areas: &mut Areas) -> Result {
    let lists = [
        inputs::padded_singles(),
        inputs::padded_parts(),
        inputs::padded_at_900(),
    ];
    for list in lists.into_iter().flatten() {
        all(run, areas, list)?;
    }
    Ok(())
}

/// Every message in cases that the port alone refuses; the bytes are too many for
/// a part, and padded.
fn refused(
    run: &mut Run,
    areas: &mut Areas,
    manager: Manager,
    content: &Content,
    number: u32,
) -> Result {
    let messages = [
        Call::Snap([i32::MAX, 2, 3, 0, 9], vec![0x80; 901]),
        Call::Single([i32::MAX, 2, 9], vec![0x80; 901]),
        Call::Empty([i32::MAX, 2]),
    ];
    for call in &messages {
        let mut compare = || areas.refused(manager, call, content, number);
        run.case(
            compare(),
            || 0usize,
            |_| compare(),
            |_| format!("{manager:?}, {}", super::receiver::calls::print(call)),
        )?;
    }
    Ok(())
}

/// What is lent to a new manager.
fn content() -> Content {
    Content {
        parts: vec![1; AREA_BYTES],
        joined: vec![2; AREA_BYTES],
        delta: vec![3; 8],
        area: vec![0; 20],
        scratch: SCRATCH,
    }
}

/// Receivers and stores out of form, then areas that are too short: refused by
/// every message, in this order, and unchanged.
fn forms(run: &mut Run, areas: &mut Areas) -> Result {
    let fresh = Manager::new();
    let lengths = [
        [AREA_BYTES - 1, AREA_BYTES, SCRATCH],
        [AREA_BYTES, AREA_BYTES - 1, SCRATCH],
        [AREA_BYTES, AREA_BYTES, SCRATCH - 1],
        [0, 0, 0],
    ];
    for [parts, joined, scratch] in lengths {
        let mut short = content();
        short.parts.truncate(parts);
        short.joined.truncate(joined);
        short.scratch = scratch;
        refused(run, areas, fresh, &short, 41)?;
        short.area[19] = 1;
        refused(run, areas, fresh, &short, 47)?;
        short.area[19] = 0;
        for receiver in super::receiver::out_of_form(fresh.receiver) {
            refused(run, areas, Manager { receiver, ..fresh }, &short, 47)?;
        }
    }
    for receiver in super::receiver::out_of_form(fresh.receiver) {
        refused(run, areas, Manager { receiver, ..fresh }, &content(), 47)?;
    }
    for count in [1, 100, 101, u32::MAX] {
        let mut storage = fresh.storage;
        storage.counts = [count, 1, 1];
        refused(run, areas, Manager { storage, ..fresh }, &content(), 47)?;
    }
    Ok(())
}

/// The state after a list of messages, with the receiver or the store out of
/// form, or with an area that is too short.
fn damaged(run: &mut Run, areas: &mut Areas, random: &mut Random, both: &Both) -> Result {
    let room = oracle::Room {
        delta: 5,
        area: both.printer.store.len() + 1,
    };
    let (mut manager, mut content) = (both.port, both.content(room));
    let number = match random.below(5) {
        0 => {
            manager.storage.counts[0] += 1;
            47
        }
        1 => {
            content.area[room.area - 1] = random.pick(&[1, -1, i32::MIN]);
            47
        }
        2 => {
            let list = super::receiver::out_of_form(cefdugar::receiver::Receiver::new());
            manager.receiver = list[random.below(list.len())];
            47
        }
        3 => {
            content.scratch = random.below(SCRATCH);
            41
        }
        _ => {
            content.parts.truncate(random.below(AREA_BYTES));
            41
        }
    };
    refused(run, areas, manager, &content, number)
}
