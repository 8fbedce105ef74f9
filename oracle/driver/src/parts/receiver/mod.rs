//! Messages: deltas cut into them, and the receiver of their parts.

mod bench;
pub mod calls;
mod differing;
pub mod inputs;
pub mod oracle;
mod record;

use super::Part;
use super::Rounds;
use crate::core::report::Compared;
use crate::core::report::Difference;
use crate::core::report::Run;
use calls::Both;
use cefdugar::receiver::Receiver;
use cefdugar::receiver::AREA_BYTES;
use oracle::Call;

pub fn part() -> Part {
    Part {
        name: "receiver",
        rounds: Rounds {
            quick: 1_500,
            full: 300_000,
        },
        compare,
        record: Some(record::fill),
        bench: Some(bench::bench),
    }
}

type Result = std::result::Result<(), Difference>;

fn compare(run: &mut Run) -> Result {
    lengths(run)?;
    forms(run)?;
    alike(run)?;
    differing(run)?;
    for round in 0..run.rounds {
        let mut random = run.random(round);
        let len = random.below(5_000);
        let data = inputs::bytes(&mut random, len);
        let [tick, base, crc] = [(); 3].map(|()| inputs::any_tick(&mut random));
        cut(run, tick, base, &data, crc)?;
        let list = inputs::calls(&mut random);
        receive(run, list, calls::receive)?;
    }
    Ok(())
}

/// Each length at which the messages change, between ticks at the ends.
fn lengths(run: &mut Run) -> Result {
    const LENGTHS: [usize; 11] = [
        0, 1, 899, 900, 901, 1_799, 1_800, 1_801, 28_800, 28_801, 1_048_576,
    ];
    let data = vec![7; 1_048_577];
    for len in LENGTHS {
        for tick in [0, 1, -1, i32::MIN, i32::MAX] {
            for base in [0, -1, i32::MIN, i32::MAX] {
                cut(run, tick, base, &data[..len], tick ^ 5)?;
            }
        }
    }
    run.case(
        calls::too_many(&data),
        || data.len(),
        |len| calls::too_many(&data[..*len]),
        |len| format!("{len} bytes cut"),
    )
}

fn cut(run: &mut Run, tick: i32, base: i32, data: &[u8], crc: i32) -> Result {
    run.case(
        calls::cut(tick, base, data, crc),
        || (tick, base, data.to_vec()),
        |(tick, base, data)| calls::cut(*tick, *base, data, crc),
        |(tick, base, data)| format!("{} bytes cut, tick {tick}, base {base}", data.len()),
    )
}

/// A list of calls, compared so.
fn receive(run: &mut Run, list: Vec<Call>, compare: fn(&Vec<Call>) -> Compared) -> Result {
    run.case(
        compare(&list),
        || list.clone(),
        compare,
        |list| list.iter().map(calls::print).collect::<Vec<_>>().join("; "),
    )
}

/// The parts of a delta in every order, each one twice.
fn alike(run: &mut Run) -> Result {
    let mut random = run.random(0);
    for tick in [0, 10, -1, i32::MIN, i32::MAX] {
        for base in [-1, 0, 4, i32::MIN, i32::MAX] {
            for count in 2..=4 {
                let parts = inputs::messages(&mut random, tick, base, 900 * count);
                for order in inputs::orders(count) {
                    let twice = |i: usize| [parts[i].clone(), parts[i].clone()];
                    let list = order.into_iter().flat_map(twice).collect();
                    receive(run, list, calls::receive_alike)?;
                }
            }
        }
    }
    Ok(())
}

/// Parts whose base, part count and sum differ from the first part's, each alone
/// and together.
fn differing(run: &mut Run) -> Result {
    for tick in [0, 1, 10, -1, i32::MIN, i32::MAX] {
        for distance in [0, 1, 5, tick, tick.wrapping_add(1), i32::MIN, i32::MAX] {
            for sum in [0, 7, -7, i32::MIN] {
                for which in 0..8 {
                    let list = inputs::differing([tick, distance, 3, sum], which);
                    receive(run, list, calls::receive)?;
                }
            }
        }
    }
    Ok(())
}

/// Receivers out of form, and part areas that are too short: refused by every
/// call, in this order, and unchanged.
fn forms(run: &mut Run) -> Result {
    let fresh = Receiver::new();
    let part = |p| Call::Snap([5, 2, 3, p, 9], vec![1; 901]);
    let calls = [
        part(0),
        Call::Single([5, 2, 9], vec![1; 901]),
        Call::Empty([5, 2]),
    ];
    for receiver in out_of_form(fresh) {
        for call in &calls {
            for lengths in [[0, 0], [AREA_BYTES, AREA_BYTES]] {
                refused(run, receiver, call, lengths, 47)?;
            }
        }
    }
    for lengths in [
        [AREA_BYTES - 1, AREA_BYTES],
        [AREA_BYTES, AREA_BYTES - 1],
        [0, 0],
    ] {
        refused(run, fresh, &calls[0], lengths, 41)?;
    }
    refused(run, fresh, &calls[1], [0, AREA_BYTES - 1], 41)?;
    refused(run, fresh, &calls[1], [0, AREA_BYTES], 43)?;
    refused(run, fresh, &calls[0], [AREA_BYTES; 2], 43)
}

fn refused(
    run: &mut Run,
    receiver: Receiver,
    call: &Call,
    lengths: [usize; 2],
    number: u32,
) -> Result {
    run.case(
        Both::refused(receiver, call, lengths, number),
        || 0usize,
        |_| Both::refused(receiver, call, lengths, number),
        |_| format!("{receiver:?}, areas {lengths:?}, {}", calls::print(call)),
    )
}

/// Receivers that no call leaves.
pub fn out_of_form(fresh: Receiver) -> Vec<Receiver> {
    let mut list = vec![];
    // A part is in while no tick is unfinished.
    let mut one = fresh;
    one.lengths[3] = 900;
    list.push(one);
    one.counts[0] = 7;
    list.push(one);
    // An unfinished tick without a part, with all, with too many, and with too
    // large a count.
    for (count, parts) in [
        (2, 0),
        (1, 1),
        (2, 2),
        (2, 3),
        (33, 1),
        (0, 1),
        (u32::MAX, 1),
        (0, 0),
    ] {
        let mut unfinished = fresh;
        unfinished.counts = [0, 1, count];
        unfinished.lengths[..parts].fill(0);
        list.push(unfinished);
    }
    // An unfinished tick that is not above the finished one.
    for ticks in [
        [5, 5, 0, 0],
        [5, 4, 0, 0],
        [0, -1, 0, 0],
        [i32::MAX, i32::MIN, 0, 0],
    ] {
        let mut old = fresh;
        (old.ticks, old.counts) = (ticks, [1, u32::MAX, 2]);
        old.lengths[1] = 1;
        list.push(old);
    }
    list
}
