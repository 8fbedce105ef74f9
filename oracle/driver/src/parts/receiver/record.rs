//! Recorded answers of receivers. A case is a call on the receiver as the
//! cases before left it.
//!
//!     n                              new: a fresh receiver
//!     r                              reset
//!     s TICK DIST NUM PART CRC HEX   a part
//!     i TICK DIST CRC HEX            a single message
//!     e TICK DIST                    an empty message
//!
//! Answers: DUPLICATE DIFFERING, the two warning counts (the second is the
//! model's), and then `more` (not yet), `delta TICK BASE CRC LEN HEX`,
//! `empty TICK BASE`, or `refused NUMBER`.

use super::inputs;
use super::oracle::Call;
use super::oracle::Receiver;
use crate::core::random::Random;
use crate::core::record::Record;
use crate::core::text::hex;
use cefdugar::Warnings;

fn numbers(list: &[i32]) -> String {
    list.iter().map(|int| format!(" {int}")).collect()
}

fn question(call: &Call) -> String {
    match call {
        Call::Snap(list, data) => format!("s{} {}", numbers(list), hex(data)),
        Call::Single(list, data) => format!("i{} {}", numbers(list), hex(data)),
        Call::Empty(list) => format!("e{}", numbers(list)),
        Call::Reset => "r".to_string(),
    }
}

fn answer(receiver: &mut Receiver, call: &Call) -> String {
    let said = receiver.call(call);
    let what = match said.answer {
        Err(number) => format!("refused {number}"),
        Ok(None) => "more".to_string(),
        Ok(Some(delta)) => match delta.data_and_crc {
            None => format!("empty {} {}", delta.tick.0, delta.delta_tick.0),
            Some((len, crc)) => format!(
                "delta {} {} {crc} {len} {}",
                delta.tick.0,
                delta.delta_tick.0,
                hex(&said.joined)
            ),
        },
    };
    let counts = said.warnings.0;
    format!(
        "{} {} {what}",
        counts[Warnings::DUPLICATE_SNAP],
        counts[Warnings::DIFFERING_ATTRIBUTES]
    )
}

/// The calls of one list on a fresh receiver.
fn list(record: &mut Record, calls: &[Call]) {
    let mut receiver = Receiver::default();
    record.case("n", "0 0 more");
    for call in calls {
        record.case(&question(call), &answer(&mut receiver, call));
    }
}

/// The parts of a delta that has short parts.
fn parts(random: &mut Random, tick: i32, distance: i32, count: i32) -> Vec<Call> {
    let crc = random.int();
    (0..count)
        .map(|part| {
            let len = random.below(4);
            Call::Snap(
                [tick, distance, count, part, crc],
                inputs::bytes(random, len),
            )
        })
        .collect()
}

/// Each order of three parts, each refusal, then random lists.
pub fn fill(record: &mut Record, random: &mut Random) {
    for order in [
        [0, 1, 2],
        [0, 2, 1],
        [1, 0, 2],
        [1, 2, 0],
        [2, 0, 1],
        [2, 1, 0],
    ] {
        let three = parts(random, 10, 5, 3);
        let mut calls: Vec<Call> = order.iter().map(|&i| three[i].clone()).collect();
        calls.insert(1, calls[0].clone());
        calls.push(calls[0].clone());
        list(record, &calls);
    }
    for tick in [0, 1, -1, i32::MIN, i32::MAX] {
        let two = parts(random, tick, 3, 2);
        let mut calls = vec![two[0].clone()];
        for other in [tick.wrapping_sub(1), tick, tick.wrapping_add(1)] {
            calls.push(Call::Empty([other, 2]));
            calls.push(Call::Single([other, i32::MIN, 4], vec![1, 2]));
            calls.extend(two.clone());
        }
        calls.push(Call::Reset);
        calls.extend(two);
        list(record, &calls);
    }
    for count in [-1, 0, 1, 32, 33, i32::MAX, i32::MIN] {
        let calls: Vec<Call> = [-1, 0, 1, 31, 32, i32::MIN]
            .map(|part| Call::Snap([7, 7, count, part, 1], vec![part as u8]))
            .into();
        list(record, &calls);
    }
    for _ in 0..80 {
        random_list(record, random);
    }
}

fn random_list(record: &mut Record, random: &mut Random) {
    let mut tick = inputs::any_tick(random);
    let mut calls = vec![];
    for _ in 0..2 {
        tick = tick.wrapping_add(random.below(3) as i32);
        let (distance, count) = (inputs::any_tick(random), random.between(1, 5) as i32);
        let mut list = parts(random, tick, distance, count);
        for _ in 0..random.below(4) {
            let (i, j) = (random.below(list.len()), random.below(list.len()));
            match random.below(5) {
                0 => list.push(Call::Empty([tick, distance])),
                1 => list.insert(j, list[i].clone()),
                2 => {
                    if let Call::Snap(numbers, _) = &mut list[i] {
                        numbers[1 + random.below(4)] = random.pick(&[0, 1, 2, 3, tick]);
                    }
                }
                _ => list.swap(i, j),
            }
        }
        calls.extend(list);
    }
    list(record, &calls);
}
