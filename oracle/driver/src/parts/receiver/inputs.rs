//! Lists of calls on a receiver: parts lost, doubled, swapped and changed.

use super::oracle::Call;
use crate::core::random::Random;
use libtw2_gamenet_snap as msg;
use libtw2_snapshot::snap;

/// Ticks near the ends of the range, and near 0.
const ENDS: [i32; 9] = [
    i32::MIN,
    i32::MIN + 1,
    i32::MIN + 2,
    -1,
    0,
    1,
    i32::MAX - 2,
    i32::MAX - 1,
    i32::MAX,
];

pub fn any_tick(random: &mut Random) -> i32 {
    match random.below(3) {
        0 => random.pick(&ENDS),
        1 => random.int(),
        _ => random.bits() as i32,
    }
}

pub fn bytes(random: &mut Random, len: usize) -> Vec<u8> {
    (0..len).map(|_| random.byte()).collect()
}

/// A message as a call.
fn call_of(message: msg::SnapMsg) -> Call {
    match message {
        msg::SnapMsg::Snap(snap) => Call::Snap(
            [
                snap.tick,
                snap.delta_tick,
                snap.num_parts,
                snap.part,
                snap.crc,
            ],
            snap.data.to_vec(),
        ),
        msg::SnapMsg::SnapEmpty(snap) => Call::Empty([snap.tick, snap.delta_tick]),
        msg::SnapMsg::SnapSingle(snap) => {
            Call::Single([snap.tick, snap.delta_tick, snap.crc], snap.data.to_vec())
        }
    }
}

/// The messages of a delta of `len` bytes.
pub fn messages(random: &mut Random, tick: i32, base: i32, len: usize) -> Vec<Call> {
    let data = bytes(random, len);
    let crc = random.int();
    messages_of(tick, base, &data, crc)
}

/// The messages of a delta's bytes.
pub fn messages_of(tick: i32, base: i32, data: &[u8], crc: i32) -> Vec<Call> {
    snap::delta_chunks(tick, base, data, crc)
        .map(call_of)
        .collect()
}

/// Changes one number of a part.
pub fn changed(call: &mut Call, random: &mut Random) {
    match call {
        Call::Snap(numbers, data) => {
            let other = match random.below(4) {
                0 => random.pick(&[-1, 0, 1, 2, 3, 31, 32, 33, i32::MAX, i32::MIN]),
                1 => numbers[2].wrapping_add(random.pick(&[-1, 1])),
                _ => any_tick(random),
            };
            match random.below(8) {
                7 => data.truncate(random.below(4)),
                6 => *data = bytes(random, 901),
                5 => *numbers = [numbers[0], 0, numbers[2], numbers[3], numbers[4]],
                place => numbers[place] = other,
            }
        }
        Call::Single(numbers, data) => match random.below(3) {
            2 => *data = bytes(random, random_len(1_000)),
            place => numbers[place] = any_tick(random),
        },
        Call::Empty(numbers) => numbers[random.below(2)] = any_tick(random),
        Call::Reset => {}
    }
}

/// Changes any of a part's distance, part count and sum.
pub fn differ(call: &mut Call, random: &mut Random) {
    let Call::Snap(numbers, _) = call else {
        return;
    };
    for place in [1, 2, 4] {
        if random.chance(1, 2) {
            numbers[place] = match random.below(3) {
                0 if place != 2 => any_tick(random),
                _ => numbers[place].wrapping_add(random.pick(&[-1, 1])),
            };
        }
    }
}

/// Parts with the numbers of a tick's first part, and with others: the bits of
/// `which` say whether the base, the part count and the sum are others. Some are
/// refused (23), a newer tick begins with the others, and `reset` comes between.
pub fn differing([tick, distance, count, sum]: [i32; 4], which: i32) -> Vec<Call> {
    let part = |tick, distance, count, part, sum| {
        Call::Snap([tick, distance, count, part, sum], vec![part as u8])
    };
    let first = |tick, i| part(tick, distance, count, i, sum);
    let other = |tick, i| {
        let [base, more, less] = [which & 1, which >> 1 & 1, which >> 2 & 1];
        let distance = distance.wrapping_add(base);
        part(tick, distance, count + more, i, sum.wrapping_sub(less))
    };
    let next = tick.wrapping_add(1);
    vec![
        first(tick, 0),
        other(tick, 1),
        other(tick, 1),
        first(tick, 1),
        other(tick, 0),
        other(next, 0),
        first(next, 0),
        first(next, 1),
        other(next, 2),
        Call::Reset,
        other(tick, 2),
        first(tick, 1),
        first(tick, 0),
        other(tick, 0),
    ]
}

/// Every order of some places.
pub fn orders(count: usize) -> Vec<Vec<usize>> {
    let Some(last) = count.checked_sub(1) else {
        return vec![vec![]];
    };
    let mut all = vec![];
    for order in orders(last) {
        for at in 0..count {
            let mut order = order.clone();
            order.insert(at, last);
            all.push(order);
        }
    }
    all
}

/// A length above 900.
fn random_len(most: usize) -> usize {
    most.max(901)
}

/// Messages that are lost, doubled, swapped or changed.
fn disturb(random: &mut Random, messages: &mut Vec<Call>) {
    for _ in 0..random.below(6) {
        let (i, j) = (random.below(messages.len()), random.below(messages.len()));
        match random.below(6) {
            0 => drop(messages.remove(i)),
            1 => messages.insert(j, messages[i].clone()),
            2 => changed(&mut messages[i], random),
            3 => differ(&mut messages[i], random),
            _ => messages.swap(i, j),
        }
        if messages.is_empty() {
            return;
        }
    }
}

/// A list of calls: a few deltas at ticks that mostly rise, with parts lost,
/// doubled, swapped and changed, and singles and empties between.
pub fn calls(random: &mut Random) -> Vec<Call> {
    let mut tick = any_tick(random);
    let mut list = vec![];
    for _ in 0..random.between(2, 6) {
        tick = match random.below(8) {
            0 => any_tick(random),
            1 => tick,
            _ => tick.wrapping_add(random.between(1, 3) as i32),
        };
        let base = match random.below(4) {
            0 => any_tick(random),
            // Distance and base are then the same number, or nearly.
            1 => tick.wrapping_sub(tick / 2),
            _ => tick.wrapping_sub(random.between(0, 5) as i32),
        };
        let len = match random.below(6) {
            0 => random.below(901),
            1 => 0,
            2 => 28_800,
            3 => random.between(28_801, 30_000),
            _ => random.between(901, 5_000),
        };
        let mut messages = messages(random, tick, base, len);
        disturb(random, &mut messages);
        let at = list.len();
        list.extend(messages);
        if random.chance(1, 3) && at > 0 {
            let late = random.below(at);
            let late: Call = list[late].clone();
            list.insert(random.between(at, list.len()), late);
        }
        if random.chance(1, 20) {
            list.push(Call::Reset);
        }
    }
    list
}
