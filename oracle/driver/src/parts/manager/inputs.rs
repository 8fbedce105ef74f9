//! Lists of messages to a manager: lost, doubled, swapped, changed and
//! damaged.

use super::calls::Step;
use super::oracle::Printer;
use super::oracle::Room;
use crate::core::counted::room;
use crate::core::damage::damage;
use crate::core::random::Random;
use crate::core::told::Told;
use crate::parts::deltas;
use crate::parts::packer::ints_of;
use crate::parts::packer::loose;
use crate::parts::packer::packed;
use crate::parts::packer::with_five_bytes;
use crate::parts::packer::FIVE_BYTES;
use crate::parts::receiver::inputs::any_tick;
use crate::parts::receiver::inputs::changed;
use crate::parts::receiver::inputs::differ;
use crate::parts::receiver::inputs::messages_of;
use crate::parts::receiver::oracle::Call;
use crate::parts::storage::inputs::items;
use crate::parts::storage::inputs::key;
use crate::parts::storage::inputs::related;
use crate::parts::storage::inputs::table_of;
use crate::parts::tables;

/// A list of messages to a new manager, and the known sizes.
#[derive(Clone, Debug)]
pub struct List {
    pub sizes: Vec<i32>,
    pub steps: Vec<Step>,
}

/// Known sizes: none, those that most items have, any.
pub fn sizes(random: &mut Random) -> Vec<i32> {
    match random.below(4) {
        0 => vec![0, 1, 2, 3, 0],
        1 => vec![-1, 1, -1, 3],
        2 => (0..5).map(|_| random.pick(&[-1, 0, 1, 2, 3])).collect(),
        _ => vec![],
    }
}

/// Some items of four ints each, which take more than one message.
fn long(random: &mut Random) -> Vec<tables::oracle::Item> {
    (0..random.between(30, 200) as i32)
        .map(|i| {
            let data = (0..4).map(|_| random.bits() as i32).collect();
            (key(8, i), data)
        })
        .collect()
}

/// A base: held, negative, or near the tick; in a long list mostly the oldest,
/// so that many tables stay.
fn base(random: &mut Random, printer: &Printer, tick: i32, long: bool) -> i32 {
    let held = &printer.store.held;
    match random.below(if long { 200 } else { 12 }) {
        0 => any_tick(random),
        1 => tick.wrapping_sub(random.below(4) as i32),
        2 => random.pick(&[-1, -1, -2, i32::MIN]),
        _ if held.is_empty() => -1,
        3..=5 => held[random.below(held.len())].0,
        6..=8 => held[0].0,
        _ => held[held.len() - 1].0,
    }
}

/// The packed ints of a delta, and the sum of its table.
fn delta(random: &mut Random, from: &[i32], sizes: &[i32], most: usize) -> (Vec<u8>, i32) {
    let to = match random.below(12) {
        0 => table_of(&tables::inputs::items(random)),
        1 | 2 => table_of(&items(random, most)),
        3 => table_of(&long(random)),
        4 => from.to_vec(),
        _ => related(from, random),
    };
    let crc = tables::oracle::held(&to).map_or(0, |snap| snap.crc());
    let ints = match deltas::oracle::created(from, &to) {
        Told::Value(ints) => ints,
        _ => vec![0, 0, 0],
    };
    let delta = deltas::oracle::held(&ints).expect("a delta");
    // A known size that is not the data's length is sent nevertheless.
    let bytes = match deltas::oracle::packed(&delta, sizes, ints.len()) {
        Told::Value(bytes) => bytes,
        _ => match deltas::oracle::packed(&delta, &[], ints.len()) {
            Told::Value(bytes) => bytes,
            _ => unreachable!("no size is known"),
        },
    };
    (bytes, crc)
}

/// Messages that are lost, doubled, swapped or changed.
fn disturb(random: &mut Random, messages: &mut Vec<Call>) {
    for _ in 0..random.pick(&[0, 0, 0, 1, 1, 2, 5]) {
        if messages.is_empty() {
            return;
        }
        let (i, j) = (random.below(messages.len()), random.below(messages.len()));
        match random.below(10) {
            0 => drop(messages.remove(i)),
            1 | 2 => messages.insert(j, messages[i].clone()),
            3 => changed(&mut messages[i], random),
            4 => {
                if let Call::Snap(_, data) | Call::Single(_, data) = &mut messages[i] {
                    damage(data, random);
                }
            }
            5 => differ(&mut messages[i], random),
            _ => messages.swap(i, j),
        }
    }
}

/// The messages of a tick.
fn tick_messages(
    random: &mut Random,
    printer: &Printer,
    tick: i32,
    sizes: &[i32],
    (most, long): (usize, bool),
) -> Vec<Call> {
    let base = base(random, printer, tick, long);
    let from = printer.store.table_at(base).unwrap_or(&[0, 0]).to_vec();
    if random.chance(1, 10) {
        return vec![Call::Empty([tick, tick.wrapping_sub(base)])];
    }
    let (mut bytes, mut crc) = delta(random, &from, sizes, most);
    match random.below(16) {
        0 => crc = random.int(),
        1 => damage(&mut bytes, random),
        2 => bytes.clear(),
        3 | 4 => bytes = loose(&ints_of(&bytes), random),
        _ => {}
    }
    let mut messages = messages_of(tick, base, &bytes, crc);
    disturb(random, &mut messages);
    messages
}

/// The ticks of a list: the last one, and the newest that was not refused.
struct Ticks {
    tick: i32,
    newest: i32,
}

impl Ticks {
    fn new(random: &mut Random) -> Ticks {
        let tick = match random.below(10) {
            0 => any_tick(random),
            1 => i32::MAX - random.below(30) as i32,
            _ => random.below(4) as i32,
        };
        Ticks { tick, newest: tick }
    }
    fn next(&mut self, random: &mut Random) -> i32 {
        self.tick = match random.below(60) {
            0 => any_tick(random),
            1 => self.tick,
            _ => self.newest.saturating_add(random.between(1, 3) as i32),
        };
        self.tick
    }
    fn saw(&mut self, call: &Call, number: u32) {
        match call {
            Call::Reset => self.newest = -1,
            Call::Snap([tick, ..], _) | Call::Single([tick, ..], _) | Call::Empty([tick, _]) => {
                if !(20..=22).contains(&number) {
                    self.newest = *tick;
                }
            }
        }
    }
}

/// Tick 4 in some messages, after a table of tick 3 with the sum 5. Then tick 4
/// comes once more, and newer ticks with the base 3. For a delta that is refused,
/// the delta area has no room beyond the empty delta.
fn around(messages: Vec<Call>) -> List {
    let second = packed(&[0, 1, 0, 1, 1, 1, 2]);
    let mut steps = vec![Step {
        call: Call::Single([3, 4, 5], packed(&[0, 1, 0, 1, 1, 1, 5])),
        spare: [40; 2],
    }];
    let after = [
        Call::Single([4, 1, 7], second.clone()),
        Call::Empty([5, 2]),
        Call::Single([6, 3, 7], second),
    ];
    for (call, spare) in messages
        .into_iter()
        .map(|call| (call, [0; 2]))
        .chain(after.map(|call| (call, [40; 2])))
    {
        steps.push(Step { call, spare });
    }
    List {
        sizes: vec![],
        steps,
    }
}

/// A delta with an int of five bytes, overlong or padded, in each place: one
/// deleted key and one update, to a table with the sum 7.
fn five_byte_deltas() -> Vec<Vec<u8>> {
    with_five_bytes(&[1, 1, 0, 9, 1, 1, 1, 2])
}

/// Each of these deltas in a single message; and in the first part of two, of
/// which the second is lost.
pub fn padded_singles() -> Vec<List> {
    let mut lists = vec![];
    for bytes in five_byte_deltas() {
        lists.push(around(vec![Call::Snap([4, 1, 2, 0, 7], bytes.clone())]));
        lists.push(around(vec![Call::Single([4, 1, 7], bytes)]));
    }
    lists
}

/// Each of these deltas in two parts, cut at each byte, the second part first or
/// last.
pub fn padded_parts() -> Vec<List> {
    let mut lists = vec![];
    for bytes in five_byte_deltas() {
        for cut in 0..=bytes.len() {
            let (first, second) = bytes.split_at(cut);
            let mut messages = vec![
                Call::Snap([4, 1, 2, 0, 7], first.to_vec()),
                Call::Snap([4, 1, 2, 1, 7], second.to_vec()),
            ];
            messages.rotate_left(cut % 2);
            lists.push(around(messages));
        }
    }
    lists
}

/// A delta of more than 900 bytes, 1,000 deleted keys, with an int of five bytes
/// near the end of the first part.
pub fn padded_at_900() -> Vec<List> {
    let mut lists = vec![];
    for at in 894..=901 {
        for int in FIVE_BYTES {
            let mut bytes = packed(&[1_000, 0, 0]);
            bytes.resize(at, 1);
            bytes.extend(int);
            bytes.resize(1_008, 1);
            lists.push(around(messages_of(4, 3, &bytes, 5)));
        }
    }
    lists
}

/// A list of messages to a new manager.
pub fn list(random: &mut Random) -> List {
    let sizes = sizes(random);
    let long = random.chance(1, 30);
    let (count, most) = match long {
        true => (260, 2),
        false => (random.between(2, 14), random.pick(&[2, 4, 12])),
    };
    let mut printer = Printer::new();
    let mut ticks = Ticks::new(random);
    let mut steps: Vec<Step> = vec![];
    for _ in 0..count {
        let tick = ticks.next(random);
        let mut calls = tick_messages(random, &printer, tick, &sizes, (most, long));
        if random.chance(1, 6) && !steps.is_empty() {
            calls.push(steps[random.below(steps.len())].call.clone());
        }
        if random.chance(1, if long { 400 } else { 40 }) || tick == i32::MAX {
            calls.push(Call::Reset);
        }
        for call in calls {
            let spare = [(); 2].map(|()| random.pick(&[0, 0, 1, 40, 40, 40, 40, 40, -1]));
            let needs = printer.needs(&sizes, &call);
            let room = Room {
                delta: room(needs.delta, spare[0]),
                area: room(needs.area, spare[1]).max(printer.store.len()),
            };
            // A difference is found again when both sides are compared.
            let number = printer
                .call(&sizes, &call, room)
                .map_or(0, |said| said.number);
            ticks.saw(&call, number);
            steps.push(Step { call, spare });
        }
    }
    List { sizes, steps }
}
