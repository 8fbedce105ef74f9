//! Recorded answers of managers. A case is a message to the manager as the
//! cases before left it.
//!
//!     n ROOM DELTA                            new: a manager with a store area
//!                                             of ROOM ints, and a delta area
//!     r                                       reset
//!     s TICK DIST NUM PART CRC LEN INT.. HEX  a part, and LEN known sizes
//!     i TICK DIST CRC LEN INT.. HEX           a single message, and sizes
//!     e TICK DIST                             an empty message
//!     l PLACE                                 the table at a place
//!
//! Answers: the 12 warning counts (that of `DifferingAttributes` is the
//! model's), COUNT ACK, how many tables are held and the tick acknowledged (`-`
//! if there is none), and then `more`, `tick TICK`, or `refused NUMBER`. For
//! `l`: `TICK INT..`, or `end`.

use super::inputs;
use super::oracle::Printer;
use super::oracle::Room;
use super::oracle::Said;
use crate::core::random::Random;
use crate::core::record::Record;
use crate::core::text::hex;
use crate::parts::deltas;
use crate::parts::packer::packed;
use crate::parts::receiver::inputs::messages_of;
use crate::parts::receiver::oracle::Call;
use crate::parts::storage::record::ints;
use crate::parts::storage::record::look;
use crate::parts::storage::record::tick;
use crate::parts::tables::oracle::Item;

/// How many bytes of a message the program reads.
const MOST_BYTES: usize = 120;

fn question(sizes: &[i32], call: &Call) -> String {
    let known = format!("{}{}", sizes.len(), ints(sizes));
    match call {
        Call::Snap(list, data) => format!("s{} {known} {}", ints(list), hex(data)),
        Call::Single(list, data) => format!("i{} {known} {}", ints(list), hex(data)),
        Call::Empty(list) => format!("e{}", ints(list)),
        Call::Reset => "r".to_string(),
    }
}

fn answer(printer: &Printer, said: &Said) -> String {
    let what = match (said.number, said.ack) {
        (0, Some(ack)) => format!("tick {ack}"),
        (0, None) => "more".to_string(),
        (number, _) => format!("refused {number}"),
    };
    let counts: String = said.warnings.0.map(|count| format!("{count} ")).concat();
    let store = &printer.store;
    format!(
        "{counts}{}{} {what}",
        store.held.len(),
        tick(store.ack_tick())
    )
}

/// The messages to one manager.
struct List {
    printer: Printer,
    room: Room,
    sizes: Vec<i32>,
}

impl List {
    fn new(record: &mut Record, room: Room, sizes: &[i32]) -> List {
        let printer = Printer::new();
        let answer = answer(&printer, &Said::default());
        record.case(&format!("n {} {}", room.area, room.delta), &answer);
        List {
            printer,
            room,
            sizes: sizes.to_vec(),
        }
    }
    /// A message, unless it is too long.
    fn call(&mut self, record: &mut Record, call: &Call) {
        if let Call::Snap(_, data) | Call::Single(_, data) = call {
            if data.len() > MOST_BYTES {
                return;
            }
        }
        let question = question(&self.sizes, call);
        let Ok(said) = self.printer.call(&self.sizes, call, self.room) else {
            unreachable!("the Rust's manager is its parts")
        };
        record.case(&question, &answer(&self.printer, &said));
    }
}

/// The bytes of a delta.
fn delta(deleted: &[i32], updated: &[Item]) -> Vec<u8> {
    packed(&deltas::inputs::listed(deleted, updated))
}

/// The bytes in so many parts.
fn parts(tick: i32, base: i32, crc: i32, bytes: &[u8], count: usize) -> Vec<Call> {
    let len = bytes.len().div_ceil(count);
    (0..count)
        .map(|part| {
            let end = (len * (part + 1)).min(bytes.len());
            let data = bytes[(len * part).min(end)..end].to_vec();
            let numbers = [
                tick,
                tick.wrapping_sub(base),
                count as i32,
                part as i32,
                crc,
            ];
            Call::Snap(numbers, data)
        })
        .collect()
}

/// Parts of which the second has another base than the first one, the third
/// another part count and the fourth another sum; the third is doubled.
fn differing(tick: i32, base: i32, crc: i32, bytes: &[u8]) -> Vec<Call> {
    let mut calls = parts(tick, base, crc, bytes, 4);
    for (call, place) in calls[1..].iter_mut().zip([1, 2, 4]) {
        if let Call::Snap(numbers, _) = call {
            numbers[place] += 1;
        }
    }
    calls.insert(3, calls[2].clone());
    calls
}

/// Parts in any order, each refusal, room that is just enough and one less;
/// then random lists.
pub fn fill(record: &mut Record, random: &mut Random) {
    let item = |int| vec![(65_537, vec![int]), (131_073, vec![70, -70])];
    let first = delta(&[], &item(5));
    let second = delta(&[131_073], &item(2)[..1]);
    for [area, delta] in [[60, 20], [11, 12], [10, 12], [21, 12], [20, 20], [60, 11]] {
        let mut list = List::new(record, super::oracle::Room { delta, area }, &[]);
        let mut calls = parts(3, -1, 5, &first, 2);
        calls.swap(0, 1);
        calls.push(calls[0].clone());
        calls.extend(parts(4, 3, 7, &second, 3));
        calls.push(Call::Single([4, 1, 7], second.clone()));
        calls.push(Call::Empty([5, 1]));
        calls.push(Call::Single([6, 2, 8], second.clone()));
        calls.push(Call::Single([7, 3, 9], second.clone()));
        calls.push(Call::Single([8, 1, 9], vec![0x80]));
        calls.push(Call::Single([9, i32::MIN, 5], first.clone()));
        calls.push(Call::Reset);
        calls.extend(parts(1, -1, 5, &first, 1));
        calls.extend(parts(2, 1, 7, &second, 33).drain(..2));
        calls.extend(differing(3, 1, 7, &second));
        for call in &calls {
            list.call(record, call);
        }
        look(record, &list.printer.store, 0);
        look(record, &list.printer.store, 1);
    }
    let parts = inputs::padded_parts().into_iter().step_by(13);
    for messages in inputs::padded_singles().into_iter().chain(parts) {
        padded_list(record, &messages);
    }
    for _ in 0..60 {
        random_list(record, random);
    }
}

/// A delta with an int of five bytes, overlong or padded, and what is held then.
fn padded_list(record: &mut Record, messages: &inputs::List) {
    let room = Room {
        delta: 20,
        area: 60,
    };
    let mut list = List::new(record, room, &messages.sizes);
    for step in &messages.steps {
        list.call(record, &step.call);
    }
    look(record, &list.printer.store, 0);
}

fn random_list(record: &mut Record, random: &mut Random) {
    let messages = inputs::list(random);
    let room = Room {
        delta: random.pick(&[16, 40, 128]),
        area: random.pick(&[30, 100, 1_024]),
    };
    let mut list = List::new(record, room, &messages.sizes);
    for step in messages.steps.iter().take(8) {
        list.call(record, &step.call);
        if random.chance(1, 4) {
            look(record, &list.printer.store, random.below(3));
        }
    }
    let base = list
        .printer
        .store
        .held
        .first()
        .map_or(-1, |(tick, _)| *tick);
    let next = base.wrapping_add(1);
    for call in messages_of(next, base, &packed(&[0, 0, 0]), 0) {
        list.call(record, &call);
    }
}
