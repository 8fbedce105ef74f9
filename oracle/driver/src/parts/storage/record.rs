//! Recorded answers of stores. A case is a call on the store as the cases
//! before left it.
//!
//!     n ROOM                       new: a store with an area of ROOM ints
//!     r                            reset
//!     b TICK                       set_delta_tick
//!     s TICK ROOM INT..            add_snap of a table, with a delta area
//!     d HAS CRC BASE TICK INT..    add_delta
//!     l PLACE                      looks up the table at a place
//!
//! Answers: UNKNOWN EXCESS WEIRD, the three warning counts that a store can
//! give, COUNT ACK BASE, how many tables are held and the two ticks (`-`
//! if there is none), and then `done`, `tick TICK`, `delta BASE LEN INT..`,
//! `refused NUMBER`, or `refused 10 KEY` for a table. For `l`: `TICK INT..`,
//! or `end`.

use super::inputs;
use super::oracle::Call;
use super::oracle::Said;
use super::oracle::Store;
use crate::core::random::Random;
use crate::core::record::Record;
use cefdugar::Warnings;

/// How many ints the area of the program has.
const MOST_ROOM: usize = 1_024;
/// How many ints of a line the program reads.
const MOST_INTS: usize = 120;

/// ` INT..`
pub fn ints(list: &[i32]) -> String {
    list.iter().map(|int| format!(" {int}")).collect()
}

/// ` TICK`, or ` -`.
pub fn tick(tick: Option<i32>) -> String {
    tick.map_or(" -".to_string(), |tick| format!(" {tick}"))
}

fn answer(store: &Store, said: &Said, what: &str) -> String {
    let counts = said.warnings.0;
    format!(
        "{} {} {} {}{}{} {what}",
        counts[Warnings::UNKNOWN_DELETE],
        counts[Warnings::EXCESS_UUID_ITEM_DATA],
        counts[Warnings::WEIRD_NEGATIVE_DELTA_TICK],
        store.held.len(),
        tick(store.ack_tick()),
        tick(store.delta_tick()),
    )
}

/// The call as text, with the room of its delta area.
fn question(call: &Call, delta: usize) -> String {
    match call {
        Call::AddDelta {
            crc,
            base,
            tick,
            delta,
        } => format!(
            "d {} {} {base} {tick}{}",
            i32::from(crc.is_some()),
            crc.unwrap_or(0),
            ints(delta)
        ),
        Call::AddSnap { tick, table, .. } => format!("s {tick} {delta}{}", ints(table)),
        Call::SetDeltaTick(tick) => format!("b {tick}"),
        Call::Reset => "r".to_string(),
    }
}

fn what(call: &Call, said: &Said) -> String {
    match (said.number, call, &said.added, said.clash) {
        (10, _, _, Some(key)) => format!("refused 10 {key}"),
        (0, _, Some((base, delta)), _) => format!("delta {base} {}{}", delta.len(), ints(delta)),
        (0, Call::AddDelta { tick, .. }, ..) => format!("tick {tick}"),
        (0, ..) => "done".to_string(),
        (number, ..) => format!("refused {number}"),
    }
}

/// Looks up a place.
pub fn look(record: &mut Record, store: &Store, place: usize) {
    let answer = match store.held.get(place) {
        Some((tick, table)) => format!("{tick}{}", ints(table)),
        None => "end".to_string(),
    };
    record.case(&format!("l {place}"), &answer);
}

/// The calls on one store, some of which are followed by a lookup.
struct List {
    store: Store,
    room: usize,
}

impl List {
    fn new(record: &mut Record, room: usize) -> List {
        let store = Store::new();
        let answer = answer(&store, &Said::default(), "done");
        record.case(&format!("n {room}"), &answer);
        List { store, room }
    }
    /// An answer that is too long is not recorded.
    fn call(&mut self, record: &mut Record, call: &Call) {
        let [_, delta] = self.store.needs(call);
        let delta = match call {
            Call::AddSnap { spare, .. } => (delta as isize + spare).max(0) as usize,
            _ => 0,
        };
        let mut after = self.store.clone();
        let said = after.call(call, self.room);
        let question = question(call, delta);
        let too_long = question.split(' ').count() > MOST_INTS || delta > MOST_INTS;
        if too_long {
            return;
        }
        self.store = after;
        record.case(&question, &answer(&self.store, &said, &what(call, &said)));
    }
}

fn add(crc: Option<i32>, base: i32, tick: i32, delta: &[i32]) -> Call {
    Call::AddDelta {
        crc,
        base,
        tick,
        delta: delta.to_vec(),
    }
}

fn snap(tick: i32, table: &[i32], spare: isize) -> Call {
    Call::AddSnap {
        tick,
        table: table.to_vec(),
        spare,
    }
}

/// Each refusal, bases of all sorts, room that is just enough and one less;
/// then random lists.
pub fn fill(record: &mut Record, random: &mut Random) {
    let one = [8, 1, 0, 65_537, 5];
    let update = [0, 1, 0, 1, 1, 1, 5];
    for room in [7, 6, 14, 13, 60] {
        let mut list = List::new(record, room);
        for call in [
            add(Some(5), -1, 3, &update),
            add(Some(9), 3, 4, &update),
            add(Some(10), 3, 4, &update),
            add(None, 3, 4, &update),
            add(None, 3, 5, &[1, 0, 0, 7]),
            add(None, 5, 6, &[0, 1, 0, 1, 1, 2, 0, 0]),
            add(None, 4, 7, &[0, 1, 0, 0, 1, 0]),
            add(None, 4, 7, &[0, 1, 0, 16_384, 1, 0]),
            add(None, -9, 8, &[0, 1, 0, 0, 7, 5, 1, 2, 3, 4, 5]),
            add(None, 8, 9, &[0, 0, 1]),
            Call::SetDeltaTick(8),
            snap(2, &one, 0),
            snap(3, &one, -1),
            snap(3, &[8, 1, 0, 65_537], 0),
            Call::SetDeltaTick(9),
            snap(-5, &one, 0),
            Call::SetDeltaTick(-5),
            Call::Reset,
            snap(1, &one, 2),
            Call::SetDeltaTick(1),
            snap(2, &[12, 1, 0, 65_537, 5, 6], 0),
            Call::Reset,
            snap(2, &[12, 1, 0, 65_537, 5, 6], 0),
        ] {
            list.call(record, &call);
        }
        look(record, &list.store, 0);
        look(record, &list.store, 2);
    }
    hundred(record);
    clashes(record);
    for _ in 0..18 {
        random_list(record, random);
    }
}

/// The hundredth table, and one more of each call.
fn hundred(record: &mut Record) {
    let mut list = List::new(record, 404);
    for tick in 0..99 {
        list.call(record, &snap(tick, &[0, 0], 0));
    }
    for tick in 99..102 {
        list.call(record, &snap(tick, &[0, 0], 0));
        list.call(record, &add(None, 0, tick + 3, &[0, 0, 0]));
    }
    for place in [0, 99, 100] {
        look(record, &list.store, place);
    }
}

/// Several keys clash with the base: on both sides of 8000 0000 hex, then on
/// one; then 44 comes first.
fn clashes(record: &mut Record) {
    let tables = crate::parts::deltas::inputs::clashing();
    let mut list = List::new(record, 1_000);
    list.call(record, &snap(0, &tables[0], 0));
    list.call(record, &Call::SetDeltaTick(0));
    for table in &tables {
        list.call(record, &snap(1, table, -1));
    }
    for tick in 1..100 {
        list.call(record, &snap(tick, &[0, 0], 0));
    }
    list.call(record, &snap(100, &tables[63], 0));
    list.call(record, &Call::SetDeltaTick(1));
    list.call(record, &snap(100, &tables[63], 0));
}

fn random_list(record: &mut Record, random: &mut Random) {
    let room = random.pick(&[40, 80, 200, MOST_ROOM]);
    let mut list = List::new(record, room);
    for step in inputs::steps(random).iter().take(10) {
        list.call(record, &step.call);
        if random.chance(1, 3) {
            look(record, &list.store, random.below(4));
        }
    }
}
