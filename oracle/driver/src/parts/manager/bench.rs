//! Times of all the messages of a delta, with one item in twenty changed. Also
//! compared with the Rust's time for the delta: `all old`, the same messages again,
//! which are refused, so that only the fixed cost of each message is timed; and
//! `by steps`, the messages given to a receiver, and the whole delta to a store.

use crate::core::bench::Table;
use crate::core::random::Random;
use crate::core::told::Told;
use crate::parts::deltas;
use crate::parts::receiver::calls;
use crate::parts::receiver::inputs::messages_of;
use crate::parts::receiver::oracle;
use crate::parts::receiver::oracle::Call;
use crate::parts::storage::bench::at;
use crate::parts::storage::bench::tables;
use crate::parts::storage::inputs::key;
use crate::parts::storage::inputs::table_of;
use crate::parts::tables;
use cefdugar::delta;
use cefdugar::manager::Lent;
use cefdugar::manager::Manager;
use cefdugar::manager::SCRATCH;
use cefdugar::messages::Tick;
use cefdugar::receiver::Receiver;
use cefdugar::receiver::AREA_BYTES;
use cefdugar::storage::Storage;
use libtw2_snapshot as rust;
use libtw2_warn::Ignore;
use std::hint::black_box;

pub fn bench(table: &mut Table) {
    for held in [2, 10, 50] {
        for count in [512, 1_024] {
            let tables = tables(count, held - 1);
            let name = format!("messages of a delta, 4 ints an item, {held} held");
            race(table, &name, count, &tables, held);
        }
    }
    let name = "messages of a delta, 4 ints an item, 10 held, room for 100";
    race(table, name, 1_024, &tables(1_024, 9), 100);
    let mut random = Random::new(1, "manager", 0);
    let tables = [(); 2].map(|()| any_ints(&mut random, 1_000));
    let name = "messages of a delta of 32 parts, 2 held";
    race(table, name, 1_000, &tables, 2);
}

/// A table whose deltas take 32 messages.
fn any_ints(random: &mut Random, count: i32) -> Vec<i32> {
    let items: Vec<_> = (0..count)
        .map(|i| {
            let data = (0..5).map(|_| random.bits() as i32).collect();
            (key(1, i), data)
        })
        .collect();
    table_of(&items)
}

/// The messages of a table against its base.
fn messages(tick: i32, base: i32, from: &[i32], to: &[i32]) -> Vec<Call> {
    let Told::Value(ints) = deltas::oracle::created(from, to) else {
        unreachable!("items keep their lengths")
    };
    let delta = deltas::oracle::held(&ints).expect("a delta");
    let Told::Value(bytes) = deltas::oracle::packed(&delta, &[], ints.len()) else {
        unreachable!("no size is known")
    };
    let crc = tables::oracle::held(to).map_or(0, |snap| snap.crc());
    messages_of(tick, base, &bytes, crc)
}

/// What is lent to the port's calls.
struct Areas {
    parts: Vec<u8>,
    joined: Vec<u8>,
    delta: Vec<i32>,
    store: Vec<i32>,
    scratch: Vec<i32>,
}

impl Areas {
    /// With room for so many tables, each as long as the longest of some.
    fn new(tables: &[Vec<i32>], room: usize) -> Areas {
        let longest = tables.iter().map(Vec::len).max().unwrap_or(0);
        Areas {
            parts: vec![0; AREA_BYTES],
            joined: vec![0; AREA_BYTES],
            delta: vec![0; delta::INTS],
            store: vec![0; room * (2 + longest)],
            scratch: vec![0; SCRATCH],
        }
    }
}

/// The port's manager.
struct Port {
    manager: Manager,
    areas: Areas,
}

impl Port {
    /// The tick that the last of some messages acknowledges.
    fn take(&mut self, messages: &[Call]) -> Option<Tick> {
        let mut ack = None;
        for message in messages {
            let lent = Lent {
                sizes: &[],
                parts: &mut self.areas.parts,
                joined: &mut self.areas.joined,
                delta: &mut self.areas.delta,
                area: &mut self.areas.store,
                scratch: &mut self.areas.scratch,
            };
            let (said, _) = match message {
                Call::Snap(numbers, data) => {
                    let snap = calls::snap(oracle::snap(numbers, data));
                    self.manager.snap(snap, lent)
                }
                Call::Single(numbers, data) => {
                    let snap = calls::single(oracle::single(numbers, data));
                    self.manager.snap_single(snap, lent)
                }
                _ => unreachable!("there are bytes"),
            };
            ack = said.unwrap_or(None);
        }
        ack
    }
}

/// The port's receiver and store, without a manager.
struct Steps {
    receiver: Receiver,
    storage: Storage,
    areas: Areas,
}

impl Steps {
    /// The tick that the last of some messages acknowledges.
    fn take(&mut self, messages: &[Call]) -> Option<Tick> {
        let mut ack = None;
        for message in messages {
            let (parts, joined) = (&mut self.areas.parts, &mut self.areas.joined);
            let (said, _) = match message {
                Call::Snap(numbers, data) => {
                    let snap = calls::snap(oracle::snap(numbers, data));
                    self.receiver.snap(snap, parts, joined)
                }
                Call::Single(numbers, data) => {
                    let snap = calls::single(oracle::single(numbers, data));
                    self.receiver.snap_single(snap, joined)
                }
                _ => unreachable!("there are bytes"),
            };
            if let Some(received) = said.unwrap_or(None) {
                let (len, crc) = received.data_and_crc.expect("there are bytes");
                let (delta, scratch) = (&mut self.areas.delta, &mut self.areas.scratch);
                let (read, _) = delta::read(&self.areas.joined[..len], &[], delta, scratch);
                let delta = &delta[..read.ok()?];
                let ticks = (received.delta_tick, received.tick);
                let store = &mut self.areas.store;
                let storage = &mut self.storage;
                let (added, _) =
                    storage.add_delta(Some(crc), ticks.0, ticks.1, delta, store, scratch);
                ack = added.ok().and(storage.ack_tick());
            }
        }
        ack
    }
}

/// The same for the Rust's.
fn take(manager: &mut rust::Manager, messages: &[Call]) {
    for message in messages {
        let taken = match message {
            Call::Snap(numbers, data) => {
                let snap = oracle::snap(numbers, data);
                manager.snap(&mut Ignore, |_| None, snap).is_ok()
            }
            Call::Single(numbers, data) => {
                let snap = oracle::single(numbers, data);
                manager.snap_single(&mut Ignore, |_| None, snap).is_ok()
            }
            _ => unreachable!("there are bytes"),
        };
        assert!(black_box(taken));
    }
}

/// Tables in rotation, all of them held: when the next one comes,
/// the oldest is dropped, and the one after it is the base.
struct Round<'a> {
    tables: &'a [Vec<i32>],
    /// The messages of each against the next one, which is the oldest.
    lists: Vec<Vec<Call>>,
}

impl Round<'_> {
    fn new(tables: &[Vec<i32>]) -> Round<'_> {
        let held = tables.len() as i32 - 1;
        let list = |tick| {
            let (from, to) = (at(tables, tick + 1), at(tables, tick));
            messages(tick, tick - held, from, to)
        };
        Round {
            tables,
            lists: (0..=held).map(list).collect(),
        }
    }
    /// The messages of a tick.
    fn at(&self, tick: i32) -> Vec<Call> {
        if (tick as usize) < self.tables.len() - 1 {
            return messages(tick, -1, &[0, 0], &at(self.tables, tick)[..]);
        }
        let mut list: Vec<Call> = at(&self.lists, tick).clone();
        for call in &mut list {
            match call {
                Call::Snap(numbers, _) => numbers[0] = tick,
                Call::Single(numbers, _) => numbers[0] = tick,
                _ => unreachable!("there are bytes"),
            }
        }
        list
    }
}

/// A side: its manager, the next tick, and its messages.
struct Side<M> {
    manager: M,
    tick: i32,
    next: Vec<Call>,
}

impl<M> Side<M> {
    fn before(&mut self, round: &Round) {
        self.next = round.at(self.tick);
    }
    fn step(&mut self, take: impl Fn(&mut M, &[Call])) {
        take(&mut self.manager, black_box(&self.next));
        self.tick += 1;
    }
}

fn side<M>(manager: M) -> Side<M> {
    Side {
        manager,
        tick: 0,
        next: vec![],
    }
}

fn race(rows: &mut Table, name: &str, size: usize, tables: &[Vec<i32>], room: usize) {
    let round = Round::new(tables);
    let mut rust = side(rust::Manager::new());
    let mut port = side(Port {
        manager: Manager::new(),
        areas: Areas::new(tables, room),
    });
    let mut steps = side(Steps {
        receiver: Receiver::new(),
        storage: Storage::new(),
        areas: Areas::new(tables, room),
    });
    let take_port = |port: &mut Port, list: &[Call]| assert!(port.take(list).is_some());
    let take_steps = |steps: &mut Steps, list: &[Call]| assert!(steps.take(list).is_some());
    for _ in 0..2 * tables.len() {
        rust.before(&round);
        rust.step(take);
        port.before(&round);
        port.step(take_port);
        steps.before(&round);
        steps.step(take_steps);
    }
    let name = format!("{name}, {} parts", round.lists[0].len());
    let mut row = Rows {
        rows,
        size,
        round: &round,
        rust: &mut rust,
    };
    let before = |side: &mut &mut Side<Port>| side.before(&round);
    row.add(&name, &mut port, before, |side| side.step(take_port));
    let old = port.next.clone();
    row.add(
        &format!("{name}, all old"),
        &mut port,
        |_| (),
        |side| assert!(side.manager.take(black_box(&old)).is_none()),
    );
    row.add(
        &format!("{name}, by steps"),
        &mut steps,
        |side| side.before(&round),
        |side| side.step(take_steps),
    );
}

/// Rows compared with the Rust's time for all the messages of a delta.
struct Rows<'a, 'b> {
    rows: &'a mut Table,
    size: usize,
    round: &'a Round<'b>,
    rust: &'a mut Side<rust::Manager>,
}

impl Rows<'_, '_> {
    fn add<P>(
        &mut self,
        name: &str,
        port: &mut Side<P>,
        before: impl Fn(&mut &mut Side<P>),
        call: impl Fn(&mut &mut Side<P>),
    ) {
        let rust = (
            &mut *self.rust,
            |side: &mut &mut Side<rust::Manager>| side.before(self.round),
            |side: &mut &mut Side<rust::Manager>| side.step(take),
        );
        self.rows
            .race_steps(name, self.size, rust, (port, before, call));
    }
}
