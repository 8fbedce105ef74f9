//! Times of adding a table to a store, with one item in twenty changed.

use super::inputs::key;
use super::inputs::table_of;
use super::oracle::snap_of;
use crate::core::bench::Table;
use crate::parts::deltas::bench::changed;
use crate::parts::tables::oracle::Item;
use cefdugar::delta;
use cefdugar::messages::Tick;
use cefdugar::storage::Storage;
use libtw2_snapshot as rust;
use libtw2_snapshot::Snap;
use libtw2_warn::Ignore;
use std::hint::black_box;

/// `count` items of 4 ints each, of sound types.
pub fn items(count: usize) -> Vec<Item> {
    (0..count as i32)
        .map(|i| {
            let data = (0..4).map(|j| 7 * i + j - 50).collect();
            (key(1 + i / 256, i % 256), data)
        })
        .collect()
}

/// Tables of so many items, each of which differs in one item in twenty from
/// the one before; one more than `held`.
pub fn tables(count: usize, held: usize) -> Vec<Vec<i32>> {
    let mut items = items(count);
    (0..=held)
        .map(|_| {
            items = changed(&items);
            table_of(&items)
        })
        .collect()
}

pub fn bench(table: &mut Table) {
    for held in [1, 10, 50] {
        for count in [512, 1_024] {
            add_snap(table, count, held);
        }
    }
}

/// The table of a tick, of tables in rotation.
pub fn at<T>(tables: &[T], tick: i32) -> &T {
    &tables[tick as usize % tables.len()]
}

/// The Rust's store, the next tick, and its table.
struct Rust {
    store: rust::Storage,
    tick: i32,
    next: Option<Snap>,
}

impl Rust {
    /// Before a table is added: the oldest of too many is dropped.
    fn before(&mut self, snaps: &[Snap]) {
        self.next = Some(at(snaps, self.tick).clone());
        let oldest = self.tick + 1 - snaps.len() as i32;
        if oldest >= 0 {
            assert!(self.store.set_delta_tick(&mut Ignore, oldest).is_ok());
            drop(self.store.new_builder());
        }
    }
    fn add(&mut self) {
        let next = self.next.take().expect("a table");
        let _ = black_box(self.store.add_snap(self.tick, next));
        self.tick += 1;
    }
}

/// The port's store, and its areas.
struct Port {
    store: Storage,
    tick: i32,
    area: Vec<i32>,
    delta: Vec<i32>,
}

impl Port {
    fn before(&mut self, tables: &[Vec<i32>]) {
        let oldest = self.tick + 1 - tables.len() as i32;
        if oldest >= 0 {
            let (set, _) = self.store.set_delta_tick(Tick(oldest), &mut self.area);
            assert!(set.is_ok());
        }
    }
    fn add(&mut self, tables: &[Vec<i32>]) {
        let table = black_box(at(tables, self.tick));
        let (delta, area) = (&mut self.delta, &mut self.area);
        let added = self.store.add_snap(Tick(self.tick), table, delta, area);
        assert!(black_box(added).is_ok());
        self.tick += 1;
    }
}

/// Adds one more table while so many are held; the oldest is the base.
fn add_snap(rows: &mut Table, count: usize, held: usize) {
    let tables = tables(count, held);
    let snap = |table: &Vec<i32>| snap_of(table).expect("a table");
    let snaps: Vec<Snap> = tables.iter().map(snap).collect();
    let mut rust = Rust {
        store: rust::Storage::new(),
        tick: 0,
        next: None,
    };
    let mut port = Port {
        store: Storage::new(),
        tick: 0,
        area: vec![0; tables.iter().map(|table| 2 + table.len()).sum()],
        delta: vec![0; delta::INTS],
    };
    for _ in 0..2 * held {
        rust.before(&snaps);
        rust.add();
        port.before(&tables);
        port.add(&tables);
    }
    rows.race_steps(
        &format!("add_snap, 4 ints an item, {held} held"),
        count,
        (rust, |rust| rust.before(&snaps), Rust::add),
        (port, |port| port.before(&tables), |port| port.add(&tables)),
    );
}
