//! Times of tables of items of four ints, and of the fullest table.

use super::inputs;
use super::oracle;
use super::oracle::parts;
use super::oracle::Item;
use super::sorted;
use crate::core::bench::Table;
use crate::core::oracle::Tally;
use crate::core::random::Random;
use crate::parts::packer::packed;
use cefdugar::table;
use libtw2_packer::with_packer;
use libtw2_snapshot::snap::RawSnap;
use std::hint::black_box;

/// A table to be timed.
struct Shape {
    name: &'static str,
    size: usize,
    items: Vec<Item>,
}

impl Shape {
    fn of_four(size: usize) -> Shape {
        Shape {
            name: "4 ints an item",
            size,
            items: sorted(&inputs::many(size, 4 * size)),
        }
    }
    fn fullest() -> Shape {
        Shape {
            name: "fullest table",
            size: table::ITEMS,
            items: sorted(&inputs::many(
                table::ITEMS,
                table::INTS - 2 - 2 * table::ITEMS,
            )),
        }
    }
    fn row(&self, operation: &str) -> String {
        format!("{operation}, {}", self.name)
    }
    fn ints(&self) -> Vec<i32> {
        inputs::listed(&self.items)
    }
    /// The ints of the table, and the Rust's table.
    fn tables(&self) -> (Vec<i32>, RawSnap) {
        let ints = self.ints();
        let mut snap = RawSnap::empty();
        let read = snap.read_from_ints(&mut Tally::default(), &ints);
        assert!(read.is_ok());
        (ints, snap)
    }
    /// The key of an item in the middle of the table.
    fn middle(&self) -> i32 {
        self.items[self.size / 2].0
    }
}

pub fn bench(table: &mut Table) {
    const OPERATIONS: [fn(&mut Table, &Shape); 10] = [
        read,
        read_ints,
        read_falling,
        read_shuffled,
        write,
        write_to_ints,
        crc,
        lookup,
        step,
        walk,
    ];
    let mut shapes: Vec<Shape> = [64, 128, 512, 1_024].map(Shape::of_four).into();
    shapes.push(Shape::fullest());
    for operation in OPERATIONS {
        for shape in &shapes {
            operation(table, shape);
        }
    }
}

fn read(rows: &mut Table, shape: &Shape) {
    let ints = shape.ints();
    let bytes = packed(&ints);
    let (mut snap, mut buffer) = (RawSnap::empty(), vec![]);
    let (mut out, mut scratch) = (
        vec![0; table::INTS],
        vec![0; table::SCRATCH.max(bytes.len())],
    );
    rows.race(
        &shape.row("read"),
        shape.size,
        &mut || {
            let mut tally = Tally::default();
            let said = snap.read(&mut tally, &mut buffer, black_box(&bytes));
            let _ = black_box((said, tally.0, &snap));
        },
        &mut || {
            let said = table::read(black_box(&bytes), &mut out, &mut scratch);
            let _ = black_box((said, &out));
        },
    );
    assert!(oracle::written(&snap) == ints && out[..ints.len()] == ints);
}

/// Reads a table whose items come in some order.
fn race_read_ints(rows: &mut Table, shape: &Shape, operation: &str, items: &[Item]) {
    let (ints, written) = (inputs::listed(items), shape.ints());
    let mut snap = RawSnap::empty();
    let mut out = vec![0; table::INTS];
    rows.race(
        &shape.row(operation),
        shape.size,
        &mut || {
            let mut tally = Tally::default();
            let said = snap.read_from_ints(&mut tally, black_box(&ints));
            let _ = black_box((said, tally.0, &snap));
        },
        &mut || {
            let said = table::read_from_ints(black_box(&ints), &mut out);
            let _ = black_box((said, &out));
        },
    );
    assert!(oracle::written(&snap) == written && out[..written.len()] == *written);
}

fn read_ints(rows: &mut Table, shape: &Shape) {
    race_read_ints(rows, shape, "read_from_ints", &shape.items);
}

fn read_falling(rows: &mut Table, shape: &Shape) {
    let mut items = shape.items.clone();
    items.reverse();
    race_read_ints(rows, shape, "read_from_ints, keys falling", &items);
}

fn read_shuffled(rows: &mut Table, shape: &Shape) {
    let mut items = shape.items.clone();
    let mut random = Random::new(1, "shuffled", 0);
    for i in (1..items.len()).rev() {
        items.swap(i, random.below(i + 1));
    }
    race_read_ints(rows, shape, "read_from_ints, keys in any order", &items);
}

fn write(rows: &mut Table, shape: &Shape) {
    let (ints, snap) = shape.tables();
    let bytes = packed(&ints);
    let mut buffer = vec![];
    let (mut rust_out, mut port_out) = (vec![0; bytes.len()], vec![0; bytes.len()]);
    rows.race(
        &shape.row("write"),
        shape.size,
        &mut || {
            let written = with_packer(&mut rust_out[..], |packer| {
                black_box(&snap)
                    .write(&mut buffer, packer)
                    .map(|bytes| bytes.len())
            });
            let _ = black_box(written);
        },
        &mut || {
            let _ = black_box(table::write(black_box(&ints), &mut port_out));
        },
    );
    assert!(rust_out == bytes && port_out == bytes);
}

fn write_to_ints(rows: &mut Table, shape: &Shape) {
    let (ints, snap) = shape.tables();
    let mut buffer = vec![];
    let (mut rust_out, mut port_out) = (vec![0; ints.len()], vec![0; ints.len()]);
    rows.race(
        &shape.row("write_to_ints"),
        shape.size,
        &mut || {
            let written = black_box(&snap).write_to_ints(&mut buffer, &mut rust_out);
            let _ = black_box(written.map(|ints| ints.len()));
        },
        &mut || {
            let _ = black_box(table::write_to_ints(black_box(&ints), &mut port_out));
        },
    );
    assert!(rust_out == ints && port_out == ints);
}

fn crc(rows: &mut Table, shape: &Shape) {
    let (ints, snap) = shape.tables();
    rows.race(
        &shape.row("crc"),
        shape.size,
        &mut || {
            black_box(black_box(&snap).crc());
        },
        &mut || {
            let _ = black_box(table::crc(black_box(&ints)));
        },
    );
    assert!(table::crc(&ints) == Ok(snap.crc()));
}

/// Looks up one item in the middle of the table.
fn lookup(rows: &mut Table, shape: &Shape) {
    let (ints, snap) = shape.tables();
    let (raw_type_id, id) = parts(shape.middle());
    let mut out = vec![0; snap.item(raw_type_id, id).map_or(0, |data| data.len())];
    rows.race(
        &shape.row("item"),
        shape.size,
        &mut || {
            black_box(black_box(&snap).item(raw_type_id, id));
        },
        &mut || {
            let said = table::item(black_box(&ints), raw_type_id, id, &mut out);
            let _ = black_box((said, &out));
        },
    );
    assert!(snap.item(raw_type_id, id) == Some(&out));
}

/// Reads the first item of the walk.
fn step(rows: &mut Table, shape: &Shape) {
    let (ints, snap) = shape.tables();
    let mut out = vec![0; table::INTS];
    rows.race(
        &shape.row("walk, one item"),
        shape.size,
        &mut || {
            let first = black_box(&snap).items().next();
            black_box(first.map(|item| (item.key(), item.data.len())));
        },
        &mut || {
            let key = table::walk_key(black_box(&ints), 0);
            let _ = black_box((key, table::walk_item(&ints, 0, &mut out)));
        },
    );
}

/// Walks all items in signed order and adds up their data.
fn walk(rows: &mut Table, shape: &Shape) {
    let (ints, snap) = shape.tables();
    let mut out = vec![0; table::INTS];
    let sum = |data: &[i32]| data.iter().fold(0i32, |sum, &int| sum.wrapping_add(int));
    rows.race(
        &shape.row("walk, all items"),
        shape.size,
        &mut || {
            let mut total = 0i32;
            for item in black_box(&snap).items() {
                total = total.wrapping_add(sum(item.data) ^ item.key());
            }
            black_box(total);
        },
        &mut || {
            let mut total = 0i32;
            let mut i = 0;
            while let Ok(Some(key)) = table::walk_key(black_box(&ints), i) {
                let len = table::walk_item(&ints, i, &mut out).unwrap_or(0);
                total = total.wrapping_add(sum(&out[..len]) ^ key);
                i += 1;
            }
            black_box(total);
        },
    );
}
