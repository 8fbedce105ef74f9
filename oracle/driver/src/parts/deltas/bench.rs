//! Times of deltas between tables in which one item in twenty changes.

use super::hostile;
use super::inputs;
use super::oracle;
use crate::core::bench::Table;
use crate::core::oracle::Tally;
use crate::core::random::Random;
use crate::core::told::Told;
use crate::parts::tables;
use crate::parts::tables::oracle::Item;
use crate::parts::tables::sorted;
use cefdugar::delta;
use cefdugar::table;
use libtw2_packer::with_packer;
use libtw2_packer::IntUnpacker;
use libtw2_packer::Unpacker;
use libtw2_snapshot::snap::RawSnap;
use libtw2_snapshot::Delta;
use std::hint::black_box;

/// The items, one in twenty with other data.
pub fn changed(items: &[Item]) -> Vec<Item> {
    let mut items = items.to_vec();
    for (_, data) in items.iter_mut().step_by(20) {
        data.iter_mut().for_each(|int| *int = int.wrapping_add(1));
    }
    items
}

/// A table to be timed, with its changed form.
struct Shape {
    name: &'static str,
    size: usize,
    base: Vec<i32>,
    target: Vec<i32>,
}

impl Shape {
    fn new(name: &'static str, size: usize, ints: usize) -> Shape {
        let items = sorted(&tables::inputs::many(size, ints));
        Shape {
            name,
            size,
            base: tables::inputs::listed(&items),
            target: tables::inputs::listed(&changed(&items)),
        }
    }
    fn row(&self, operation: &str) -> String {
        format!("{operation}, {}", self.name)
    }
    fn snaps(&self) -> (RawSnap, RawSnap) {
        let snap = |ints| tables::oracle::held(ints).expect("a table");
        (snap(&self.base), snap(&self.target))
    }
    /// The ints of the delta, and the Rust's delta.
    fn delta(&self) -> (Vec<i32>, Delta) {
        let (base, target) = self.snaps();
        let mut delta = Delta::new();
        delta.create_raw(&base, &target);
        let Told::Value(ints) = oracle::written(&delta, &[], delta::INTS) else {
            unreachable!("no size is known")
        };
        (ints, delta)
    }
}

pub fn bench(table: &mut Table) {
    const OPERATIONS: [fn(&mut Table, &Shape); 9] = [
        create,
        write,
        write_known,
        write_to_ints,
        read,
        read_known,
        read_ints,
        read_falling,
        read_shuffled,
    ];
    let mut shapes: Vec<Shape> = [64, 128, 512, 1_024]
        .map(|size| Shape::new("4 ints an item", size, 4 * size))
        .into();
    let fullest = table::INTS - 2 - 2 * table::ITEMS;
    shapes.push(Shape::new("fullest table", table::ITEMS, fullest));
    for operation in OPERATIONS {
        for shape in &shapes {
            operation(table, shape);
        }
    }
    hostile::bench(table);
}

fn create(rows: &mut Table, shape: &Shape) {
    let (base, target) = shape.snaps();
    let (ints, _) = shape.delta();
    let mut rust = Delta::new();
    let mut out = vec![0; ints.len()];
    rows.race(
        &shape.row("delta create"),
        shape.size,
        &mut || {
            rust.create_raw(black_box(&base), black_box(&target));
            black_box(&rust);
        },
        &mut || {
            let said = delta::create(black_box(&shape.base), black_box(&shape.target), &mut out);
            let _ = black_box((said, &out));
        },
    );
    assert!(out == ints);
}

/// Packing a delta under known sizes.
fn race_write(rows: &mut Table, shape: &Shape, operation: &str, sizes: &[i32]) {
    let (ints, rust) = shape.delta();
    let Told::Value(bytes) = oracle::packed(&rust, sizes, ints.len()) else {
        return;
    };
    let (mut rust_out, mut port_out) = (vec![0; bytes.len()], vec![0; bytes.len()]);
    rows.race(
        &shape.row(operation),
        shape.size,
        &mut || {
            let written = with_packer(&mut rust_out[..], |packer| {
                let size = |type_id| oracle::known_size(black_box(sizes), type_id);
                black_box(&rust).write(size, packer).map(<[u8]>::len)
            });
            let _ = black_box(written);
        },
        &mut || {
            let said = delta::write(black_box(&ints), black_box(sizes), &mut port_out);
            let _ = black_box(said);
        },
    );
    assert!(rust_out == bytes && port_out == bytes);
}

fn write(rows: &mut Table, shape: &Shape) {
    race_write(rows, shape, "delta write", &[]);
}

/// If all items have four ints.
fn write_known(rows: &mut Table, shape: &Shape) {
    race_write(rows, shape, "delta write, sizes known", &[4; 65_536]);
}

fn write_to_ints(rows: &mut Table, shape: &Shape) {
    let (ints, rust) = shape.delta();
    let (mut rust_out, mut port_out) = (vec![0; ints.len()], vec![0; ints.len()]);
    rows.race(
        &shape.row("delta write_to_ints"),
        shape.size,
        &mut || {
            let written = black_box(&rust).write_to_ints(|_| None, &mut rust_out);
            let _ = black_box(written.map(<[i32]>::len));
        },
        &mut || {
            let said = delta::write_to_ints(black_box(&ints), &[], &mut port_out);
            let _ = black_box(said);
        },
    );
    assert!(rust_out == ints && port_out == ints);
}

/// Reading a packed delta under known sizes.
fn race_read(rows: &mut Table, shape: &Shape, operation: &str, sizes: &[i32]) {
    let (ints, rust) = shape.delta();
    let Told::Value(bytes) = oracle::packed(&rust, sizes, ints.len()) else {
        return;
    };
    let mut delta = Delta::new();
    let mut out = vec![0; ints.len()];
    let mut scratch = vec![0; table::SCRATCH.max(bytes.len())];
    rows.race(
        &shape.row(operation),
        shape.size,
        &mut || {
            let mut tally = Tally::default();
            let size = |type_id| oracle::known_size(black_box(sizes), type_id);
            let said = delta.read(&mut tally, size, &mut Unpacker::new(black_box(&bytes)));
            let _ = black_box((said, tally.0, &delta));
        },
        &mut || {
            let said = delta::read(black_box(&bytes), black_box(sizes), &mut out, &mut scratch);
            let _ = black_box((said, &out));
        },
    );
    assert!(oracle::written(&delta, &[], ints.len()) == Told::Value(out));
}

fn read(rows: &mut Table, shape: &Shape) {
    race_read(rows, shape, "delta read", &[]);
}

/// If all items have four ints.
fn read_known(rows: &mut Table, shape: &Shape) {
    race_read(rows, shape, "delta read, sizes known", &[4; 65_536]);
}

/// The updates of a delta between tables, in some order.
fn race_read_ints(
    rows: &mut Table,
    shape: &Shape,
    operation: &str,
    order: impl FnOnce(&mut Vec<Item>),
) {
    let (written, _) = shape.delta();
    let mut updated = inputs::updates_of(&written);
    order(&mut updated);
    let ints = inputs::listed(&[], &updated);
    let mut delta = Delta::new();
    let (mut out, mut scratch) = (vec![0; ints.len()], vec![0; table::SCRATCH]);
    rows.race(
        &shape.row(operation),
        shape.size,
        &mut || {
            let mut tally = Tally::default();
            let mut unpacker = IntUnpacker::new(black_box(&ints));
            let said = delta.read_from_ints(&mut tally, |_| None, &mut unpacker);
            let _ = black_box((said, tally.0, &delta));
        },
        &mut || {
            let said = delta::read_from_ints(black_box(&ints), &[], &mut out, &mut scratch);
            let _ = black_box((said, &out));
        },
    );
    assert!(out == written);
}

fn read_ints(rows: &mut Table, shape: &Shape) {
    race_read_ints(rows, shape, "delta read_from_ints", |_| ());
}

fn read_falling(rows: &mut Table, shape: &Shape) {
    let operation = "delta read_from_ints, keys falling";
    race_read_ints(rows, shape, operation, |updated| updated.reverse());
}

fn read_shuffled(rows: &mut Table, shape: &Shape) {
    let operation = "delta read_from_ints, keys in any order";
    race_read_ints(rows, shape, operation, |updated| {
        inputs::shuffle(updated, &mut Random::new(1, "shuffled", 0));
    });
}
