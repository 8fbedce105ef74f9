//! Times of deltas applied to tables in which one item in twenty changes, of
//! tables with many kinds, and of building.

use super::area;
use super::limits::kinds_from;
use super::limits::ordinals;
use super::oracle;
use super::SCRATCH;
use crate::core::bench::Table;
use crate::core::oracle::Tally;
use crate::parts::deltas;
use crate::parts::tables;
use crate::parts::tables::oracle::parts;
use crate::parts::tables::oracle::Item;
use cefdugar::builder;
use cefdugar::snap;
use cefdugar::snap::TypeId;
use cefdugar::table;
use libtw2_packer::IntUnpacker;
use libtw2_snapshot::snap::Builder;
use libtw2_snapshot::snap::RawSnap;
use libtw2_snapshot::snap::Snap;
use libtw2_snapshot::Delta;
use std::hint::black_box;

/// A table whose types are numbers, with its changed form.
struct Shape {
    name: &'static str,
    size: usize,
    items: Vec<Item>,
    base: Vec<i32>,
    target: Vec<i32>,
    delta: Vec<i32>,
}

impl Shape {
    fn new(name: &'static str, size: usize, ints: usize) -> Shape {
        let items = ordinals(size, ints);
        let base = area(&items);
        let target = area(&deltas::bench::changed(&items));
        let mut delta = vec![0; cefdugar::delta::INTS];
        let len = cefdugar::delta::create(&base, &target, &mut delta).expect("two tables");
        delta.truncate(len);
        Shape {
            name,
            size,
            items,
            base,
            target,
            delta,
        }
    }
    fn row(&self, operation: &str) -> String {
        format!("{operation}, {}", self.name)
    }
    /// The Rust's delta.
    fn rust_delta(&self) -> Delta {
        let mut delta = Delta::new();
        let mut ints = IntUnpacker::new(&self.delta);
        let said = delta.read_from_ints(&mut Tally::default(), |_| None, &mut ints);
        assert!(said.is_ok());
        delta
    }
}

pub fn bench(table: &mut Table) {
    let mut shapes: Vec<Shape> = [64, 128, 512, 1_024]
        .map(|size| Shape::new("4 ints an item", size, 4 * size))
        .into();
    let fullest = table::INTS - 2 - 2 * table::ITEMS;
    shapes.push(Shape::new("fullest table", table::ITEMS, fullest));
    for operation in [apply, apply_typed, build] {
        for shape in &shapes {
            operation(table, shape);
        }
    }
    for count in [128, 256, 512] {
        read_kinds(
            table,
            count,
            "typed read_from_ints, a kind an item",
            kinds_from(0x4000, count),
        );
        let mut kinds = kinds_from(0x4000, count);
        kinds.retain(|(key, _)| parts(*key).0 == 0);
        read_kinds(table, count, "typed read_from_ints, kinds alone", kinds);
    }
}

fn apply(rows: &mut Table, shape: &Shape) {
    let from = tables::oracle::held(&shape.base).expect("a table");
    let delta = shape.rust_delta();
    let mut rust = RawSnap::empty();
    let (mut out, mut scratch) = (vec![0; shape.target.len()], vec![0; SCRATCH]);
    rows.race(
        &shape.row("read_with_delta"),
        shape.size,
        &mut || {
            let mut tally = Tally::default();
            let said = rust.read_with_delta(&mut tally, black_box(&from), black_box(&delta));
            let _ = black_box((said, tally.0, &rust));
        },
        &mut || {
            let (base, delta) = (black_box(&shape.base), black_box(&shape.delta));
            let said = table::read_with_delta(base, delta, &mut out, &mut scratch);
            let _ = black_box((said, &out));
        },
    );
    assert!(out == shape.target && tables::oracle::written(&rust) == out);
}

fn apply_typed(rows: &mut Table, shape: &Shape) {
    let from = oracle::held(&shape.base).expect("sound types");
    let delta = shape.rust_delta();
    let mut rust = Snap::empty();
    let (mut out, mut scratch) = (vec![0; shape.target.len()], vec![0; SCRATCH]);
    rows.race(
        &shape.row("read_with_delta, types judged"),
        shape.size,
        &mut || {
            let mut tally = Tally::default();
            let said = rust.read_with_delta(&mut tally, black_box(&from), black_box(&delta));
            let _ = black_box((said, tally.0, &rust));
        },
        &mut || {
            let (base, delta) = (black_box(&shape.base), black_box(&shape.delta));
            let said = snap::read_with_delta(base, delta, &mut out, &mut scratch);
            let _ = black_box((said, &out));
        },
    );
    assert!(out == shape.target && oracle::written(&rust) == out);
}

/// Builds a table item by item and finishes it.
fn build(rows: &mut Table, shape: &Shape) {
    let mut out = vec![0; shape.base.len()];
    let types: Vec<(TypeId, u16)> = shape
        .items
        .iter()
        .map(|(key, _)| (TypeId::Ordinal(parts(*key).0), parts(*key).1))
        .collect();
    let mut built = Snap::empty();
    rows.race_slow(
        &shape.row("building"),
        shape.size,
        &mut || {
            let mut rust = Builder::new();
            for ((type_id, id), (_, data)) in types.iter().zip(&shape.items) {
                let said = rust.add_item(oracle::rust_type(*type_id), *id, black_box(data));
                let _ = black_box(said);
            }
            built = rust.finish();
        },
        &mut || {
            let _ = black_box(builder::new(&mut out));
            for ((type_id, id), (_, data)) in types.iter().zip(&shape.items) {
                let said = builder::add_item(&mut out, *type_id, *id, black_box(data));
                let _ = black_box(said);
            }
            let _ = black_box(builder::finish(&out));
        },
    );
    assert!(out == shape.base && oracle::written(&built) == out);
}

/// Reads a table with many kinds, with its types judged.
fn read_kinds(rows: &mut Table, count: usize, operation: &str, items: Vec<Item>) {
    let ints = area(&items);
    let mut rust = Snap::empty();
    let (mut out, mut scratch) = (vec![0; ints.len()], vec![0; SCRATCH]);
    rows.race(
        operation,
        count,
        &mut || {
            let mut tally = Tally::default();
            let said = rust.read_from_ints(&mut tally, black_box(&ints));
            let _ = black_box((said, tally.0, &rust));
        },
        &mut || {
            let said = snap::read_from_ints(black_box(&ints), &mut out, &mut scratch);
            let _ = black_box((said, &out));
        },
    );
    assert!(out == ints && oracle::written(&rust) == out);
}
