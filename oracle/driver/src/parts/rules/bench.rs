//! Times of the winner among rules of four ints and four types: against a loop
//! over the Rust's items, and against one over the port's walk.

use super::inputs;
use super::inputs::key;
use super::oracle;
use crate::core::bench::Table;
use crate::core::oracle::Tally;
use crate::parts::tables::oracle::parts;
use crate::parts::tables::oracle::Item;
use cefdugar::rules;
use cefdugar::rules::Winner;
use cefdugar::table;
use libtw2_snapshot::snap::RawSnap;
use std::hint::black_box;

/// The types that hold rules.
const TYPES: [u16; 4] = [1, 3, 0x7fff, 0x8001];

/// The ingredient that is asked for: that of every eighth rule.
const INGREDIENT: i32 = 5;

/// The answer of a loop: the winner, none, or that an item is short.
type Won = Result<Option<Winner>, u32>;

/// What is asked for, and the best rule so far.
struct Search<F> {
    names: F,
    ingredient: i32,
    best: Option<(i32, u32, i32)>,
}

impl<F: Fn(u16) -> bool> Search<F> {
    fn new(names: F, ingredient: i32) -> Search<F> {
        Search {
            names,
            ingredient,
            best: None,
        }
    }
    /// Looks at an item.
    fn see(&mut self, raw_type_id: u16, key: i32, data: &[i32]) -> Result<(), u32> {
        if !(self.names)(raw_type_id) {
            return Ok(());
        }
        let &[ingredient, priority, action, ..] = data else {
            return Err(55);
        };
        if ingredient == self.ingredient {
            let seen = (priority, key as u32, action);
            let better = |best: (i32, u32, i32)| (best.0, best.1) < (seen.0, seen.1);
            if self.best.map_or(true, better) {
                self.best = Some(seen);
            }
        }
        Ok(())
    }
    /// Looks at all of the Rust's items.
    fn see_all(mut self, snap: &RawSnap) -> Won {
        for item in snap.items() {
            self.see(item.raw_type_id, item.key(), item.data)?;
        }
        Ok(self.winner())
    }
    fn winner(self) -> Option<Winner> {
        self.best.map(|(_, key, action)| Winner {
            key: key as i32,
            action,
        })
    }
}

/// A loop over the Rust's items that gets types and ingredient at run time, as
/// the port does.
fn by_items(snap: &RawSnap) -> Won {
    let types: &[u16] = black_box(&TYPES);
    Search::new(
        |raw_type_id| types.contains(&raw_type_id),
        black_box(INGREDIENT),
    )
    .see_all(snap)
}

/// One for which they are constants of the program.
fn by_constants(snap: &RawSnap) -> Won {
    let mut best: Option<(i32, u32, i32)> = None;
    for item in snap.items() {
        if !TYPES.contains(&item.raw_type_id) {
            continue;
        }
        let &[ingredient, priority, action, ..] = item.data else {
            return Err(55);
        };
        if ingredient == INGREDIENT {
            best = best.max(Some((priority, item.key() as u32, action)));
        }
    }
    Ok(best.map(|(_, key, action)| Winner {
        key: key as i32,
        action,
    }))
}

/// The loop over the port's walk.
fn by_walk(area: &[i32], data: &mut [i32]) -> Won {
    let types: &[u16] = black_box(&TYPES);
    let mut search = Search::new(|raw_type_id| types.contains(&raw_type_id), INGREDIENT);
    let mut i = 0;
    while let Ok(Some(key)) = table::walk_key(area, i) {
        let len = table::walk_item(area, i, data).map_err(|refusal| refusal.0)?;
        search.see(parts(key).0, key, &data[..len])?;
        i += 1;
    }
    Ok(search.winner())
}

/// As many rules, spread over the types, with eight ingredients and priorities.
fn rules_of(types: &[u16], count: usize) -> Vec<Item> {
    (0..count)
        .map(|i| {
            let (raw_type_id, id) = (types[i % types.len()], (i / types.len()) as u16);
            let (ingredient, priority) = (i / 3 % 8, i * 7 / 5 % 8);
            let data = vec![ingredient as i32, priority as i32, i as i32, 0];
            (key(raw_type_id, id), data)
        })
        .collect()
}

pub fn bench(rows: &mut Table) {
    const OTHERS: [u16; 8] = [1, 2, 3, 4, 0x7fff, 0x8000, 0x8001, 0x8002];
    for (name, types) in [("4 types", &TYPES[..]), ("4 of 8 types", &OTHERS)] {
        for size in [64, 128, 512, 1_024] {
            let items = rules_of(types, size);
            against(rows, &format!("winner, {name}"), &items, by_items);
        }
    }
    let items = rules_of(&TYPES, table::ITEMS);
    let operation = "winner, 4 types, constants in the Rust";
    against(rows, operation, &items, by_constants);
    against_walk(rows, "winner, against walk_key and walk_item", &items);
}

/// The items as ints, and the Rust's table.
fn tables(items: &[Item]) -> (Vec<i32>, RawSnap) {
    let area = inputs::area(items);
    let mut snap = RawSnap::empty();
    let read = snap.read_from_ints(&mut Tally::default(), &area);
    assert!(read.is_ok());
    (area, snap)
}

/// Races the port against a loop over the Rust's items.
fn against(rows: &mut Table, operation: &str, items: &[Item], rust: fn(&RawSnap) -> Won) {
    let (area, snap) = tables(items);
    assert!(rust(&snap) == oracle::winner(&area, &TYPES, INGREDIENT));
    rows.race(
        operation,
        items.len(),
        &mut || {
            let _ = black_box(rust(black_box(&snap)));
        },
        &mut || {
            let _ = black_box(rules::winner(black_box(&area), &TYPES, INGREDIENT));
        },
    );
}

/// Races it against the loop over its own walk, in the place of the Rust.
fn against_walk(rows: &mut Table, operation: &str, items: &[Item]) {
    let area = inputs::area(items);
    let mut data = vec![0; table::INTS];
    assert!(by_walk(&area, &mut data) == oracle::winner(&area, &TYPES, INGREDIENT));
    rows.race_slow(
        operation,
        items.len(),
        &mut || {
            let _ = black_box(by_walk(black_box(&area), &mut data));
        },
        &mut || {
            let _ = black_box(rules::winner(black_box(&area), &TYPES, INGREDIENT));
        },
    );
}
