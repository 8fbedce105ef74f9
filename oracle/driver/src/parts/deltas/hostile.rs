//! Times of the longest deltas that are read, with keys in expensive orders.

use super::inputs;
use super::oracle;
use crate::core::bench::Table;
use crate::core::oracle::Tally;
use crate::core::random::Random;
use crate::parts::packer::packed;
use crate::parts::tables::oracle::Item;
use cefdugar::delta;
use cefdugar::table;
use libtw2_packer::IntUnpacker;
use libtw2_packer::Unpacker;
use libtw2_snapshot::Delta;
use std::hint::black_box;

/// The size of each type's items is known to be 0.
const SIZES: [i32; 65_536] = [0; 65_536];

/// The order of the keys.
#[derive(Clone, Copy)]
enum Order {
    Falling,
    Equal,
    Shuffled,
    /// So few different keys that those of one key alone are more than an index
    /// in the least scratch has room for.
    Few,
}

/// What a delta consists of.
#[derive(Clone, Copy)]
enum Kind {
    Deletes,
    Updates,
    Both,
}

impl Order {
    const ALL: [(Order, &'static str); 4] = [
        (Order::Falling, "keys falling"),
        (Order::Equal, "keys equal"),
        (Order::Shuffled, "keys in any order"),
        (Order::Few, "100 keys"),
    ];
    /// So many keys.
    fn keys(self, count: usize) -> Vec<i32> {
        let mut random = Random::new(1, "hostile", 0);
        let spread = |i: usize, of: usize| ((i as u64) << 32).div_ceil(of as u64) as i32;
        match self {
            Order::Equal => vec![5; count],
            Order::Few => (0..count).map(|_| spread(random.below(100), 100)).collect(),
            _ => {
                let mut keys: Vec<i32> = (0..count).map(|i| spread(i, count)).collect();
                match self {
                    Order::Shuffled => inputs::shuffle(&mut keys, &mut random),
                    _ => keys.sort_unstable_by_key(|key| std::cmp::Reverse(*key)),
                }
                keys
            }
        }
    }
}

impl Kind {
    const ALL: [(Kind, &'static str); 3] = [
        (Kind::Deletes, "only deletes"),
        (Kind::Updates, "only empty updates"),
        (Kind::Both, "deletes and empty updates"),
    ];
    /// The ints of a delta with so many keys.
    fn ints(self, order: Order, count: usize) -> Vec<i32> {
        let empty = |keys: Vec<i32>| keys.into_iter().map(|key| (key, vec![])).collect();
        let (deleted, updated): (Vec<i32>, Vec<Item>) = match self {
            Kind::Deletes => (order.keys(count), vec![]),
            Kind::Updates => (vec![], empty(order.keys(count))),
            Kind::Both => (order.keys(count / 2), empty(order.keys(count / 2))),
        };
        inputs::sent(&deleted, &updated, &SIZES)
    }
    /// The longest delta whose ints `measure` at most `most`.
    fn longest(self, order: Order, most: usize, measure: fn(&[i32]) -> usize) -> Vec<i32> {
        let (mut low, mut high) = (0, most);
        while high - low > most / 1_000 {
            let middle = (low + high) / 2;
            match measure(&self.ints(order, middle)) <= most {
                true => low = middle,
                false => high = middle,
            }
        }
        self.ints(order, low)
    }
}

pub fn bench(rows: &mut Table) {
    for size in [table::INPUT / 2, table::INPUT] {
        for (kind, kind_name) in Kind::ALL {
            for (order, order_name) in Order::ALL {
                let name = format!("{kind_name}, {order_name}");
                let ints = kind.longest(order, size, <[i32]>::len);
                read_ints(rows, &format!("hostile ints, {name}"), size, &ints);
                let ints = kind.longest(order, size, |ints| packed(ints).len());
                read(
                    rows,
                    &format!("hostile bytes, {name}"),
                    size,
                    &packed(&ints),
                );
            }
        }
    }
}

fn read_ints(rows: &mut Table, name: &str, size: usize, ints: &[i32]) {
    let mut delta = Delta::new();
    let (mut out, mut scratch) = (vec![0; 2 * ints.len()], vec![0; table::SCRATCH]);
    rows.race_slow(
        name,
        size,
        &mut || {
            let mut tally = Tally::default();
            let size = |type_id| oracle::known_size(&SIZES, type_id);
            let said = delta.read_from_ints(&mut tally, size, &mut IntUnpacker::new(ints));
            let _ = black_box((said, tally.0, &delta));
        },
        &mut || {
            let said = delta::read_from_ints(black_box(ints), &SIZES, &mut out, &mut scratch);
            assert!(black_box(said).0.is_ok());
        },
    );
}

fn read(rows: &mut Table, name: &str, size: usize, bytes: &[u8]) {
    let mut delta = Delta::new();
    let mut out = vec![0; 2 * bytes.len()];
    let mut scratch = vec![0; table::SCRATCH.max(bytes.len())];
    rows.race_slow(
        name,
        size,
        &mut || {
            let mut tally = Tally::default();
            let size = |type_id| oracle::known_size(&SIZES, type_id);
            let said = delta.read(&mut tally, size, &mut Unpacker::new(bytes));
            let _ = black_box((said, tally.0, &delta));
        },
        &mut || {
            let said = delta::read(black_box(bytes), &SIZES, &mut out, &mut scratch);
            assert!(black_box(said).0.is_ok());
        },
    );
}
