//! Each call on both sides: the answer, what was set, what was unchanged.

use super::oracle::Call;
use super::oracle::Said;
use super::oracle::Store;
use crate::core::area::Area;
use crate::core::area::LEFT_FLAG;
use crate::core::area::LEFT_INT;
use crate::core::area::LEFT_SIZE;
use crate::core::counted::left;
use crate::core::counted::room;
use crate::core::report::Compared;
use crate::core::report::Shown;
use crate::core::shrink::Shrink;
use crate::core::text::ints_short;
use crate::parts::deltas::inputs::Ints;
use crate::parts::tables::inputs::List;
use cefdugar::storage::Outputs;
use cefdugar::storage::Storage;
use cefdugar::table;
use cefdugar::Warnings;

/// A call, and how much room its area has beyond what is held afterwards.
#[derive(Clone, Debug)]
pub struct Step {
    pub call: Call,
    pub spare: isize,
}

impl Shrink for Step {
    fn offer(&self, take: &mut dyn FnMut(Step) -> bool) -> bool {
        let spare = self.spare;
        let mut take_call = |call| take(Step { call, spare });
        match &self.call {
            Call::AddDelta {
                crc,
                base,
                tick,
                delta,
            } => Ints(delta.clone()).offer(&mut |delta| {
                take_call(Call::AddDelta {
                    crc: *crc,
                    base: *base,
                    tick: *tick,
                    delta: delta.0,
                })
            }),
            Call::AddSnap { tick, table, spare } => List(table.clone()).offer(&mut |table| {
                take_call(Call::AddSnap {
                    tick: *tick,
                    table: table.0,
                    spare: *spare,
                })
            }),
            Call::SetDeltaTick(_) | Call::Reset => false,
        }
    }
}

/// A call as text.
pub fn print(step: &Step) -> String {
    let call = match &step.call {
        Call::AddDelta {
            crc,
            base,
            tick,
            delta,
        } => format!(
            "add_delta {crc:?}, base {base}, tick {tick}, {}",
            ints_short(delta)
        ),
        Call::AddSnap { tick, table, spare } => format!(
            "add_snap {tick}, {}, delta's room to spare: {spare}",
            ints_short(table)
        ),
        Call::SetDeltaTick(tick) => format!("set_delta_tick {tick}"),
        Call::Reset => "reset".to_string(),
    };
    format!("{call}, room to spare: {}", step.spare)
}

const LEFT: Outputs = Outputs {
    base: LEFT_INT,
    count: LEFT_SIZE,
    clash: LEFT_INT,
};
const LEFT_WARNINGS: Warnings = Warnings([LEFT_SIZE; cefdugar::WARNINGS]);

/// The port's areas, lent repeatedly.
pub struct Areas {
    area: Area<i32>,
    delta: Area<i32>,
    scratch: Area<i32>,
    out: Area<i32>,
}

/// The port's answer: the number, the outputs of `add_snap` and the counts.
type Told = (u32, Outputs, Warnings);

/// The store's own numbers: its count and both ticks.
pub fn rows(storage: &Storage) -> (usize, Option<i32>, Option<i32>) {
    (
        storage.num_snaps(),
        storage.ack_tick().map(|tick| tick.0),
        storage.delta_tick().map(|tick| tick.0),
    )
}

/// The same store in other numbers: any flag but 0 means yes, and an absent
/// tick can be any.
pub fn disguised(mut storage: Storage, number: usize) -> Storage {
    if number % 3 > 0 {
        return storage;
    }
    for i in 0..2 {
        match storage.counts[1 + i] {
            0 => storage.ticks[i] = number as i32 - 40,
            _ => storage.counts[1 + i] = u32::MAX - number as u32,
        }
    }
    storage
}

impl Areas {
    pub fn new() -> Areas {
        Areas {
            area: Area::new(),
            delta: Area::new(),
            scratch: Area::new(),
            out: Area::new(),
        }
    }
    /// A call to the port, with `area`, a delta area of `delta` entries and
    /// `scratch` entries.
    fn call(
        &mut self,
        storage: &mut Storage,
        call: &Call,
        area: &[i32],
        [delta_len, scratch]: [usize; 2],
    ) -> Told {
        let area = self.area.lend_filled(area);
        let (mut outputs, mut warnings) = (LEFT, LEFT_WARNINGS);
        let (out, scratch) = (self.delta.lend(delta_len), self.scratch.lend(scratch));
        let number = match call {
            Call::AddDelta {
                crc,
                base,
                tick,
                delta,
            } => {
                let ticks = [*base, *tick];
                storage.plain_add_delta(*crc, ticks, delta, area, scratch, &mut warnings)
            }
            Call::AddSnap { tick, table, .. } => {
                warnings = Warnings::default();
                storage.plain_add_snap(*tick, table, out, area, &mut outputs)
            }
            Call::SetDeltaTick(tick) => storage.plain_set_delta_tick(*tick, area, &mut warnings),
            Call::Reset => {
                warnings = Warnings::default();
                storage.reset(area);
                0
            }
        };
        (number, outputs, warnings)
    }
    /// What the areas must hold: the store's, the delta's front, and zeros
    /// in scratch if the call has any.
    fn check(&self, call: &Call, area: &[i32], delta: &[i32]) -> Compared {
        left("area", self.area.check(0, area))?;
        left("delta", self.delta.check(0, delta))?;
        let zeros = match call {
            Call::AddDelta { .. } => vec![0; self.scratch.now().len()],
            _ => vec![],
        };
        left("scratch", self.scratch.check(0, &zeros))
    }
    /// The tick and the table at a place.
    fn look(&mut self, storage: &Storage, store: &Store, area: &[i32], i: usize) -> Compared {
        let (mut tick, mut end) = (LEFT_INT, LEFT_FLAG);
        let number = storage.plain_snap_tick(area, i, &mut tick, &mut end);
        let expected = store.held.get(i);
        let (held_tick, past) = expected.map_or((LEFT_INT, 1), |(tick, _)| (*tick, 0));
        Shown::compare(&(0, held_tick, past), &(number, tick, end))?;
        let table = expected.map_or(&[][..], |(_, table)| table);
        for spare in [0, 3, -1] {
            let len = room(table.len(), spare);
            let mut count = LEFT_SIZE;
            let number = storage.plain_snap(area, i, self.out.lend(len), &mut count);
            let (said, written) = match table.len() <= len {
                true => ((0, table.len()), table),
                false => ((40, LEFT_SIZE), &[][..]),
            };
            Shown::compare(&said, &(number, count))?;
            left("out", self.out.check(0, written))?;
        }
        Ok(())
    }
    /// Whether a call that the port alone refuses leaves everything unchanged: the
    /// store, the area, and what else is lent.
    pub fn refused(
        &mut self,
        storage: Storage,
        call: &Call,
        area: &[i32],
        scratch: usize,
        number: u32,
    ) -> Compared {
        let mut now = storage;
        let said = self.call(&mut now, call, area, [8, scratch]);
        Shown::compare(&(number, LEFT, Warnings::default()), &said)?;
        Shown::compare(&storage, &now)?;
        self.check(call, area, &[])
    }
    /// Looking up in a store out of form: 47, and no table.
    pub fn unseen(&mut self, storage: &Storage, area: &[i32]) -> Compared {
        for i in [0, 1, usize::MAX] {
            let (mut tick, mut end, mut count) = (LEFT_INT, LEFT_FLAG, LEFT_SIZE);
            let number = storage.plain_snap_tick(area, i, &mut tick, &mut end);
            Shown::compare(&(47, LEFT_INT, LEFT_FLAG), &(number, tick, end))?;
            let number = storage.plain_snap(area, i, self.out.lend(2), &mut count);
            Shown::compare(&(0, 0), &(number, count))?;
            left("out", self.out.check(0, &[]))?;
        }
        Ok(())
    }
}

/// The port's store and the Rust's.
pub struct Both {
    pub store: Store,
    pub port: Storage,
    calls: usize,
}

/// What the port must set.
fn expected(said: &Said) -> Outputs {
    match &said.added {
        Some((base, ints)) => Outputs {
            base: *base,
            count: ints.len(),
            clash: LEFT_INT,
        },
        None => Outputs {
            clash: said.clash.unwrap_or(LEFT_INT),
            ..LEFT
        },
    }
}

impl Both {
    pub fn new() -> Both {
        Both {
            store: Store::new(),
            port: Storage::new(),
            calls: 0,
        }
    }

    /// The same call to both.
    pub fn call(&mut self, areas: &mut Areas, step: &Step) -> Compared {
        let [after, delta] = self.store.needs(&step.call);
        let len = room(after, step.spare).max(self.store.len());
        let delta = match step.call {
            Call::AddSnap { spare, .. } => room(delta, spare),
            _ => 0,
        };
        self.calls += 1;
        let rows_before = disguised(self.port, self.calls);
        self.port = rows_before;
        let lengths = [delta, table::SCRATCH];
        let area = self.store.area(len);
        let told = areas.call(&mut self.port, &step.call, &area, lengths);
        let said = self.store.call(&step.call, len);
        let oracle = (said.number, expected(&said), said.warnings);
        Shown::compare(&oracle, &told)?;
        let store = &self.store;
        Shown::compare(
            &(store.held.len(), store.ack_tick(), store.delta_tick()),
            &rows(&self.port),
        )?;
        if said.number != 0 && rows(&rows_before) == rows(&self.port) {
            Shown::compare(&rows_before, &self.port)?;
        }
        let area = store.area(len);
        let written = said.added.map_or(vec![], |(_, ints)| ints);
        areas.check(&step.call, &area, &written)?;
        let place = self.calls % (store.held.len() + 2);
        areas.look(&self.port, store, &area, place)
    }

    /// All that is held, and whether the Rust holds the same.
    pub fn look(&self, areas: &mut Areas) -> Compared {
        self.store.probe()?;
        let area = self.store.area(self.store.len() + 3);
        for i in 0..self.store.held.len() + 2 {
            areas.look(&self.port, &self.store, &area, i)?;
        }
        areas.look(&self.port, &self.store, &area, usize::MAX)
    }
}
