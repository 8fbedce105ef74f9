//! The Rust's answers on a store, or those of docs/FORMAT.md if the Rust has no
//! such limit: 100 tables for `add_snap`, and an area's room.
//!
//! The Rust shows only the newest table, so the tables held are noted
//! separately; [`Store::probe`] asks the Rust whether it holds them.

use crate::core::oracle::Number;
use crate::core::oracle::Tally;
use crate::core::report::Compared;
use crate::core::report::Shown;
use crate::core::told::told;
use crate::core::told::Told;
use crate::parts::deltas;
use crate::parts::tables;
use cefdugar::delta;
use cefdugar::storage::SNAPS;
use cefdugar::table;
use cefdugar::Warnings;
use libtw2_packer::IntUnpacker;
use libtw2_snapshot::Delta;
use libtw2_snapshot::Snap;
use libtw2_snapshot::Storage;

/// A call on a store.
#[derive(Clone, Debug, Eq, PartialEq)]
pub enum Call {
    AddDelta {
        crc: Option<i32>,
        base: i32,
        tick: i32,
        delta: Vec<i32>,
    },
    /// The delta area has as much room as the delta needs and `spare` more.
    AddSnap {
        tick: i32,
        table: Vec<i32>,
        spare: isize,
    },
    SetDeltaTick(i32),
    Reset,
}

/// The answer of a call.
#[derive(Clone, Debug, Default, Eq, PartialEq)]
pub struct Said {
    pub number: u32,
    pub warnings: Warnings,
    /// For a table that was added: the tick of its base, and its delta.
    pub added: Option<(i32, Vec<i32>)>,
    /// If a table is refused with 10: the least key that clashes, read as
    /// unsigned.
    pub clash: Option<i32>,
}

/// A table in its written form, and its tick.
pub type Held = (i32, Vec<i32>);

/// The Rust's store, and the tables that it holds, the newest first.
#[derive(Clone, Default)]
pub struct Store {
    rust: Storage,
    pub held: Vec<Held>,
}

/// The table of an area, without judging its types.
pub fn snap_of(area: &[i32]) -> Option<Snap> {
    let raw = tables::oracle::held(area)?;
    let mut snap = Snap::empty();
    // A table whose types are not sound is refused, but still held.
    let _ = snap.read_from_ints(&mut Tally::default(), &tables::oracle::written(&raw));
    Some(snap)
}

/// The written form.
pub fn written(snap: &Snap) -> Vec<i32> {
    let mut out = vec![0; table::INTS];
    let len = match snap.write_to_ints(&mut Vec::new(), &mut out) {
        Ok(written) => written.len(),
        Err(libtw2_buffer::CapacityError) => unreachable!("no table takes more"),
    };
    out.truncate(len);
    out
}

/// The ints of a delta that makes no table from any base: an item of type 0
/// that has no data.
pub const REFUSED: [i32; 6] = [0, 1, 0, 0, 0, 0];

/// The delta of some ints.
pub fn delta_of(ints: &[i32]) -> Delta {
    let mut delta = Delta::new();
    delta
        .read_from_ints(&mut Tally::default(), |_| None, &mut IntUnpacker::new(ints))
        .expect("a delta");
    delta
}

/// How many ints some tables take in an area.
fn ints_of(held: &[Held]) -> usize {
    held.iter().map(|(_, table)| 2 + table.len()).sum()
}

fn refused(number: u32) -> Said {
    Said {
        number,
        ..Said::default()
    }
}

impl Store {
    pub fn new() -> Store {
        Store::default()
    }
    pub fn ack_tick(&self) -> Option<i32> {
        self.rust.ack_tick()
    }
    pub fn delta_tick(&self) -> Option<i32> {
        self.rust.delta_tick()
    }
    /// How many ints the tables take.
    pub fn len(&self) -> usize {
        ints_of(&self.held)
    }
    /// An area of `len` ints with the tables, and zeros after them.
    pub fn area(&self, len: usize) -> Vec<i32> {
        let mut area = Vec::with_capacity(len);
        for (tick, table) in &self.held {
            area.extend([*tick, table.len() as i32]);
            area.extend(table);
        }
        area.resize(len, 0);
        area
    }
    /// The table of a tick, if it is held; a negative tick names the empty one.
    pub fn table_at(&self, tick: i32) -> Option<&[i32]> {
        if tick < 0 {
            return Some(&[0, 0]);
        }
        let (_, table) = self.held.iter().rev().find(|(other, _)| *other == tick)?;
        Some(table)
    }
    /// How many ints the tables take after a call for which all areas have room,
    /// and how many its delta takes.
    pub fn needs(&self, call: &Call) -> [usize; 2] {
        let mut after = self.clone();
        let said = match call {
            Call::AddSnap { tick, table, .. } => after.add_snap(*tick, table, 0, usize::MAX),
            call => after.call(call, usize::MAX),
        };
        let delta = said.added.map_or(8, |(_, ints)| ints.len());
        [after.len(), delta]
    }

    /// A call if the area has `room` ints.
    pub fn call(&mut self, call: &Call, room: usize) -> Said {
        match call {
            Call::AddDelta {
                crc,
                base,
                tick,
                delta,
            } => match deltas::oracle::held(delta) {
                Some(delta) => self.add_delta(*crc, *base, *tick, &delta, room),
                None => refused(47),
            },
            Call::AddSnap { tick, table, spare } => self.add_snap(*tick, table, *spare, room),
            Call::SetDeltaTick(tick) => self.set_delta_tick(*tick),
            Call::Reset => {
                self.rust.reset();
                self.held.clear();
                Said::default()
            }
        }
    }

    fn drop_older(&mut self, tick: i32) {
        let older = |(other, _): &Held| *other < tick;
        if let (true, Some(first)) = (tick >= 0, self.held.iter().position(older)) {
            self.held.truncate(first);
        }
    }

    /// If the table has no room, the Rust's store is left as by a delta that
    /// is refused after the tables are dropped.
    pub fn add_delta(
        &mut self,
        crc: Option<i32>,
        base: i32,
        tick: i32,
        delta: &Delta,
        room: usize,
    ) -> Said {
        let tight = room < self.len() + 2 + table::INTS;
        let before = tight.then(|| self.rust.clone());
        let mut tally = Tally::default();
        let told = told(|| {
            let said = self.rust.add_delta(&mut tally, crc, base, tick, delta);
            said.map(written).map_err(|error| error.number())
        });
        // It panics at an update of a kept item with another length.
        let mut said = match told {
            Told::Panicked => refused(10),
            _ => refused(told.number()),
        };
        said.warnings = tally.0;
        if said.number != 30 {
            self.drop_older(base);
        }
        let Told::Value(table) = told else {
            return said;
        };
        let kept = self.held.len().min(SNAPS - 1);
        if 2 + table.len() + ints_of(&self.held[..kept]) <= room {
            self.held.truncate(kept);
            self.held.insert(0, (tick, table));
            return said;
        }
        said.number = 40;
        self.rust = before.expect("a table takes no more ints");
        self.refuse(base, tick);
        said
    }

    /// Drops the tables older than a base, and refuses what follows.
    fn refuse(&mut self, base: i32, tick: i32) {
        let delta = delta_of(&REFUSED);
        let said = told(|| {
            let said = self
                .rust
                .add_delta(&mut Tally::default(), None, base, tick, &delta);
            said.map(|_| ()).map_err(|error| error.number())
        });
        assert!(said.number() != 0);
    }

    /// A table that is refused is not added, though the Rust adds it.
    fn add_snap(&mut self, tick: i32, area: &[i32], spare: isize, room: usize) -> Said {
        let Some(snap) = snap_of(area) else {
            return refused(47);
        };
        if self.held.len() == SNAPS {
            return refused(44);
        }
        let table = written(&snap);
        let before = self.rust.clone();
        let told = told(|| Ok(self.rust.add_snap(tick, snap).clone()));
        let new = (tick, table);
        let oldest = self.held.last().unwrap_or(&new).clone();
        let (base, base_table) = match self.rust.delta_tick() {
            Some(_) => oldest,
            None => (-1, vec![0, 0]),
        };
        let Told::Value(made) = told else {
            self.rust = before;
            return Said {
                clash: deltas::oracle::first_clash(&base_table, &new.1),
                ..refused(10)
            };
        };
        let Told::Value(ints) = deltas::oracle::written(&made, &[], delta::INTS) else {
            unreachable!("no size is known")
        };
        if spare < 0 || self.len() + 2 + new.1.len() > room {
            self.rust = before;
            return refused(40);
        }
        self.held.insert(0, new);
        Said {
            added: Some((base, ints)),
            ..Said::default()
        }
    }

    fn set_delta_tick(&mut self, tick: i32) -> Said {
        let mut tally = Tally::default();
        let said = self.rust.set_delta_tick(&mut tally, tick);
        self.drop_older(tick);
        Said {
            number: said.err().map_or(0, |error| error.number()),
            warnings: tally.0,
            ..Said::default()
        }
    }

    /// Whether the Rust holds the tables that are noted, from the oldest on:
    /// each is set as the base, and then added once more, which changes
    /// nothing.
    pub fn probe(&self) -> Compared {
        let mut probe = self.clone();
        for (tick, _) in self.held.iter().rev().filter(|(tick, _)| *tick >= 0) {
            let said = probe.set_delta_tick(*tick);
            let oldest = probe.held.last().cloned();
            let is_oldest = oldest.as_ref().is_some_and(|(other, _)| other == tick);
            Shown::compare(&is_oldest, &(said.number == 0))?;
            let Some((_, oldest)) = oldest.filter(|_| is_oldest) else {
                continue;
            };
            let snap = snap_of(&oldest).expect("a table");
            let delta = told(|| Ok(probe.rust.add_snap(i32::MAX, snap).clone()));
            probe.held.insert(0, (i32::MAX, oldest.clone()));
            let Told::Value(delta) = delta else {
                return Shown::compare(&"the same table", &"another");
            };
            let ints = deltas::oracle::written(&delta, &[], delta::INTS);
            let same = deltas::oracle::created(&oldest, &oldest);
            Shown::compare(&same, &ints)?;
        }
        Ok(())
    }
}
