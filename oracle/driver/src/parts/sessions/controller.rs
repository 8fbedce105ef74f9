//! The controller: tables that change from tick to tick, added to a store on
//! both sides, and the messages of their deltas.

use crate::core::oracle::Tally;
use crate::core::random::Random;
use crate::core::report::Compared;
use crate::core::report::Shown;
use crate::core::told::Told;
use crate::parts::deltas;
use crate::parts::receiver;
use crate::parts::receiver::inputs::messages_of;
use crate::parts::receiver::oracle::Call;
use crate::parts::storage::calls::rows;
use crate::parts::storage::oracle as storing;
use crate::parts::tables;
use cefdugar::delta;
use cefdugar::delta::NoDelta;
use cefdugar::messages::Tick;
use cefdugar::storage::Storage;
use libtw2_snapshot::format::item_data_to_uuid;
use libtw2_snapshot::format::TypeId;
use libtw2_snapshot::snap::Builder;
use std::collections::BTreeMap;
use storing::Store;

/// What is built into each table, by type and id; a type above 9 is a kind of
/// 16 bytes.
type Things = BTreeMap<(u16, u16), Vec<i32>>;

pub struct Controller {
    store: Store,
    port: Storage,
    area: Vec<i32>,
    delta: Vec<i32>,
    things: Things,
    most: usize,
    pub sizes: Vec<i32>,
    /// The tables that were accepted, by tick.
    pub accepted: BTreeMap<i32, Vec<i32>>,
    /// Whether items keep their lengths.
    steady: bool,
}

/// The bytes of a packed delta; at most 28,800 are sent.
const MOST_BYTES: usize = 28_800;

fn type_of(thing: u16) -> TypeId {
    match thing {
        0..=9 => TypeId::Ordinal(thing + 1),
        kind => {
            let data = [i32::from(kind), 2, 3, 4];
            TypeId::Uuid(item_data_to_uuid(&mut Tally::default(), &data).expect("16 bytes"))
        }
    }
}

fn length_of(thing: u16) -> usize {
    [1, 2, 4, 4, 0][usize::from(thing) % 5]
}

impl Controller {
    /// Tables of at most so many items; an area of so many ints.
    pub fn new(random: &mut Random, most: usize, ints: usize) -> Controller {
        let known = random.chance(1, 2);
        let sizes: Vec<i32> = match known {
            true => (0..random.between(1, 11))
                .map(|raw_type_id| match raw_type_id {
                    0 => random.pick(&[-1, 4]),
                    raw_type_id => length_of(raw_type_id as u16 - 1) as i32,
                })
                .collect(),
            false => vec![],
        };
        Controller {
            store: Store::new(),
            port: Storage::new(),
            area: vec![0; ints],
            delta: vec![7; delta::INTS],
            things: BTreeMap::new(),
            most,
            sizes,
            accepted: BTreeMap::new(),
            steady: known,
        }
    }

    /// Removes, changes and adds some things.
    fn change(&mut self, random: &mut Random) {
        let steady = self.steady;
        self.things.retain(|_, _| !random.chance(1, 20));
        for data in self.things.values_mut() {
            if random.chance(1, 4) {
                data.iter_mut().for_each(|int| *int = random.bits() as i32);
            }
            if !steady && random.chance(1, 5_000) {
                data.push(1);
            }
        }
        let come = self.most / 4 + 1;
        for _ in 0..random.below(come + 1) {
            let thing = random.pick(&[0, 1, 2, 2, 3, 4, 5, 9, 10, 11]);
            let id = random.below(self.most) as u16;
            let data = (0..length_of(thing)).map(|_| random.int()).collect();
            if self.things.len() < self.most {
                self.things.entry((thing, id)).or_insert(data);
            }
        }
    }

    /// The table of all things, as the Rust's builder builds it.
    fn table(&self) -> Vec<i32> {
        let mut builder = Builder::new();
        for ((thing, id), data) in &self.things {
            let added = builder.add_item(type_of(*thing), *id, data);
            assert!(added.is_ok());
        }
        storing::written(&builder.finish())
    }

    /// What both stores hold.
    fn same(&self) -> Compared {
        let store = &self.store;
        Shown::compare(
            &(store.held.len(), store.ack_tick(), store.delta_tick()),
            &rows(&self.port),
        )?;
        match store.area(self.area.len()) == self.area {
            true => Ok(()),
            false => Shown::compare(&"the controller's area", &"another"),
        }
    }

    /// Sets the base of the next table.
    pub fn set_delta_tick(&mut self, tick: i32) -> Compared {
        let said = self
            .store
            .call(&storing::Call::SetDeltaTick(tick), self.area.len());
        let (port, warnings) = self.port.set_delta_tick(Tick(tick), &mut self.area);
        let number = port.map_or_else(|refusal| refusal.0, |()| 0);
        Shown::compare(&(said.number, said.warnings), &(number, warnings))?;
        self.same()
    }

    /// Adds the next table at a tick; returns the messages that are sent for it,
    /// none if it is not accepted. Sometimes nothing changes.
    pub fn tick(&mut self, random: &mut Random, tick: i32) -> Result<Vec<Call>, Shown> {
        if !random.chance(1, 8) {
            self.change(random);
        }
        let table = self.table();
        let call = storing::Call::AddSnap {
            tick,
            table: table.clone(),
            spare: 0,
        };
        let said = self.store.call(&call, self.area.len());
        let port = self
            .port
            .add_snap(Tick(tick), &table, &mut self.delta, &mut self.area);
        let answer = match port {
            Ok(added) => (
                0,
                Some((added.base.0, self.delta[..added.ints].to_vec())),
                None,
            ),
            Err(NoDelta::Clash(key)) => (10, None, Some(key)),
            Err(NoDelta::Refused(refusal)) => (refusal.0, None, None),
        };
        Shown::compare(&(said.number, said.added.clone(), said.clash), &answer)?;
        self.same()?;
        match said.added {
            // A full store, or tables that clash: a new start.
            None => {
                self.set_delta_tick(random.pick(&[-1, tick.wrapping_sub(1)]))?;
                Ok(vec![])
            }
            Some((base, delta)) => {
                // Demand 3: the base is the tick that is set, or -1.
                Shown::compare(&self.store.delta_tick().unwrap_or(-1), &base)?;
                self.send(random, tick, base, table, &delta)
            }
        }
    }

    /// The messages of a table that was accepted.
    fn send(
        &mut self,
        random: &mut Random,
        tick: i32,
        base: i32,
        table: Vec<i32>,
        ints: &[i32],
    ) -> Result<Vec<Call>, Shown> {
        let rust = deltas::oracle::packed(&storing::delta_of(ints), &self.sizes, ints.len());
        let Told::Value(bytes) = rust else {
            unreachable!("known sizes are right")
        };
        let mut out = vec![0; bytes.len()];
        let written = delta::write(ints, &self.sizes, &mut out);
        Shown::compare(&(Ok(bytes.len()), &bytes), &(written, &out))?;
        let same_as_base = match base {
            -1 => table == [0, 0],
            base => self.accepted[&base] == table,
        };
        let crc = tables::oracle::held(&table).map_or(0, |snap| snap.crc());
        self.accepted.insert(tick, table);
        let empty = Call::Empty([tick, tick.wrapping_sub(base)]);
        if same_as_base && random.chance(1, 2) {
            return Ok(vec![empty]);
        }
        if bytes.len() > MOST_BYTES {
            return Ok(vec![]);
        }
        receiver::calls::cut(tick, base, &bytes, crc)?;
        let mut messages = messages_of(tick, base, &bytes, crc);
        if ints == [0, 0, 0] && random.chance(1, 2) {
            messages.push(empty);
        }
        Ok(messages)
    }
}
