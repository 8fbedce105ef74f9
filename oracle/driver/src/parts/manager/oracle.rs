//! The answers of the Rust's manager to a message, or those of docs/FORMAT.md if
//! the Rust has no such limit or another rule: the room of both areas, 900 bytes
//! a part, and a delta with a padded int.
//!
//! The Rust's manager shows only the table that it took. So its parts (receiver,
//! delta and store, all the Rust's) get the same messages, and show what was
//! received, read and held; the answers of both are compared.

use crate::core::oracle::comparable;
use crate::core::oracle::Number;
use crate::core::oracle::Tally;
use crate::core::padding::cut_inside;
use crate::core::report::Compared;
use crate::core::report::Shown;
use crate::core::told::told;
use crate::core::told::Told;
use crate::parts::deltas;
use crate::parts::deltas::oracle::known_size;
use crate::parts::packer::packed;
use crate::parts::receiver::oracle as receiving;
use crate::parts::storage::oracle as storing;
use cefdugar::manager::SCRATCH;
use cefdugar::receiver::ReceivedDelta;
use cefdugar::Warnings;
use libtw2_snapshot::Manager;
use libtw2_snapshot::Snap;
use receiving::Call;
use storing::Store;

/// The answer to a message, and what is written to the areas.
#[derive(Clone, Debug, Default, Eq, PartialEq)]
pub struct Said {
    pub number: u32,
    /// The tick of the table that was taken.
    pub ack: Option<i32>,
    pub warnings: Warnings,
    /// The bytes joined, and the delta read.
    pub joined: Vec<u8>,
    pub delta: Vec<i32>,
}

/// How many ints a message's delta takes, and all tables after it.
#[derive(Clone, Copy, Debug, Eq, PartialEq)]
pub struct Room {
    pub delta: usize,
    pub area: usize,
}

#[derive(Clone, Default)]
pub struct Printer {
    rust: Manager,
    receiver: receiving::Receiver,
    pub store: Store,
}

/// A part that is too long for its place; the port refuses it (43).
pub fn too_long(call: &Call) -> bool {
    matches!(call, Call::Snap(_, data) | Call::Single(_, data) if data.len() > 900)
}

fn plus(a: Warnings, b: Warnings) -> Warnings {
    Warnings(std::array::from_fn(|kind| a.0[kind] + b.0[kind]))
}

/// The answer of the Rust's manager: a number, and the table that it took.
type Answer = (u32, Option<Vec<i32>>);

fn manager_call(
    manager: &mut Manager,
    sizes: &[i32],
    call: &Call,
    tally: &mut Tally,
) -> Told<Option<Vec<i32>>> {
    let size = |raw_type_id| known_size(sizes, raw_type_id);
    told(|| {
        let said = match call {
            Call::Snap(numbers, data) => manager.snap(tally, size, receiving::snap(numbers, data)),
            Call::Single(numbers, data) => {
                manager.snap_single(tally, size, receiving::single(numbers, data))
            }
            Call::Empty(numbers) => manager.snap_empty(tally, size, receiving::empty(numbers)),
            Call::Reset => {
                manager.reset();
                Ok(None)
            }
        };
        let written = |snap: Option<&Snap>| snap.map(storing::written);
        said.map(written).map_err(|error| error.number())
    })
}

impl Printer {
    pub fn new() -> Printer {
        Printer::default()
    }
    /// What a call takes if all areas have room.
    pub fn needs(&self, sizes: &[i32], call: &Call) -> Room {
        let mut room = Room {
            delta: 3,
            area: self.store.len(),
        };
        if too_long(call) {
            return room;
        }
        let mut receiver = self.receiver.clone();
        let received = receiver.call(call);
        let Ok(Some(delta)) = received.answer else {
            return room;
        };
        let (read, _) = read(sizes, &delta, &received.joined);
        let Told::Value(read) = read else {
            return room;
        };
        let mut store = self.store.clone();
        take(&mut store, &delta, &read.ints, usize::MAX);
        room.delta = read.room;
        room.area = store.len();
        room
    }

    /// A call under known sizes if the areas have this room. A difference
    /// between the Rust's manager and its parts is reported as one.
    pub fn call(&mut self, sizes: &[i32], call: &Call, room: Room) -> Result<Said, Shown> {
        if too_long(call) {
            return Ok(Said {
                number: 43,
                ..Said::default()
            });
        }
        let (said, received) = self.parts_call(sizes, call, room);
        if let (Some(delta), Some(cut)) = (received, cut_inside(&said.joined)) {
            self.finish_padded(sizes, &delta, cut, &said)?;
            return Ok(said);
        }
        let ample = said.number != 40;
        let mut tally = Tally::default();
        let told = if ample {
            manager_call(&mut self.rust, sizes, call, &mut tally)
        } else {
            manager_call(&mut self.rust.clone(), sizes, call, &mut tally)
        };
        let answer: Answer = match told {
            Told::Value(table) => (0, table),
            Told::Refused(number) => (number, None),
            // An update of a kept item with another length.
            Told::Panicked => (10, None),
        };
        if ample {
            let newest = said.ack.map(|_| self.store.held[0].1.clone());
            let (number, table) = answer;
            Shown::compare(
                &(said.number, newest, comparable(said.warnings)),
                &(number, table, comparable(tally.0)),
            )?;
        } else if let Some(delta) = received {
            self.finish_short(&delta, said.delta.is_empty());
        }
        Shown::compare(&self.store.ack_tick(), &self.rust.ack_tick())?;
        Ok(said)
    }

    /// The Rust's manager if an area is too short: the tick is finished;
    /// and if the delta could be read, tables older than its base are
    /// dropped.
    fn finish_short(&mut self, delta: &ReceivedDelta, unread: bool) {
        let data = match unread {
            true => vec![],
            false => packed(&storing::REFUSED),
        };
        let distance = delta.tick.since(delta.delta_tick);
        let single = Call::Single([delta.tick.0, distance.0, 0], data);
        let said = manager_call(&mut self.rust, &[], &single, &mut Tally::default());
        assert!(said.number() != 0);
    }

    /// The Rust's manager if the delta has a padded int: it gets the delta cut
    /// inside that int as a single message, which finishes the tick as well. The
    /// receiver's warnings are then others.
    fn finish_padded(
        &mut self,
        sizes: &[i32],
        delta: &ReceivedDelta,
        cut: &[u8],
        said: &Said,
    ) -> Compared {
        let single = Call::Single(
            [delta.tick.0, delta.tick.since(delta.delta_tick).0, 0],
            cut.to_vec(),
        );
        let mut tally = Tally::default();
        let told = manager_call(&mut self.rust, sizes, &single, &mut tally);
        let number = deltas::oracle::if_padded(told.number());
        let [parts, whole] = [said.warnings, tally.0].map(|mut warnings| {
            warnings.0[Warnings::DUPLICATE_SNAP] = 0;
            comparable(warnings)
        });
        Shown::compare(&(said.number, parts), &(number, whole))?;
        Shown::compare(&self.store.ack_tick(), &self.rust.ack_tick())
    }

    /// The answer of the parts, and the delta that was received.
    fn parts_call(
        &mut self,
        sizes: &[i32],
        call: &Call,
        room: Room,
    ) -> (Said, Option<ReceivedDelta>) {
        let received = self.receiver.call(call);
        let mut said = Said {
            number: received.answer.err().unwrap_or(0),
            warnings: received.warnings,
            joined: received.joined,
            ..Said::default()
        };
        if let Call::Reset = call {
            self.store.call(&storing::Call::Reset, room.area);
        }
        let Ok(Some(delta)) = received.answer else {
            return (said, None);
        };
        let (read, warnings) = read(sizes, &delta, &said.joined);
        said.warnings = plus(said.warnings, warnings);
        said.number = match &read {
            Told::Value(read) if read.room > room.delta => 40,
            read => read.number(),
        };
        let (0, Told::Value(read)) = (said.number, read) else {
            return (said, Some(delta));
        };
        let taken = take(&mut self.store, &delta, &read.ints, room.area);
        said.warnings = plus(said.warnings, taken.warnings);
        said.number = taken.number;
        said.ack = (taken.number == 0).then_some(delta.tick.0);
        said.delta = read.ints;
        (said, Some(delta))
    }
}

/// The delta that was received; that of an empty message is empty.
fn read(
    sizes: &[i32],
    delta: &ReceivedDelta,
    joined: &[u8],
) -> (Told<deltas::oracle::Read>, Warnings) {
    if delta.data_and_crc.is_none() {
        let read = deltas::oracle::Read {
            ints: vec![0, 0, 0],
            room: 3,
        };
        return (Told::Value(read), Warnings::default());
    }
    deltas::oracle::read(joined, sizes, SCRATCH)
}

fn take(store: &mut Store, delta: &ReceivedDelta, ints: &[i32], room: usize) -> storing::Said {
    let crc = delta.data_and_crc.map(|(_, crc)| crc);
    let (base, tick) = (delta.delta_tick.0, delta.tick.0);
    store.add_delta(crc, base, tick, &storing::delta_of(ints), room)
}
