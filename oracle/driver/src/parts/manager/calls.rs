//! Each message on both sides: the answer, what was set, what was unchanged.

use super::oracle::Printer;
use super::oracle::Room;
use super::oracle::Said;
use crate::core::area::Area;
use crate::core::area::LEFT_FLAG;
use crate::core::area::LEFT_INT;
use crate::core::area::LEFT_SIZE;
use crate::core::counted::left;
use crate::core::counted::room;
use crate::core::report::Compared;
use crate::core::report::Shown;
use crate::core::shrink::Shrink;
use crate::parts::receiver::calls;
use crate::parts::receiver::oracle;
use crate::parts::receiver::oracle::Call;
use crate::parts::storage::calls::disguised;
use crate::parts::storage::calls::rows;
use cefdugar::manager::Lent;
use cefdugar::manager::Manager;
use cefdugar::manager::Outputs;
use cefdugar::manager::SCRATCH;
use cefdugar::receiver;
use cefdugar::receiver::AREA_BYTES;
use cefdugar::Warnings;

/// A message, and how much room the delta area and the store's have beyond
/// what is needed.
#[derive(Clone, Debug)]
pub struct Step {
    pub call: Call,
    pub spare: [isize; 2],
}

impl Shrink for Step {
    fn offer(&self, take: &mut dyn FnMut(Step) -> bool) -> bool {
        self.call.offer(&mut |call| {
            take(Step {
                call,
                spare: self.spare,
            })
        })
    }
}

/// A message as text.
pub fn print(step: &Step) -> String {
    format!(
        "{}, room to spare: {:?}",
        calls::print(&step.call),
        step.spare
    )
}

const LEFT: Outputs = Outputs {
    taken: LEFT_FLAG,
    ack: LEFT_INT,
    warnings: Warnings([LEFT_SIZE; cefdugar::WARNINGS]),
};

/// What an answer sets: for a refused call the warnings alone.
fn outputs_of(said: &Said) -> Outputs {
    let (taken, ack) = match (said.number, said.ack) {
        (0, Some(ack)) => (1, ack),
        (0, None) => (0, LEFT.ack),
        _ => (LEFT.taken, LEFT.ack),
    };
    Outputs {
        taken,
        ack,
        warnings: said.warnings,
    }
}

/// The port's answer to a message.
pub fn port_call(manager: &mut Manager, call: &Call, lent: Lent, outputs: &mut Outputs) -> u32 {
    match call {
        Call::Snap(numbers, data) => manager.plain_snap(*numbers, data, lent, outputs),
        Call::Single(numbers, data) => manager.plain_single(*numbers, data, lent, outputs),
        Call::Empty(numbers) => manager.plain_empty(*numbers, lent, outputs),
        Call::Reset => {
            manager.reset(lent.area);
            lent.scratch.fill(0);
            outputs.taken = 0;
            outputs.warnings = Warnings::default();
            0
        }
    }
}

/// The port's areas.
pub struct Areas {
    parts: Area<u8>,
    joined: Area<u8>,
    delta: Area<i32>,
    area: Area<i32>,
    scratch: Area<i32>,
}

/// What the areas hold; scratch has only a length.
#[derive(Clone)]
pub struct Content {
    pub parts: Vec<u8>,
    pub joined: Vec<u8>,
    pub delta: Vec<i32>,
    pub area: Vec<i32>,
    pub scratch: usize,
}

impl Areas {
    pub fn new() -> Areas {
        Areas {
            parts: Area::new(),
            joined: Area::new(),
            delta: Area::new(),
            area: Area::new(),
            scratch: Area::new(),
        }
    }
    fn lend<'a>(&'a mut self, sizes: &'a [i32], content: &Content) -> Lent<'a> {
        Lent {
            sizes,
            parts: self.parts.lend_filled(&content.parts),
            joined: self.joined.lend_filled(&content.joined),
            delta: self.delta.lend_filled(&content.delta),
            area: self.area.lend_filled(&content.area),
            scratch: self.scratch.lend(content.scratch),
        }
    }
    fn check(&self, content: &Content) -> Compared {
        left("parts", self.parts.check(0, &content.parts))?;
        left("joined", self.joined.check(0, &content.joined))?;
        left("delta", self.delta.check(0, &content.delta))?;
        left("area", self.area.check(0, &content.area))?;
        let zeros = vec![0; content.scratch];
        left("scratch", self.scratch.check(0, &zeros))
    }
    /// Whether a message that the port alone refuses leaves everything unchanged.
    pub fn refused(
        &mut self,
        manager: Manager,
        call: &Call,
        content: &Content,
        number: u32,
    ) -> Compared {
        let (mut now, mut outputs) = (manager, LEFT);
        let said = port_call(&mut now, call, self.lend(&[], content), &mut outputs);
        let left = Outputs {
            warnings: Warnings::default(),
            ..LEFT
        };
        Shown::compare(&(number, left, manager), &(said, outputs, now))?;
        self.check(content)
    }
}

/// The port's receiver alone, which the manager's must equal.
fn receiver_call(receiver: &mut receiver::Receiver, call: &Call, parts: &mut [u8]) {
    let mut joined = vec![0; AREA_BYTES];
    match call {
        Call::Snap(numbers, data) => {
            let snap = calls::snap(oracle::snap(numbers, data));
            let _ = receiver.snap(snap, parts, &mut joined);
        }
        Call::Single(numbers, data) => {
            let snap = calls::single(oracle::single(numbers, data));
            let _ = receiver.snap_single(snap, &mut joined);
        }
        Call::Empty(numbers) => {
            let _ = receiver.snap_empty(calls::empty(oracle::empty(numbers)));
        }
        Call::Reset => receiver.reset(),
    }
}

/// The port's manager and the Rust's.
pub struct Both {
    pub printer: Printer,
    pub port: Manager,
    receiver: receiver::Receiver,
    parts: Vec<u8>,
    joined: Vec<u8>,
    delta: Vec<i32>,
    messages: usize,
}

impl Both {
    pub fn new(areas: &mut Areas) -> Both {
        Both {
            printer: Printer::new(),
            port: Manager::new(),
            receiver: receiver::Receiver::new(),
            parts: areas.parts.lend(AREA_BYTES).to_vec(),
            joined: areas.joined.lend(AREA_BYTES).to_vec(),
            delta: vec![],
            messages: 0,
        }
    }

    /// What is lent if the areas have this room.
    pub fn content(&self, room: Room) -> Content {
        let mut delta = self.delta.clone();
        delta.resize(room.delta, LEFT_INT);
        Content {
            parts: self.parts.clone(),
            joined: self.joined.clone(),
            delta,
            area: self.printer.store.area(room.area),
            scratch: SCRATCH,
        }
    }

    /// The same message to both.
    pub fn call(&mut self, areas: &mut Areas, sizes: &[i32], step: &Step) -> Compared {
        let needs = self.printer.needs(sizes, &step.call);
        let lengths = Room {
            delta: room(needs.delta, step.spare[0]),
            area: room(needs.area, step.spare[1]).max(self.printer.store.len()),
        };
        let mut content = self.content(lengths);
        let (call, mut outputs) = (&step.call, LEFT);
        let lent = areas.lend(sizes, &content);
        self.messages += 1;
        let before = disguised(self.port.storage, self.messages);
        self.port.storage = before;
        let number = port_call(&mut self.port, call, lent, &mut outputs);
        let said = self.printer.call(sizes, call, lengths)?;
        Shown::compare(&(said.number, outputs_of(&said)), &(number, outputs))?;
        receiver_call(&mut self.receiver, call, &mut self.parts);
        Shown::compare(&self.receiver, &self.port.receiver)?;
        let store = &self.printer.store;
        let oracle = (store.held.len(), store.ack_tick(), store.delta_tick());
        Shown::compare(&oracle, &rows(&self.port.storage))?;
        if number != 0 && rows(&before) == rows(&self.port.storage) {
            Shown::compare(&before, &self.port.storage)?;
        }
        self.joined[..said.joined.len()].copy_from_slice(&said.joined);
        content.parts.copy_from_slice(&self.parts);
        content.joined.copy_from_slice(&self.joined);
        content.delta[..said.delta.len()].copy_from_slice(&said.delta);
        content.area = store.area(lengths.area);
        self.delta = content.delta.clone();
        areas.check(&content)
    }
}
