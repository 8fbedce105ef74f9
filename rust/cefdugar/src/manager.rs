//! The manager of a printer: a receiver and a store.

use crate::answer;
use crate::messages::Snap;
use crate::messages::SnapEmpty;
use crate::messages::SnapSingle;
use crate::messages::Tick;
use crate::receiver::Receiver;
use crate::storage::Storage;
use crate::sys;
use crate::Refusal;
use crate::Warnings;

/// The least scratch.
pub const SCRATCH: usize = 28_800;

/// A manager, as it stands in `include/cefdugar.h`. Between calls the first
/// part area and the store's area are kept beside it.
#[derive(Clone, Copy, Debug, Default, Eq, PartialEq)]
pub struct Manager {
    pub receiver: Receiver,
    pub storage: Storage,
}

/// What is lent to each call.
pub struct Lent<'a> {
    /// The sizes known, by type, under which deltas are read.
    pub sizes: &'a [i32],
    /// The two part areas, of [`AREA_BYTES`](crate::receiver::AREA_BYTES)
    /// bytes or more.
    pub parts: &'a mut [u8],
    pub joined: &'a mut [u8],
    /// Takes the delta that was received.
    pub delta: &'a mut [i32],
    /// The store's.
    pub area: &'a mut [i32],
    /// [`SCRATCH`] ints or more; zeros afterwards.
    pub scratch: &'a mut [i32],
}

/// What is set where a message was taken; the warnings always are.
#[derive(Clone, Copy, Debug, Eq, PartialEq)]
pub struct Outputs {
    /// 1 where a table was taken, 0 where parts are missing.
    pub taken: u32,
    /// Its tick.
    pub ack: i32,
    pub warnings: Warnings,
}

/// The tick that was acknowledged, or none where parts are missing; with the
/// warnings.
pub type Handled = (Result<Option<Tick>, Refusal>, Warnings);

/// What a call said.
fn handled(call: impl FnOnce(&mut Outputs) -> u32) -> Handled {
    let mut outputs = Outputs {
        taken: 0,
        ack: 0,
        warnings: Warnings::default(),
    };
    let number = call(&mut outputs);
    let ack = (outputs.taken != 0).then_some(Tick(outputs.ack));
    (answer(number, ack), outputs.warnings)
}

impl Manager {
    /// Without any tick or table.
    pub fn new() -> Manager {
        let mut manager = Manager {
            receiver: Receiver {
                ticks: [0; 4],
                counts: [0; 3],
                lengths: [0; 32],
            },
            storage: Storage {
                ticks: [0; 2],
                counts: [0; 3],
            },
        };
        // References are valid, not null and do not overlap.
        unsafe {
            sys::cef_manager_new(
                &mut manager.receiver.ticks,
                &mut manager.receiver.counts,
                &mut manager.receiver.lengths,
                &mut manager.storage.ticks,
                &mut manager.storage.counts,
            )
        }
        manager
    }
    /// Forgets both ticks of the receiver, and empties the store and its area;
    /// its base tick stays.
    pub fn reset(&mut self, area: &mut [i32]) {
        // References are valid, not null and do not overlap.
        unsafe {
            sys::cef_manager_reset(
                &mut self.receiver.ticks,
                &mut self.receiver.counts,
                &mut self.receiver.lengths,
                &mut self.storage.ticks,
                &mut self.storage.counts,
                area.as_mut_ptr(),
                area.len(),
            )
        }
    }
    /// The tick acknowledged last.
    pub fn ack_tick(&self) -> Option<Tick> {
        self.storage.ack_tick()
    }

    /// Takes a part of a delta. With the last part missing the delta is read
    /// and goes to the store. If reading refuses it, also for a set padding bit
    /// (`NON_ZERO_INT_PADDING`), its tick is finished and the store is left.
    pub fn snap(&mut self, snap: Snap<'_>, lent: Lent) -> Handled {
        handled(|outputs| self.plain_snap(snap.numbers(), snap.data, lent, outputs))
    }
    /// Takes a whole delta.
    pub fn snap_single(&mut self, snap: SnapSingle<'_>, lent: Lent) -> Handled {
        handled(|outputs| self.plain_single(snap.numbers(), snap.data, lent, outputs))
    }
    /// Takes an empty delta.
    pub fn snap_empty(&mut self, snap: SnapEmpty, lent: Lent) -> Handled {
        handled(|outputs| self.plain_empty(snap.numbers(), lent, outputs))
    }
}

// Every call below is sound: references are valid, not null and do not
// overlap, and the lengths are those of the slices.
impl Manager {
    /// `cef_manager_snap`, with tick, distance, part count, part number and
    /// sum. `scratch` is always zeros. Refused: `outputs` are left but for the
    /// warnings.
    pub fn plain_snap(
        &mut self,
        numbers: [i32; 5],
        data: &[u8],
        lent: Lent,
        outputs: &mut Outputs,
    ) -> u32 {
        unsafe {
            sys::cef_manager_snap(
                &mut self.receiver.ticks,
                &mut self.receiver.counts,
                &mut self.receiver.lengths,
                &mut self.storage.ticks,
                &mut self.storage.counts,
                numbers[0],
                numbers[1],
                numbers[2],
                numbers[3],
                numbers[4],
                data.as_ptr(),
                data.len(),
                lent.sizes.as_ptr(),
                lent.sizes.len(),
                lent.parts.as_mut_ptr(),
                lent.parts.len(),
                lent.joined.as_mut_ptr(),
                lent.joined.len(),
                lent.delta.as_mut_ptr(),
                lent.delta.len(),
                lent.area.as_mut_ptr(),
                lent.area.len(),
                lent.scratch.as_mut_ptr(),
                lent.scratch.len(),
                &mut outputs.taken,
                &mut outputs.ack,
                &mut outputs.warnings.0,
            )
        }
    }
    /// `cef_manager_snap_single`, with tick, distance and sum, as
    /// [`Manager::plain_snap`].
    pub fn plain_single(
        &mut self,
        numbers: [i32; 3],
        data: &[u8],
        lent: Lent,
        outputs: &mut Outputs,
    ) -> u32 {
        let [tick, distance, crc] = numbers;
        unsafe {
            sys::cef_manager_snap_single(
                &mut self.receiver.ticks,
                &mut self.receiver.counts,
                &mut self.receiver.lengths,
                &mut self.storage.ticks,
                &mut self.storage.counts,
                tick,
                distance,
                crc,
                data.as_ptr(),
                data.len(),
                lent.sizes.as_ptr(),
                lent.sizes.len(),
                lent.parts.as_mut_ptr(),
                lent.parts.len(),
                lent.joined.as_mut_ptr(),
                lent.joined.len(),
                lent.delta.as_mut_ptr(),
                lent.delta.len(),
                lent.area.as_mut_ptr(),
                lent.area.len(),
                lent.scratch.as_mut_ptr(),
                lent.scratch.len(),
                &mut outputs.taken,
                &mut outputs.ack,
                &mut outputs.warnings.0,
            )
        }
    }
    /// `cef_manager_snap_empty`, with tick and distance, as
    /// [`Manager::plain_snap`].
    pub fn plain_empty(&mut self, numbers: [i32; 2], lent: Lent, outputs: &mut Outputs) -> u32 {
        let [tick, distance] = numbers;
        unsafe {
            sys::cef_manager_snap_empty(
                &mut self.receiver.ticks,
                &mut self.receiver.counts,
                &mut self.receiver.lengths,
                &mut self.storage.ticks,
                &mut self.storage.counts,
                tick,
                distance,
                lent.parts.as_mut_ptr(),
                lent.parts.len(),
                lent.joined.as_mut_ptr(),
                lent.joined.len(),
                lent.delta.as_mut_ptr(),
                lent.delta.len(),
                lent.area.as_mut_ptr(),
                lent.area.len(),
                lent.scratch.as_mut_ptr(),
                lent.scratch.len(),
                &mut outputs.taken,
                &mut outputs.ack,
                &mut outputs.warnings.0,
            )
        }
    }
}
