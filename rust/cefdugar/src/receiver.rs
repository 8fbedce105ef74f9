//! The receiver of the parts of deltas.

use crate::answer;
use crate::messages::Snap;
use crate::messages::SnapEmpty;
use crate::messages::SnapSingle;
use crate::messages::Tick;
use crate::sys;
use crate::Refusal;
use crate::Warnings;

/// How many bytes each of the two part areas has at least.
pub const AREA_BYTES: usize = 28_800;

/// A receiver, as it stands in `include/cefdugar.h`. Between calls the first
/// part area is kept beside it.
#[derive(Clone, Copy, Debug, Eq, PartialEq)]
#[repr(C)]
pub struct Receiver {
    pub ticks: [i32; 4],
    pub counts: [u32; 3],
    pub lengths: [u16; 32],
}

/// What is set where a message was taken.
#[derive(Clone, Copy, Debug, Eq, PartialEq)]
pub struct Outputs {
    pub kind: u32,
    /// Tick, base and sum.
    pub received: [i32; 3],
    pub len: usize,
}

/// A delta that was received: the ticks of its base and of its table.
/// `data_and_crc` has how many bytes were joined and the table's sum, unless
/// the message was empty.
#[derive(Clone, Copy, Debug, Eq, PartialEq)]
pub struct ReceivedDelta {
    pub delta_tick: Tick,
    pub tick: Tick,
    pub data_and_crc: Option<(usize, i32)>,
}

/// A call that answered, with its warnings.
pub type Received = (Result<Option<ReceivedDelta>, Refusal>, Warnings);

#[inline]
fn received(number: u32, outputs: Outputs, warnings: Warnings) -> Received {
    let Outputs {
        kind,
        received: [tick, delta_tick, crc],
        len,
    } = outputs;
    let delta = (kind != 0).then_some(ReceivedDelta {
        delta_tick: Tick(delta_tick),
        tick: Tick(tick),
        data_and_crc: (kind == 1).then_some((len, crc)),
    });
    (answer(number, delta), warnings)
}

impl Outputs {
    /// Nothing set.
    pub const NONE: Outputs = Outputs {
        kind: 0,
        received: [0; 3],
        len: 0,
    };
}

impl Default for Receiver {
    fn default() -> Receiver {
        Receiver::new()
    }
}

// Every call below is sound: references are valid, not null and do not
// overlap, and the lengths are those of the slices.
impl Receiver {
    /// Without any tick.
    pub fn new() -> Receiver {
        let mut receiver = Receiver {
            ticks: [0; 4],
            counts: [0; 3],
            lengths: [0; 32],
        };
        unsafe {
            sys::cef_receiver_new(
                &mut receiver.ticks,
                &mut receiver.counts,
                &mut receiver.lengths,
            )
        }
        receiver
    }
    /// Forgets both ticks.
    #[inline]
    pub fn reset(&mut self) {
        unsafe { sys::cef_receiver_reset(&mut self.ticks, &mut self.counts, &mut self.lengths) }
    }

    /// Takes a part of a delta. `parts` and `joined` are the two part areas;
    /// the last part missing joins all in the second. The first part of a tick
    /// fixes base, part count and sum; a part with another one counts
    /// `DIFFERING_ATTRIBUTES`.
    #[inline]
    pub fn snap(&mut self, snap: Snap<'_>, parts: &mut [u8], joined: &mut [u8]) -> Received {
        let (mut outputs, mut warnings) = (Outputs::NONE, Warnings::default());
        let numbers = snap.numbers();
        let number = self.plain_snap(
            numbers,
            snap.data,
            parts,
            joined,
            &mut outputs,
            &mut warnings,
        );
        received(number, outputs, warnings)
    }
    /// Takes a whole delta, whose bytes go to the front of `joined`.
    #[inline]
    pub fn snap_single(&mut self, snap: SnapSingle<'_>, joined: &mut [u8]) -> Received {
        let (mut outputs, mut warnings) = (Outputs::NONE, Warnings::default());
        let numbers = snap.numbers();
        let number = self.plain_single(numbers, snap.data, joined, &mut outputs, &mut warnings);
        received(number, outputs, warnings)
    }
    /// Takes an empty delta.
    #[inline]
    pub fn snap_empty(&mut self, snap: SnapEmpty) -> Received {
        let (mut outputs, mut warnings) = (Outputs::NONE, Warnings::default());
        let number = self.plain_empty(snap.numbers(), &mut outputs, &mut warnings);
        received(number, outputs, warnings)
    }

    /// `cef_receiver_snap`, with tick, distance, part count, part number and
    /// sum. Refused (47, 41, 43, 20 to 23): all but `warnings` is left.
    #[inline]
    pub fn plain_snap(
        &mut self,
        numbers: [i32; 5],
        data: &[u8],
        parts: &mut [u8],
        joined: &mut [u8],
        outputs: &mut Outputs,
        warnings: &mut Warnings,
    ) -> u32 {
        let [tick, distance, num_parts, part, crc] = numbers;
        unsafe {
            sys::cef_receiver_snap(
                &mut self.ticks,
                &mut self.counts,
                &mut self.lengths,
                tick,
                distance,
                num_parts,
                part,
                crc,
                data.as_ptr(),
                data.len(),
                parts.as_mut_ptr(),
                parts.len(),
                joined.as_mut_ptr(),
                joined.len(),
                &mut outputs.kind,
                &mut outputs.received,
                &mut outputs.len,
                &mut warnings.0,
            )
        }
    }
    /// `cef_receiver_snap_single`, with tick, distance and sum. Refused (47,
    /// 41, 43, 20): all but `warnings` is left.
    #[inline]
    pub fn plain_single(
        &mut self,
        numbers: [i32; 3],
        data: &[u8],
        joined: &mut [u8],
        outputs: &mut Outputs,
        warnings: &mut Warnings,
    ) -> u32 {
        let [tick, distance, crc] = numbers;
        unsafe {
            sys::cef_receiver_snap_single(
                &mut self.ticks,
                &mut self.counts,
                &mut self.lengths,
                tick,
                distance,
                crc,
                data.as_ptr(),
                data.len(),
                joined.as_mut_ptr(),
                joined.len(),
                &mut outputs.kind,
                &mut outputs.received,
                &mut outputs.len,
                &mut warnings.0,
            )
        }
    }
    /// `cef_receiver_snap_empty`, with tick and distance. Refused (47, 20): all
    /// but `warnings` is left.
    #[inline]
    pub fn plain_empty(
        &mut self,
        numbers: [i32; 2],
        outputs: &mut Outputs,
        warnings: &mut Warnings,
    ) -> u32 {
        let [tick, distance] = numbers;
        unsafe {
            sys::cef_receiver_snap_empty(
                &mut self.ticks,
                &mut self.counts,
                &mut self.lengths,
                tick,
                distance,
                &mut outputs.kind,
                &mut outputs.received,
                &mut outputs.len,
                &mut warnings.0,
            )
        }
    }
}
