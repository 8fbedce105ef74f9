//! The store of tables by tick.

use crate::answer;
use crate::delta::NoDelta;
use crate::messages::Tick;
use crate::sys;
use crate::Refusal;
use crate::Warnings;

/// The most tables that a store holds.
pub const SNAPS: usize = 100;

/// The most ints of a store's area that tables can take.
pub const AREA_INTS: usize = SNAPS * (2 + 16_384);

/// A store, as it stands in `include/cefdugar.h`. Between calls its area is
/// kept beside it: an area of zeros for a new one, with 2 ints and the table's
/// ints for each table that is to be held.
#[derive(Clone, Copy, Debug, Eq, PartialEq)]
#[repr(C)]
pub struct Storage {
    pub ticks: [i32; 2],
    pub counts: [u32; 3],
}

/// What is set where a table was added.
#[derive(Clone, Copy, Debug, Eq, PartialEq)]
pub struct Outputs {
    pub base: i32,
    pub count: usize,
    /// Where the call is refused with 10: of the keys that base and table have
    /// with data of different lengths, the least one, read as unsigned.
    pub clash: i32,
}

/// A table that was added: the tick of its base, -1 for the empty table, and
/// how many ints its delta takes.
#[derive(Clone, Copy, Debug, Eq, PartialEq)]
pub struct Added {
    pub base: Tick,
    pub ints: usize,
}

impl Default for Storage {
    fn default() -> Storage {
        Storage::new()
    }
}

/// A tick, where the flag says that there is one.
fn flagged(has: u32, tick: i32) -> Option<Tick> {
    (has != 0).then_some(Tick(tick))
}

impl Storage {
    /// Without any table.
    pub fn new() -> Storage {
        let mut storage = Storage {
            ticks: [0; 2],
            counts: [0; 3],
        };
        // References are valid, not null and do not overlap.
        unsafe { sys::cef_storage_new(&mut storage.ticks, &mut storage.counts) }
        storage
    }
    /// Empties the store and its area; the base tick stays.
    pub fn reset(&mut self, area: &mut [i32]) {
        // References are valid, not null and do not overlap.
        unsafe {
            sys::cef_storage_reset(
                &mut self.ticks,
                &mut self.counts,
                area.as_mut_ptr(),
                area.len(),
            )
        }
    }
    /// How many tables are held.
    pub fn num_snaps(&self) -> usize {
        self.counts[0] as usize
    }
    /// The tick acknowledged last.
    pub fn ack_tick(&self) -> Option<Tick> {
        flagged(self.counts[1], self.ticks[0])
    }
    /// The tick of the base that is set.
    pub fn delta_tick(&self) -> Option<Tick> {
        flagged(self.counts[2], self.ticks[1])
    }

    /// The tick of table `i`, the newest first, or none past the oldest.
    /// Refused: `NOT_IN_FORM`.
    pub fn snap_tick(&self, area: &[i32], i: usize) -> Result<Option<Tick>, Refusal> {
        let (mut tick, mut end) = (0, 0);
        let number = self.plain_snap_tick(area, i, &mut tick, &mut end);
        answer(number, (end == 0).then_some(Tick(tick)))
    }
    /// Copies table `i`, the newest first, to the front of `out` and gives how
    /// many ints; 0 where there is none. Refused: `CAPACITY_ERROR`; `out` is
    /// then left.
    pub fn snap(&self, area: &[i32], i: usize, out: &mut [i32]) -> Result<usize, Refusal> {
        let mut count = 0;
        let number = self.plain_snap(area, i, out, &mut count);
        answer(number, count)
    }
    /// Sets the base of the tables that are added: older tables are dropped,
    /// and it must then be the oldest. A negative tick sets none. Refused:
    /// `NOT_IN_FORM`, `UNKNOWN_SNAP`.
    pub fn set_delta_tick(
        &mut self,
        tick: Tick,
        area: &mut [i32],
    ) -> (Result<(), Refusal>, Warnings) {
        let mut warnings = Warnings::default();
        let number = self.plain_set_delta_tick(tick.0, area, &mut warnings);
        (answer(number, ()), warnings)
    }
    /// Adds a table and makes its delta in the front of `delta`: against the
    /// oldest table then held where a base tick is set, else against the empty
    /// one. A refused call leaves the store and both areas.
    pub fn add_snap(
        &mut self,
        tick: Tick,
        table: &[i32],
        delta: &mut [i32],
        area: &mut [i32],
    ) -> Result<Added, NoDelta> {
        let mut outputs = Outputs {
            base: 0,
            count: 0,
            clash: 0,
        };
        let number = self.plain_add_snap(tick.0, table, delta, area, &mut outputs);
        let added = Added {
            base: Tick(outputs.base),
            ints: outputs.count,
        };
        match answer(number, added) {
            Ok(added) => Ok(added),
            Err(Refusal::DELTA_DIFFERING_SIZES) => Err(NoDelta::Clash(outputs.clash)),
            Err(refusal) => Err(NoDelta::Refused(refusal)),
        }
    }
    /// Takes a delta for a tick, with the tick of its base, `delta_tick`, and
    /// the sum of its table where one was sent: tables older than the base are
    /// dropped, and it must then be the oldest. The table that comes of it is
    /// held, and its tick acknowledged. `scratch`, of
    /// [`table::SCRATCH`](crate::table::SCRATCH) ints or more, is zeros
    /// afterwards.
    pub fn add_delta(
        &mut self,
        crc: Option<i32>,
        delta_tick: Tick,
        tick: Tick,
        delta: &[i32],
        area: &mut [i32],
        scratch: &mut [i32],
    ) -> (Result<(), Refusal>, Warnings) {
        let mut warnings = Warnings::default();
        let ticks = [delta_tick.0, tick.0];
        let number = self.plain_add_delta(crc, ticks, delta, area, scratch, &mut warnings);
        (answer(number, ()), warnings)
    }
}

// Every call below is sound: references are valid, not null and do not
// overlap, and the lengths are those of the slices.
impl Storage {
    /// `cef_storage_snap_tick`. Refused (47): `tick` and `end` are left; past
    /// the oldest table `tick` is.
    pub fn plain_snap_tick(&self, area: &[i32], i: usize, tick: &mut i32, end: &mut u32) -> u32 {
        unsafe {
            sys::cef_storage_snap_tick(
                &self.ticks,
                &self.counts,
                area.as_ptr(),
                area.len(),
                i,
                tick,
                end,
            )
        }
    }
    /// `cef_storage_snap`. Refused (40): `out` and `count` are left.
    pub fn plain_snap(&self, area: &[i32], i: usize, out: &mut [i32], count: &mut usize) -> u32 {
        unsafe {
            sys::cef_storage_snap(
                &self.ticks,
                &self.counts,
                area.as_ptr(),
                area.len(),
                i,
                out.as_mut_ptr(),
                out.len(),
                count,
            )
        }
    }
    /// `cef_storage_set_delta_tick`. Refused (47, 31). `warnings` is always
    /// set.
    pub fn plain_set_delta_tick(
        &mut self,
        tick: i32,
        area: &mut [i32],
        warnings: &mut Warnings,
    ) -> u32 {
        unsafe {
            sys::cef_storage_set_delta_tick(
                &mut self.ticks,
                &mut self.counts,
                tick,
                area.as_mut_ptr(),
                area.len(),
                &mut warnings.0,
            )
        }
    }
    /// `cef_storage_add_snap`. Refused (47, 44, 10, 40): all is left but, at
    /// 10, `outputs.clash`.
    pub fn plain_add_snap(
        &mut self,
        tick: i32,
        table: &[i32],
        delta: &mut [i32],
        area: &mut [i32],
        outputs: &mut Outputs,
    ) -> u32 {
        unsafe {
            sys::cef_storage_add_snap(
                &mut self.ticks,
                &mut self.counts,
                tick,
                table.as_ptr(),
                table.len(),
                delta.as_mut_ptr(),
                delta.len(),
                area.as_mut_ptr(),
                area.len(),
                &mut outputs.base,
                &mut outputs.count,
                &mut outputs.clash,
            )
        }
    }
    /// `cef_storage_add_delta`, with the ticks of the base and of the delta.
    /// `warnings` is always set, and `scratch` always zeros.
    pub fn plain_add_delta(
        &mut self,
        crc: Option<i32>,
        ticks: [i32; 2],
        delta: &[i32],
        area: &mut [i32],
        scratch: &mut [i32],
        warnings: &mut Warnings,
    ) -> u32 {
        unsafe {
            sys::cef_storage_add_delta(
                &mut self.ticks,
                &mut self.counts,
                u32::from(crc.is_some()),
                crc.unwrap_or(0),
                ticks[0],
                ticks[1],
                delta.as_ptr(),
                delta.len(),
                area.as_mut_ptr(),
                area.len(),
                scratch.as_mut_ptr(),
                scratch.len(),
                &mut warnings.0,
            )
        }
    }
}
