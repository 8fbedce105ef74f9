//! Ticks, distances, and the messages that carry the bytes of a delta.

use crate::answer;
use crate::sys;
use crate::Refusal;

/// The most bytes of a message.
pub const PART_BYTES: usize = 900;

/// The tick of a table. Ticks are ordered as signed numbers.
#[derive(Clone, Copy, Debug, Eq, Hash, Ord, PartialEq, PartialOrd)]
pub struct Tick(pub i32);

/// How far a table's tick lies past its base's. It is another sort of count
/// than a tick, and the two can't be compared. A distance may wrap, so
/// distances have no order.
#[derive(Clone, Copy, Debug, Eq, Hash, PartialEq)]
pub struct Distance(pub i32);

impl Tick {
    /// The tick that lies `distance` before this one, wrapping: of a message's
    /// tick and distance, the tick of its base.
    #[inline]
    pub fn minus(self, distance: Distance) -> Tick {
        Tick(self.0.wrapping_sub(distance.0))
    }
    /// The distance from the tick `base` to this one, wrapping.
    #[inline]
    pub fn since(self, base: Tick) -> Distance {
        Distance(self.0.wrapping_sub(base.0))
    }
}

/// A part of a delta. Here and in the other messages `delta_tick` has libtw2's
/// name; it is the distance from the base's tick.
#[derive(Clone, Copy, Debug, Eq, PartialEq)]
pub struct Snap<'a> {
    pub tick: Tick,
    pub delta_tick: Distance,
    pub num_parts: i32,
    pub part: i32,
    pub crc: i32,
    pub data: &'a [u8],
}

/// A delta without bytes: the table is its base again.
#[derive(Clone, Copy, Debug, Eq, PartialEq)]
pub struct SnapEmpty {
    pub tick: Tick,
    pub delta_tick: Distance,
}

/// A whole delta.
#[derive(Clone, Copy, Debug, Eq, PartialEq)]
pub struct SnapSingle<'a> {
    pub tick: Tick,
    pub delta_tick: Distance,
    pub crc: i32,
    pub data: &'a [u8],
}

/// A message of any of the three kinds.
#[derive(Clone, Copy, Debug, Eq, PartialEq)]
pub enum Message<'a> {
    Snap(Snap<'a>),
    SnapEmpty(SnapEmpty),
    SnapSingle(SnapSingle<'a>),
}

impl Snap<'_> {
    /// The numbers in the order of the C calls.
    #[inline]
    pub(crate) fn numbers(&self) -> [i32; 5] {
        [
            self.tick.0,
            self.delta_tick.0,
            self.num_parts,
            self.part,
            self.crc,
        ]
    }
}

impl SnapEmpty {
    #[inline]
    pub(crate) fn numbers(&self) -> [i32; 2] {
        [self.tick.0, self.delta_tick.0]
    }
}

impl SnapSingle<'_> {
    #[inline]
    pub(crate) fn numbers(&self) -> [i32; 3] {
        [self.tick.0, self.delta_tick.0, self.crc]
    }
}

/// `cef_num_chunks`. Refused (42): `count` is left.
#[inline]
pub fn plain_num_chunks(data: &[u8], count: &mut usize) -> u32 {
    // References are valid, not null and do not overlap.
    unsafe { sys::cef_num_chunks(data.as_ptr(), data.len(), count) }
}

/// `cef_chunk`. Refused (42): `kind`, `numbers` and `len` are left; without a
/// message `numbers` are.
#[inline]
#[allow(clippy::too_many_arguments)]
pub fn plain_chunk(
    tick: i32,
    delta_tick: i32,
    data: &[u8],
    crc: i32,
    i: usize,
    kind: &mut u32,
    numbers: &mut [i32; 5],
    len: &mut usize,
) -> u32 {
    // References are valid, not null and do not overlap.
    unsafe {
        sys::cef_chunk(
            tick,
            delta_tick,
            data.as_ptr(),
            data.len(),
            crc,
            i,
            kind,
            numbers,
            len,
        )
    }
}

/// How many messages carry the bytes of a delta. Refused: `INPUT_TOO_LONG`.
#[inline]
pub fn num_chunks(data: &[u8]) -> Result<usize, Refusal> {
    let mut count = 0;
    let number = plain_num_chunks(data, &mut count);
    answer(number, count)
}

/// Message `i` of those that carry the bytes of a delta from the table of tick
/// `delta_tick` to that of `tick`, whose sum is `crc`. Refused:
/// `INPUT_TOO_LONG`.
#[inline]
pub fn chunk(
    tick: Tick,
    delta_tick: Tick,
    data: &[u8],
    crc: i32,
    i: usize,
) -> Result<Option<Message<'_>>, Refusal> {
    let (mut kind, mut numbers, mut len) = (0, [0; 5], 0);
    let number = plain_chunk(
        tick.0,
        delta_tick.0,
        data,
        crc,
        i,
        &mut kind,
        &mut numbers,
        &mut len,
    );
    answer(number, ())?;
    let [tick, distance, num_parts, part, crc] = numbers;
    let (tick, delta_tick) = (Tick(tick), Distance(distance));
    Ok(match kind {
        0 => None,
        1 => Some(Message::Snap(Snap {
            tick,
            delta_tick,
            num_parts,
            part,
            crc,
            data: &data[PART_BYTES * i..][..len],
        })),
        2 => Some(Message::SnapEmpty(SnapEmpty { tick, delta_tick })),
        _ => Some(Message::SnapSingle(SnapSingle {
            tick,
            delta_tick,
            crc,
            data: &data[PART_BYTES * i..][..len],
        })),
    })
}
