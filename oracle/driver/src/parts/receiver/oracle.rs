//! The Rust's answers on messages.

use super::differing::FirstPart;
use crate::core::oracle::Number;
use crate::core::oracle::Tally;
use cefdugar::messages::Tick;
use cefdugar::receiver::ReceivedDelta;
use cefdugar::Warnings;
use libtw2_gamenet_snap as msg;
use libtw2_snapshot::receiver;
use libtw2_snapshot::DeltaReceiver;

/// A call on a receiver, and its bytes.
#[derive(Clone, Debug, Eq, PartialEq)]
pub enum Call {
    /// Tick, distance, part count, part number, sum.
    Snap([i32; 5], Vec<u8>),
    /// Tick, distance, sum.
    Single([i32; 3], Vec<u8>),
    /// Tick, distance.
    Empty([i32; 2]),
    Reset,
}

/// The answer, the bytes joined and the warnings of a call.
#[derive(Clone, Debug, Eq, PartialEq)]
pub struct Said {
    pub answer: Result<Option<ReceivedDelta>, u32>,
    pub joined: Vec<u8>,
    pub warnings: Warnings,
}

fn said(
    result: Result<Option<receiver::ReceivedDelta<'_>>, receiver::Error>,
    tally: Tally,
) -> Said {
    let mut joined = vec![];
    let answer = match result {
        Ok(delta) => Ok(delta.map(|delta| ReceivedDelta {
            delta_tick: Tick(delta.delta_tick),
            tick: Tick(delta.tick),
            data_and_crc: delta.data_and_crc.map(|(bytes, crc)| {
                joined = bytes.to_vec();
                (bytes.len(), crc)
            }),
        })),
        Err(error) => Err(error.number()),
    };
    Said {
        answer,
        joined,
        warnings: tally.0,
    }
}

/// A part of a delta in the Rust's form.
pub fn snap<'a>(numbers: &[i32; 5], data: &'a [u8]) -> msg::Snap<'a> {
    let [tick, delta_tick, num_parts, part, crc] = *numbers;
    msg::Snap {
        tick,
        delta_tick,
        num_parts,
        part,
        crc,
        data,
    }
}

/// A whole delta.
pub fn single<'a>(numbers: &[i32; 3], data: &'a [u8]) -> msg::SnapSingle<'a> {
    let [tick, delta_tick, crc] = *numbers;
    msg::SnapSingle {
        tick,
        delta_tick,
        crc,
        data,
    }
}

/// An empty delta.
pub fn empty(numbers: &[i32; 2]) -> msg::SnapEmpty {
    let [tick, delta_tick] = *numbers;
    msg::SnapEmpty { tick, delta_tick }
}

/// The Rust's receiver, and the model of the warning that the Rust counts by
/// another rule.
#[derive(Clone, Default)]
pub struct Receiver {
    rust: DeltaReceiver,
    first: FirstPart,
}

impl Receiver {
    /// The Rust's answer, with the model's count of `DifferingAttributes`.
    pub fn call(&mut self, call: &Call) -> Said {
        let mut said = rust_call(&mut self.rust, call);
        let due = self.first.due(call, &said.answer);
        said.warnings.0[Warnings::DIFFERING_ATTRIBUTES] = due;
        said
    }
}

fn rust_call(receiver: &mut DeltaReceiver, call: &Call) -> Said {
    let mut tally = Tally::default();
    let result = match call {
        Call::Snap(numbers, data) => receiver.snap(&mut tally, snap(numbers, data)),
        Call::Single(numbers, data) => receiver.snap_single(&mut tally, single(numbers, data)),
        Call::Empty(numbers) => receiver.snap_empty(&mut tally, empty(numbers)),
        Call::Reset => {
            receiver.reset();
            Ok(None)
        }
    };
    said(result, tally)
}
