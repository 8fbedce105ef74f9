//! Each call on both sides: the answer, what was set, what was unchanged.

use super::oracle;
use super::oracle::Call;
use crate::core::area::Area;
use crate::core::area::LEFT_FLAG;
use crate::core::area::LEFT_INT;
use crate::core::area::LEFT_SIZE;
use crate::core::counted::left;
use crate::core::report::Compared;
use crate::core::report::Shown;
use crate::core::shrink::Shrink;
use crate::core::text::hex_short;
use cefdugar::messages;
use cefdugar::messages::Distance;
use cefdugar::messages::Message;
use cefdugar::messages::Snap;
use cefdugar::messages::SnapEmpty;
use cefdugar::messages::SnapSingle;
use cefdugar::messages::Tick;
use cefdugar::receiver::Outputs;
use cefdugar::receiver::Receiver;
use cefdugar::receiver::AREA_BYTES;
use cefdugar::Warnings;
use libtw2_gamenet_snap as msg;
use libtw2_snapshot::snap::delta_chunks;

const LEFT: Outputs = Outputs {
    kind: LEFT_FLAG,
    received: [LEFT_INT; 3],
    len: LEFT_SIZE,
};

impl Shrink for Call {
    fn offer(&self, take: &mut dyn FnMut(Call) -> bool) -> bool {
        match self {
            Call::Snap(numbers, data) if data.len() > 1 => take(Call::Snap(*numbers, vec![1])),
            Call::Single(numbers, data) if data.len() > 1 => take(Call::Single(*numbers, vec![1])),
            _ => false,
        }
    }
}

/// A call as text.
pub fn print(call: &Call) -> String {
    match call {
        Call::Snap(numbers, data) => format!("snap {numbers:?} {}", hex_short(data)),
        Call::Single(numbers, data) => format!("single {numbers:?} {}", hex_short(data)),
        Call::Empty(numbers) => format!("empty {numbers:?}"),
        Call::Reset => "reset".to_string(),
    }
}

/// The port's areas and receiver, and the Rust's.
pub struct Both {
    rust: oracle::Receiver,
    pub port: Receiver,
    parts: Area<u8>,
    joined: Area<u8>,
    /// What the two areas must hold.
    held: [Vec<u8>; 2],
}

/// The port's answer.
fn port_call(
    receiver: &mut Receiver,
    call: &Call,
    parts: &mut [u8],
    joined: &mut [u8],
    outputs: &mut Outputs,
    warnings: &mut Warnings,
) -> u32 {
    match call {
        Call::Snap(numbers, data) => {
            receiver.plain_snap(*numbers, data, parts, joined, outputs, warnings)
        }
        Call::Single(numbers, data) => {
            receiver.plain_single(*numbers, data, joined, outputs, warnings)
        }
        Call::Empty(numbers) => receiver.plain_empty(*numbers, outputs, warnings),
        Call::Reset => {
            receiver.reset();
            outputs.kind = 0;
            *warnings = Warnings::default();
            0
        }
    }
}

impl Both {
    pub fn new() -> Both {
        let (mut parts, mut joined) = (Area::new(), Area::new());
        let held = [
            parts.lend(AREA_BYTES).to_vec(),
            joined.lend(AREA_BYTES).to_vec(),
        ];
        Both {
            rust: oracle::Receiver::default(),
            port: Receiver::new(),
            parts,
            joined,
            held,
        }
    }

    /// The same call to both; gives the port's counts. A part of more than 900
    /// bytes goes to the port alone, which refuses it (43).
    pub fn call(&mut self, call: &Call) -> Result<Warnings, Shown> {
        let before = self.port;
        let too_long =
            matches!(call, Call::Snap(_, data) | Call::Single(_, data) if data.len() > 900);
        let mut outputs = LEFT;
        let mut warnings = Warnings([LEFT_SIZE; cefdugar::WARNINGS]);
        let number = port_call(
            &mut self.port,
            call,
            self.parts.lend_filled(&self.held[0]),
            self.joined.lend_filled(&self.held[1]),
            &mut outputs,
            &mut warnings,
        );
        let (oracle, joined) = if too_long {
            ((43, LEFT, Warnings::default()), vec![])
        } else {
            let said = self.rust.call(call);
            let set = match said.answer {
                Ok(delta) => (0, outputs_of(delta)),
                Err(number) => (number, LEFT),
            };
            ((set.0, set.1, said.warnings), said.joined)
        };
        Shown::compare(&oracle, &(number, outputs, warnings))?;
        if number != 0 {
            Shown::compare(&before, &self.port)?;
        }
        self.held[1][..joined.len()].copy_from_slice(&joined);
        if let (0, Call::Snap(numbers, data)) = (number, call) {
            let at = 900 * numbers[3] as usize;
            self.held[0][at..at + data.len()].copy_from_slice(data);
        }
        left("parts", self.parts.check(0, &self.held[0]))?;
        left("joined", self.joined.check(0, &self.held[1]))?;
        Ok(warnings)
    }

    /// Whether a call that the port alone refuses with `number` leaves
    /// everything unchanged; areas of these lengths are lent.
    pub fn refused(receiver: Receiver, call: &Call, lengths: [usize; 2], number: u32) -> Compared {
        let (mut parts, mut joined) = (Area::new(), Area::new());
        let (mut now, mut outputs) = (receiver, LEFT);
        let mut warnings = Warnings([LEFT_SIZE; cefdugar::WARNINGS]);
        let said = port_call(
            &mut now,
            call,
            parts.lend(lengths[0]),
            joined.lend(lengths[1]),
            &mut outputs,
            &mut warnings,
        );
        Shown::compare(
            &(number, LEFT, Warnings::default(), receiver),
            &(said, outputs, warnings, now),
        )?;
        left("parts", parts.check(0, &[]))?;
        left("joined", joined.check(0, &[]))
    }
}

/// Calls to a new receiver on both sides.
pub fn receive(list: &Vec<Call>) -> Compared {
    let mut both = Both::new();
    list.iter().try_for_each(|call| both.call(call).map(drop))
}

/// The same for parts of one delta, which never differ from each other.
pub fn receive_alike(list: &Vec<Call>) -> Compared {
    let mut both = Both::new();
    list.iter().try_for_each(|call| {
        let warnings = both.call(call)?;
        Shown::compare(&0, &warnings.0[Warnings::DIFFERING_ATTRIBUTES])
    })
}

/// What the outputs hold if the message was taken.
fn outputs_of(delta: Option<cefdugar::receiver::ReceivedDelta>) -> Outputs {
    match delta {
        None => Outputs { kind: 0, ..LEFT },
        Some(delta) => {
            let (kind, len, crc) = match delta.data_and_crc {
                Some((len, crc)) => (1, len, crc),
                None => (2, 0, 0),
            };
            Outputs {
                kind,
                received: [delta.tick.0, delta.delta_tick.0, crc],
                len,
            }
        }
    }
}

/// The Rust's part of a delta in the port's form.
pub fn snap(snap: msg::Snap<'_>) -> Snap<'_> {
    Snap {
        tick: Tick(snap.tick),
        delta_tick: Distance(snap.delta_tick),
        num_parts: snap.num_parts,
        part: snap.part,
        crc: snap.crc,
        data: snap.data,
    }
}

/// A whole delta.
pub fn single(snap: msg::SnapSingle<'_>) -> SnapSingle<'_> {
    SnapSingle {
        tick: Tick(snap.tick),
        delta_tick: Distance(snap.delta_tick),
        crc: snap.crc,
        data: snap.data,
    }
}

/// An empty delta.
pub fn empty(snap: msg::SnapEmpty) -> SnapEmpty {
    SnapEmpty {
        tick: Tick(snap.tick),
        delta_tick: Distance(snap.delta_tick),
    }
}

/// The Rust's message in the port's form.
fn message(message: msg::SnapMsg<'_>) -> Message<'_> {
    match message {
        msg::SnapMsg::Snap(part) => Message::Snap(snap(part)),
        msg::SnapMsg::SnapEmpty(delta) => Message::SnapEmpty(empty(delta)),
        msg::SnapMsg::SnapSingle(delta) => Message::SnapSingle(single(delta)),
    }
}

/// Cuts some bytes into messages on both sides.
pub fn cut(tick: i32, delta_tick: i32, data: &[u8], crc: i32) -> Compared {
    let mut all: Vec<_> = delta_chunks(tick, delta_tick, data, crc)
        .map(message)
        .collect();
    Shown::compare(&Ok(all.len()), &messages::num_chunks(data))?;
    let count = all.len();
    let mut i = 0;
    while let Some(oracle) = (i < count).then(|| all[i]) {
        let port = messages::chunk(Tick(tick), Tick(delta_tick), data, crc, i);
        Shown::compare(&Ok(Some(oracle)), &port)?;
        i += 1;
    }
    all.clear();
    for i in [count, count + 1, usize::MAX] {
        let port = messages::chunk(Tick(tick), Tick(delta_tick), data, crc, i);
        Shown::compare(&Ok(None), &port)?;
        let (mut kind, mut numbers, mut len) = (LEFT_FLAG, [LEFT_INT; 5], LEFT_SIZE);
        let number = messages::plain_chunk(
            tick,
            delta_tick,
            data,
            crc,
            i,
            &mut kind,
            &mut numbers,
            &mut len,
        );
        Shown::compare(&(0, 0, [LEFT_INT; 5], 0), &(number, kind, numbers, len))?;
    }
    Ok(())
}

/// Too many bytes: refused, and everything is unchanged.
pub fn too_many(data: &[u8]) -> Compared {
    let (mut kind, mut numbers, mut len) = (LEFT_FLAG, [LEFT_INT; 5], LEFT_SIZE);
    for i in [0, 1, usize::MAX] {
        let number = messages::plain_chunk(1, 0, data, 0, i, &mut kind, &mut numbers, &mut len);
        let oracle = (42, LEFT_FLAG, [LEFT_INT; 5], LEFT_SIZE);
        Shown::compare(&oracle, &(number, kind, numbers, len))?;
    }
    let number = messages::plain_num_chunks(data, &mut len);
    Shown::compare(&(42, LEFT_SIZE), &(number, len))
}
