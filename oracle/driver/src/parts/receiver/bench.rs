//! Times of cutting a delta, and of receiving its parts.
//!
//! The plain rows compare the port's safe calls with the Rust as its users call
//! it. `each call`: the Rust behind the same C boundary as the port, with the
//! same outputs filled: kind, numbers, length and the 12 counts. `copies alone`:
//! instead of the port only the copies that docs/FORMAT.md requires, each part into
//! the first part area and the whole into the second.

use super::calls;
use super::oracle;
use super::oracle::Call;
use crate::core::bench::Table;
use crate::core::oracle::comparable;
use crate::core::oracle::Number;
use crate::core::oracle::Tally;
use crate::core::random::Random;
use cefdugar::messages;
use cefdugar::messages::Tick;
use cefdugar::receiver::Outputs;
use cefdugar::receiver::Receiver;
use cefdugar::receiver::AREA_BYTES;
use cefdugar::Warnings;
use libtw2_gamenet_snap as msg;
use libtw2_snapshot::snap;
use libtw2_snapshot::DeltaReceiver;
use std::hint::black_box;

/// The bytes of a full part.
const PART_BYTES: usize = 900;

pub fn bench(table: &mut Table) {
    let mut random = Random::new(1, "receiver", 0);
    for len in [14_400, 28_800] {
        let data = super::inputs::bytes(&mut random, len);
        cut(table, &data);
        cut_calls(table, &data);
        let mut parts = super::inputs::messages(&mut random, 10, 4, len);
        receive(table, "parts received in order", len, &parts);
        receive_calls(table, "parts received in order, each call", len, &parts);
        copies(table, "parts received in order, copies alone", len, &parts);
        parts.reverse();
        receive(table, "parts received in reverse", len, &parts);
        receive_calls(table, "parts received in reverse, each call", len, &parts);
        copies(
            table,
            "parts received in reverse, copies alone",
            len,
            &parts,
        );
    }
}

fn cut(table: &mut Table, data: &[u8]) {
    table.race(
        "bytes cut into messages",
        data.len(),
        &mut || {
            for message in snap::delta_chunks(black_box(10), 4, black_box(data), 7) {
                let _ = black_box(message);
            }
        },
        &mut || {
            let count = messages::num_chunks(black_box(data)).unwrap_or(0);
            for i in 0..count {
                let (tick, data) = (Tick(black_box(10)), black_box(data));
                let _ = black_box(messages::chunk(tick, Tick(4), data, 7, i));
            }
        },
    );
}

/// `cef_chunk` in Rust, whose iterator replaces the number.
#[inline(never)]
extern "C" fn rust_chunk(
    chunks: &mut snap::DeltaChunks<'_>,
    kind: &mut u32,
    numbers: &mut [i32; 5],
    len: &mut usize,
) -> u32 {
    match chunks.next() {
        None => (*kind, *len) = (0, 0),
        Some(msg::SnapMsg::Snap(snap)) => {
            *kind = 1;
            *numbers = [
                snap.tick,
                snap.delta_tick,
                snap.num_parts,
                snap.part,
                snap.crc,
            ];
            *len = snap.data.len();
        }
        Some(msg::SnapMsg::SnapEmpty(snap)) => {
            *kind = 2;
            *numbers = [snap.tick, snap.delta_tick, 0, 0, 0];
            *len = 0;
        }
        Some(msg::SnapMsg::SnapSingle(snap)) => {
            *kind = 3;
            *numbers = [snap.tick, snap.delta_tick, 0, 0, snap.crc];
            *len = snap.data.len();
        }
    }
    0
}

/// Each message with a call; both sides behind the same C boundary.
fn cut_calls(table: &mut Table, data: &[u8]) {
    let (mut kind, mut numbers, mut len) = (0, [0; 5], 0);
    let (mut rust_kind, mut rust_numbers, mut rust_len) = (0, [0; 5], 0);
    table.race(
        "bytes cut into messages, each call",
        data.len(),
        &mut || {
            let mut chunks = snap::delta_chunks(black_box(10), 4, black_box(data), 7);
            loop {
                rust_chunk(
                    &mut chunks,
                    &mut rust_kind,
                    &mut rust_numbers,
                    &mut rust_len,
                );
                if black_box(rust_kind) == 0 {
                    break;
                }
            }
        },
        &mut || {
            for i in 0.. {
                let data = black_box(data);
                messages::plain_chunk(10, 4, data, 7, i, &mut kind, &mut numbers, &mut len);
                if black_box(kind) == 0 {
                    break;
                }
            }
        },
    );
    assert!((kind, numbers, len) == (rust_kind, rust_numbers, rust_len));
}

/// The parts of a delta.
fn parts_of(list: &[Call]) -> Vec<([i32; 5], &[u8])> {
    list.iter()
        .map(|call| match call {
            Call::Snap(numbers, data) => (*numbers, &data[..]),
            _ => unreachable!("more than one part"),
        })
        .collect()
}

fn receive(table: &mut Table, name: &str, len: usize, list: &[Call]) {
    let parts = parts_of(list);
    let (mut rust, mut port) = (DeltaReceiver::new(), Receiver::new());
    let (mut area, mut joined) = (vec![0; AREA_BYTES], vec![0; AREA_BYTES]);
    table.race(
        name,
        len,
        &mut || {
            rust.reset();
            for (numbers, data) in &parts {
                let snap = oracle::snap(numbers, black_box(data));
                let _ = black_box(rust.snap(&mut libtw2_warn::Ignore, snap));
            }
        },
        &mut || {
            port.reset();
            for (numbers, data) in &parts {
                let snap = calls::snap(oracle::snap(numbers, black_box(data)));
                let _ = black_box(port.snap(snap, &mut area, &mut joined));
            }
        },
    );
}

/// `cef_receiver_snap` in Rust, with its own areas.
#[inline(never)]
extern "C" fn rust_snap(
    receiver: &mut DeltaReceiver,
    tick: i32,
    delta_tick: i32,
    num_parts: i32,
    part: i32,
    crc: i32,
    data: *const u8,
    data_len: usize,
    outputs: &mut Outputs,
    warnings: &mut [usize; cefdugar::WARNINGS],
) -> u32 {
    // SAFETY: called below with a slice's own pointer and length.
    let data = unsafe { std::slice::from_raw_parts(data, data_len) };
    let snap = msg::Snap {
        tick,
        delta_tick,
        num_parts,
        part,
        crc,
        data,
    };
    let mut tally = Tally::default();
    let result = receiver.snap(&mut tally, snap);
    *warnings = (tally.0).0;
    match result {
        Ok(None) => outputs.kind = 0,
        Ok(Some(delta)) => match delta.data_and_crc {
            Some((bytes, crc)) => {
                outputs.kind = 1;
                outputs.received = [delta.tick, delta.delta_tick, crc];
                outputs.len = bytes.len();
            }
            None => {
                outputs.kind = 2;
                outputs.received = [delta.tick, delta.delta_tick, 0];
                outputs.len = 0;
            }
        },
        Err(error) => return error.number(),
    }
    0
}

/// What a call of the Rust's side sets beside its receiver.
struct Left {
    outputs: Outputs,
    warnings: Warnings,
}

impl Left {
    fn new() -> Left {
        Left {
            outputs: Outputs::NONE,
            warnings: Warnings::default(),
        }
    }
}

/// All parts of a delta to the Rust's receiver, each with a call.
fn rust_snaps(rust: &mut DeltaReceiver, parts: &[([i32; 5], &[u8])], left: &mut Left) {
    rust.reset();
    for ([tick, delta_tick, num_parts, part, crc], data) in parts {
        let data = black_box(data);
        black_box(rust_snap(
            rust,
            *tick,
            *delta_tick,
            *num_parts,
            *part,
            *crc,
            data.as_ptr(),
            data.len(),
            &mut left.outputs,
            &mut left.warnings.0,
        ));
    }
}

/// Each part with a call; both sides behind the same C boundary.
fn receive_calls(table: &mut Table, name: &str, len: usize, list: &[Call]) {
    let parts = parts_of(list);
    let (mut rust, mut port) = (DeltaReceiver::new(), Receiver::new());
    let (mut area, mut joined) = (vec![0; AREA_BYTES], vec![0; AREA_BYTES]);
    let (mut rust_left, mut left) = (Left::new(), Left::new());
    table.race(
        name,
        len,
        &mut || rust_snaps(&mut rust, &parts, &mut rust_left),
        &mut || {
            port.reset();
            for (numbers, data) in &parts {
                black_box(port.plain_snap(
                    *numbers,
                    black_box(data),
                    &mut area,
                    &mut joined,
                    &mut left.outputs,
                    &mut left.warnings,
                ));
            }
        },
    );
    let said = |left: Left| (left.outputs, comparable(left.warnings));
    assert!(said(left) == said(rust_left));
}

/// Only what those calls have to copy, compared with the Rust's calls.
fn copies(table: &mut Table, name: &str, len: usize, list: &[Call]) {
    let parts = parts_of(list);
    let mut rust = DeltaReceiver::new();
    let (mut area, mut joined) = (vec![0; AREA_BYTES], vec![0; AREA_BYTES]);
    let mut left = Left::new();
    table.race(
        name,
        len,
        &mut || rust_snaps(&mut rust, &parts, &mut left),
        &mut || {
            for ([_, _, _, part, _], data) in &parts {
                let (at, data) = (PART_BYTES * *part as usize, black_box(data));
                black_box(&mut area)[at..at + data.len()].copy_from_slice(data);
            }
            black_box(&mut joined)[..len].copy_from_slice(&black_box(&area)[..len]);
        },
    );
}
