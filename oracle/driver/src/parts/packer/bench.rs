//! Times of packed integers.
//!
//! `unpack`: all ints of a byte string in one call, compared with the Rust's loop
//! as its users write it. `write_int each`: one call of the port for each int,
//! compared with such a loop. `each call`: the Rust behind the port's C boundary.

use super::oracle;
use crate::core::bench::Table;
use crate::core::oracle::Tally;
use crate::core::random::Random;
use cefdugar::plain;
use cefdugar::Warnings;
use libtw2_packer::with_packer;
use libtw2_packer::Unpacker;
use std::hint::black_box;

// The longest mixed list takes about 786,000 bytes, within the limit of 1,048,576.
const SIZES: [usize; 4] = [1_000, 2_000, 131_072, 262_144];

/// Ints of one byte each, or of one to five.
fn lists(size: usize) -> [(&'static str, Vec<i32>); 2] {
    let mut random = Random::new(1, "bench", size as u64);
    let short = (0..size).map(|_| random.below(128) as i32 - 64).collect();
    let mixed = (0..size)
        .map(|_| {
            let bits = random.pick(&[6, 13, 20, 27, 31]);
            let digits = (random.bits() as i32) & ((1u32 << bits) - 1) as i32;
            let top = 1 << (bits - 1);
            (digits | top) ^ -(random.below(2) as i32)
        })
        .collect();
    [("1 byte", short), ("1 to 5 bytes", mixed)]
}

pub fn bench(table: &mut Table) {
    const OPERATIONS: [fn(&mut Table, &str, &[i32]); 4] = [read_calls, unpack, write, write_calls];
    for index in 0..2 {
        for operation in OPERATIONS {
            for size in SIZES {
                let (name, list) = &lists(size)[index];
                operation(table, name, list);
            }
        }
    }
}

/// `cef_read_int` in Rust.
#[inline(never)]
extern "C" fn rust_read_int(
    src: *const u8,
    src_len: usize,
    at: usize,
    value: &mut i32,
    next: &mut usize,
    warnings: &mut [usize; cefdugar::WARNINGS],
) -> u32 {
    // SAFETY: called below with a slice's own pointer and length.
    let src = unsafe { std::slice::from_raw_parts(src, src_len) };
    let mut tally = Tally::default();
    let mut unpacker = Unpacker::new(src.get(at..).unwrap_or(&[]));
    let read = unpacker.read_int(&mut tally);
    *warnings = (tally.0).0;
    match read {
        Ok(int) => {
            *value = int;
            *next = at + unpacker.num_bytes_read();
            0
        }
        Err(libtw2_packer::UnexpectedEnd) => 1,
    }
}

/// `cef_write_int` in Rust.
#[inline(never)]
extern "C" fn rust_write_int(
    out: *mut u8,
    out_len: usize,
    at: usize,
    value: i32,
    next: &mut usize,
) -> u32 {
    // SAFETY: called below with a slice's own pointer and length.
    let out = unsafe { std::slice::from_raw_parts_mut(out, out_len) };
    let Some(rest) = out.get_mut(at..) else {
        return 40;
    };
    with_packer(rest, |mut packer| match packer.write_int(value) {
        Ok(()) => {
            *next = at + packer.written().len();
            0
        }
        Err(libtw2_buffer::CapacityError) => 40,
    })
}

/// Reads each int with a call; the ints are added up.
fn read_by(
    bytes: &[u8],
    mut call: impl FnMut(&[u8], usize, &mut i32, &mut usize, &mut Warnings) -> u32,
) -> (i32, Warnings) {
    let mut warnings = Warnings::default();
    let (mut value, mut at, mut next, mut sum) = (0, 0, 0, 0i32);
    while call(bytes, at, &mut value, &mut next, &mut warnings) == 0 {
        sum = sum.wrapping_add(value);
        at = next;
    }
    (sum, warnings)
}

/// Writes each int with a call; returns the place after the last.
fn write_by(
    list: &[i32],
    out: &mut [u8],
    mut call: impl FnMut(&mut [u8], usize, i32, &mut usize) -> u32,
) -> usize {
    let (mut at, mut next) = (0, 0);
    for &int in list {
        if call(out, at, int, &mut next) != 0 {
            break;
        }
        at = next;
    }
    at
}

/// Reads each int with a call; both sides behind the same C boundary.
fn read_calls(table: &mut Table, name: &str, list: &[i32]) {
    let bytes = oracle::packed(list);
    table.race(
        &format!("read_int each call, {name}"),
        list.len(),
        &mut || {
            black_box(read_by(
                black_box(&bytes),
                |src, at, value, next, warnings| {
                    rust_read_int(src.as_ptr(), src.len(), at, value, next, &mut warnings.0)
                },
            ));
        },
        &mut || {
            black_box(read_by(black_box(&bytes), plain::read_int));
        },
    );
}

/// Reads all ints into an area.
fn unpack(table: &mut Table, name: &str, list: &[i32]) {
    let bytes = oracle::packed(list);
    let mut unpacked = oracle::Unpacked {
        ints: Vec::with_capacity(list.len()),
        cut: false,
    };
    // One int for each byte, as reading bytes requires of scratch.
    let mut out = vec![0; bytes.len()];
    table.race(
        &format!("unpack, {name}"),
        list.len(),
        &mut || {
            let said = oracle::unpack(black_box(&bytes), &mut unpacked);
            let _ = black_box((said, &unpacked));
        },
        &mut || {
            let said = cefdugar::unpack(black_box(&bytes), &mut out);
            let _ = black_box((said, &out));
        },
    );
    assert!(unpacked.ints == list && out[..list.len()] == *list);
}

/// Writes each int after the other.
fn write(table: &mut Table, name: &str, list: &[i32]) {
    let bytes = oracle::packed(list);
    let (mut rust_out, mut port_out) = (vec![0; bytes.len()], vec![0; bytes.len()]);
    table.race(
        &format!("write_int each, {name}"),
        list.len(),
        &mut || {
            let written = with_packer(&mut rust_out[..], |mut packer| {
                for &int in black_box(list) {
                    packer.write_int(int)?;
                }
                Ok::<_, libtw2_buffer::CapacityError>(packer.written().len())
            });
            let _ = black_box(written);
        },
        &mut || {
            black_box(write_by(black_box(list), &mut port_out, plain::write_int));
        },
    );
    assert!(rust_out == bytes && port_out == bytes);
}

fn write_calls(table: &mut Table, name: &str, list: &[i32]) {
    let bytes = oracle::packed(list);
    let (mut rust_out, mut port_out) = (vec![0; bytes.len()], vec![0; bytes.len()]);
    table.race(
        &format!("write_int each call, {name}"),
        list.len(),
        &mut || {
            black_box(write_by(
                black_box(list),
                &mut rust_out,
                |out, at, value, next| rust_write_int(out.as_mut_ptr(), out.len(), at, value, next),
            ));
        },
        &mut || {
            black_box(write_by(black_box(list), &mut port_out, plain::write_int));
        },
    );
    assert!(rust_out == bytes && port_out == bytes);
}
