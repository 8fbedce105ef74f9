//! The readers: one of the Rust's goes through its whole input, and the port's
//! is compared with it at each of its places.

use super::calls::answer;
use super::calls::LEFT_WARNINGS;
use super::oracle;
use super::oracle::Stood;
use crate::core::area::LEFT_FLAG;
use crate::core::area::LEFT_INT;
use crate::core::area::LEFT_SIZE;
use crate::core::report::Compared;
use crate::core::report::Difference;
use crate::core::report::Run;
use crate::core::report::Shown;
use crate::core::text::hex_short;
use cefdugar::plain;
use cefdugar::Standing;
use cefdugar::Warnings;
use libtw2_packer::IntUnpacker;
use libtw2_packer::Unpacker;

/// What the caller holds after a read.
#[derive(Clone, Copy, Debug, PartialEq)]
struct Read {
    number: u32,
    value: i32,
    next: usize,
    left: usize,
    empty: u32,
    warnings: Warnings,
}

const LEFT: Read = Read {
    number: 0,
    value: LEFT_INT,
    next: LEFT_SIZE,
    left: LEFT_SIZE,
    empty: LEFT_FLAG,
    warnings: LEFT_WARNINGS,
};

/// Places in and outside of `len` entries.
fn places(len: usize) -> [usize; 6] {
    [0, 1, len - 1, len, len + 1, usize::MAX]
}

impl Stood {
    fn read(&self) -> Read {
        let number = self.said.number();
        if number == 42 {
            return Read {
                number,
                warnings: self.warnings,
                ..LEFT
            };
        }
        Read {
            number,
            value: self.said.clone().value_or(LEFT_INT),
            next: self.standing.at,
            left: self.standing.left,
            empty: self.standing.empty.into(),
            warnings: self.warnings,
        }
    }
}

/// A reader over the bytes of `src`.
pub fn bytes(run: &mut Run, src: &[u8]) -> Result<(), Difference> {
    let compared = compare_bytes(src);
    run.case(
        compared,
        || src.to_vec(),
        |src| compare_bytes(src),
        |src| format!("a reader over {}", hex_short(src)),
    )
}

/// A reader over the bytes of `src` at place `at`, also outside.
pub fn bytes_at(run: &mut Run, src: &[u8], at: usize) -> Result<(), Difference> {
    let compared = compare_bytes_at(src, at);
    run.case(
        compared,
        || (src.to_vec(), at),
        |(src, at)| compare_bytes_at(src, *at),
        |(src, at)| format!("a reader at {at} of {}", hex_short(src)),
    )
}

/// A reader over the ints of `src`.
pub fn ints(run: &mut Run, src: &[i32]) -> Result<(), Difference> {
    let compared = compare_ints(src);
    run.case(
        compared,
        || src.to_vec(),
        |src| compare_ints(src),
        |src| format!("a reader over {src:?}"),
    )
}

fn compare_bytes(src: &[u8]) -> Compared {
    if oracle::too_long(src.len()) {
        for at in places(src.len()) {
            compare_byte_read(src, at, &oracle::refused_as_too_long(src.len(), at))?;
        }
        return Ok(());
    }
    let mut unpacker = Unpacker::new(src);
    // At the end it reads once more.
    loop {
        let ended = unpacker.is_empty();
        let at = unpacker.num_bytes_read();
        compare_byte_read(src, at, &oracle::unpacker_read_int(0, &mut unpacker))?;
        if ended {
            return Ok(());
        }
    }
}

fn compare_bytes_at(src: &[u8], at: usize) -> Compared {
    compare_byte_read(src, at, &oracle::unpacker_read_int_at(src, at))
}

fn compare_byte_read(src: &[u8], at: usize, stood: &Stood) -> Compared {
    let mut port = LEFT;
    port.number = plain::unpacker_read_int(
        src,
        at,
        &mut port.value,
        &mut port.next,
        &mut port.left,
        &mut port.empty,
        &mut port.warnings,
    );
    Shown::compare(&(at, stood.read()), &(at, port))?;
    let (said, standing, warnings) = cefdugar::unpacker_read_int(src, at);
    compare_safe(stood, said, standing, warnings)
}

fn compare_ints(src: &[i32]) -> Compared {
    if oracle::too_long(src.len()) {
        for at in places(src.len()) {
            compare_int_read(src, at, &oracle::refused_as_too_long(src.len(), at))?;
        }
        return Ok(());
    }
    let mut unpacker = IntUnpacker::new(src);
    for at in (0..=src.len() + 1).chain([usize::MAX]) {
        let stood = oracle::int_unpacker_read_int(src.len(), &mut unpacker);
        compare_int_read(src, at, &stood)?;
    }
    Ok(())
}

fn compare_int_read(src: &[i32], at: usize, stood: &Stood) -> Compared {
    let mut port = Read {
        warnings: Warnings::default(),
        ..LEFT
    };
    port.number = plain::int_unpacker_read_int(
        src,
        at,
        &mut port.value,
        &mut port.next,
        &mut port.left,
        &mut port.empty,
    );
    Shown::compare(&(at, stood.read()), &(at, port))?;
    let (said, standing) = cefdugar::int_unpacker_read_int(src, at);
    compare_safe(stood, said, standing, Warnings::default())
}

fn compare_safe(
    stood: &Stood,
    said: Result<i32, cefdugar::Refusal>,
    standing: Standing,
    warnings: Warnings,
) -> Compared {
    let read = stood.read();
    let expected = answer(read.number, read.value);
    Shown::compare(
        &(expected, stood.standing, stood.warnings),
        &(said, standing, warnings),
    )
}
