//! Packed integers: `read_int`, `write_int`, `unpack`, and the readers.

mod bench;
mod calls;
mod inputs;
mod oracle;
mod readers;
mod record;

use super::Part;
use super::Rounds;
use crate::core::damage::damage;
use crate::core::random::Random;
use crate::core::report::Difference;
use crate::core::report::Length;
use crate::core::report::Run;
use calls::Calls;
use cefdugar::table;

pub use inputs::loose;
pub use inputs::numbered;
pub use inputs::with_five_bytes;
pub use inputs::with_twice_five_bytes;
pub use inputs::FIVE_BYTES;
pub use inputs::MARKED;
pub use oracle::ints_of;
pub use oracle::packed;
pub use oracle::refused_as_padded;

pub fn part() -> Part {
    Part {
        name: "packer",
        rounds: Rounds {
            quick: 20,
            full: 20_000,
        },
        compare,
        record: Some(record::fill),
        bench: Some(bench::bench),
    }
}

type Result = std::result::Result<(), Difference>;

fn compare(run: &mut Run) -> Result {
    let mut calls = Calls::new();
    short_strings(run, &mut calls)?;
    telling_strings(run, &mut calls)?;
    fifth_bytes(run, &mut calls)?;
    ints(run, &mut calls)?;
    lists(run, &mut calls)?;
    long_lists(run)?;
    for round in 0..run.rounds {
        let mut random = run.random(round);
        random_ints(run, &mut calls, &mut random)?;
        random_strings(run, &mut calls, &mut random)?;
        damaged_lists(run, &mut calls, &mut random)?;
    }
    Ok(())
}

/// Reads at every place of `src` and outside it.
fn read_everywhere(run: &mut Run, calls: &mut Calls, src: &[u8]) -> Result {
    for at in (0..=src.len() + 2).chain(inputs::FAR) {
        calls.read(run, src, at)?;
        readers::bytes_at(run, src, at)?;
    }
    readers::bytes(run, src)
}

/// Unpacks `src` into an area of exactly enough room, one less, one more, none,
/// and at least an int for each byte.
fn unpack_all_rooms(run: &mut Run, calls: &mut Calls, src: &[u8]) -> Result {
    for spare in [0, -1, 1, isize::MIN, src.len() as isize] {
        calls.unpack(run, src, spare)?;
    }
    Ok(())
}

/// All byte strings of up to two bytes in every way, all of three, and in a
/// full run all of four.
fn short_strings(run: &mut Run, calls: &mut Calls) -> Result {
    read_everywhere(run, calls, &[])?;
    unpack_all_rooms(run, calls, &[])?;
    for a in 0..=255 {
        read_everywhere(run, calls, &[a])?;
        unpack_all_rooms(run, calls, &[a])?;
        for b in 0..=255 {
            read_everywhere(run, calls, &[a, b])?;
            unpack_all_rooms(run, calls, &[a, b])?;
            for c in 0..=255 {
                calls.read(run, &[a, b, c], 0)?;
                readers::bytes(run, &[a, b, c])?;
                for spare in [1, 0, -1] {
                    calls.unpack(run, &[a, b, c], spare)?;
                }
                if run.length == Length::Full {
                    for d in 0..=255 {
                        calls.read(run, &[a, b, c, d], 0)?;
                        calls.unpack(run, &[a, b, c, d], 1)?;
                    }
                }
            }
        }
    }
    Ok(())
}

/// All strings of four to six bytes over a small alphabet: what the fourth
/// byte, the fifth and the one after it do.
fn telling_strings(run: &mut Run, calls: &mut Calls) -> Result {
    for len in 4..=6 {
        for number in 0..inputs::TELLING.len().pow(len) {
            let src = inputs::numbered(number, len, &inputs::TELLING);
            calls.read(run, &src, 0)?;
            readers::bytes(run, &src)?;
            calls.unpack(run, &src, 1)?;
            calls.unpack(run, &src, len as isize)?;
        }
    }
    Ok(())
}

/// Every fifth byte, after four of several sorts; alone, and with ints before and
/// after it. Lists with ints of five bytes in every two places.
fn fifth_bytes(run: &mut Run, calls: &mut Calls) -> Result {
    let fronts: [&[u8]; 3] = [&[], &[0x80, 0x00], &[0x05, 0xc0, 0x80, 0x00]];
    let ends: [&[u8]; 3] = [&[], &[0x07], &[0x80, 0x00, 0x80]];
    for number in 0..2usize.pow(4) {
        let four = inputs::numbered(number, 4, &[0x80, 0xff]);
        for fifth in 0..=255 {
            for (front, end) in fronts.iter().flat_map(|a| ends.map(|b| (a, b))) {
                let src = [front, &four[..], &[fifth], end].concat();
                read_everywhere(run, calls, &src)?;
                unpack_all_rooms(run, calls, &src)?;
            }
        }
    }
    for src in inputs::with_twice_five_bytes(&[0, -65, 8_192, 1]) {
        read_everywhere(run, calls, &src)?;
        unpack_all_rooms(run, calls, &src)?;
    }
    Ok(())
}

/// Writes `int` into areas of every room, at several places.
fn write_all_rooms(run: &mut Run, calls: &mut Calls, int: i32) -> Result {
    for at in [0, 1, 7] {
        for room in 0..=6 {
            calls.write(run, at + room, at, int)?;
        }
    }
    Ok(())
}

/// All ints around each boundary and all small ones.
fn ints(run: &mut Run, calls: &mut Calls) -> Result {
    for int in inputs::boundary_ints() {
        write_all_rooms(run, calls, int)?;
        for len in 0..=6 {
            for at in len + 1..=len + 3 {
                calls.write(run, len, at, int)?;
            }
            for at in inputs::FAR {
                calls.write(run, len, at, int)?;
            }
        }
    }
    for int in -70_000..=70_000 {
        write_all_rooms(run, calls, int)?;
    }
    Ok(())
}

/// All lists of up to four ints over a small alphabet, written and unpacked.
fn lists(run: &mut Run, calls: &mut Calls) -> Result {
    for len in 0..=4 {
        for number in 0..inputs::LIST_INTS.len().pow(len) {
            let list = inputs::numbered(number, len, &inputs::LIST_INTS);
            calls.write_list(run, &list)?;
            readers::ints(run, &list)?;
            unpack_all_rooms(run, calls, &oracle::packed(&list))?;
        }
    }
    Ok(())
}

/// Readers over lists around the most ints that are read.
fn long_lists(run: &mut Run) -> Result {
    for len in [table::INPUT - 1, table::INPUT, table::INPUT + 1] {
        let list: Vec<i32> = (0..len).map(|at| at as i32).collect();
        readers::ints(run, &list)?;
    }
    Ok(())
}

fn random_ints(run: &mut Run, calls: &mut Calls, random: &mut Random) -> Result {
    for _ in 0..10_000 {
        let int = if random.chance(1, 2) {
            random.int()
        } else {
            random.bits() as i32
        };
        let at = random.below(12);
        let room = random.below(8);
        calls.write(run, at + room, at, int)?;
    }
    Ok(())
}

fn random_strings(run: &mut Run, calls: &mut Calls, random: &mut Random) -> Result {
    for (len, times) in inputs::LENGTHS {
        for _ in 0..times {
            let src = inputs::bytes(len, random);
            unpack_all_rooms(run, calls, &src)?;
            if len <= 1_000 {
                read_everywhere(run, calls, &src)?;
            } else {
                readers::bytes(run, &src)?;
                for _ in 0..20 {
                    let at = random.below(len + 2);
                    calls.read(run, &src, at)?;
                }
                for at in len - 6..=len + 1 {
                    calls.read(run, &src, at)?;
                }
            }
        }
    }
    Ok(())
}

fn damaged_lists(run: &mut Run, calls: &mut Calls, random: &mut Random) -> Result {
    for _ in 0..1_000 {
        let len = random.below(40);
        let list: Vec<i32> = (0..len).map(|_| random.int()).collect();
        calls.write_list(run, &list)?;
        readers::ints(run, &list)?;
        let mut src = oracle::packed(&list);
        for _ in 0..random.between(1, 3) {
            damage(&mut src, random);
        }
        unpack_all_rooms(run, calls, &src)?;
        readers::bytes(run, &src)?;
        let at = random.below(src.len() + 1);
        calls.read(run, &src, at)?;
    }
    Ok(())
}
