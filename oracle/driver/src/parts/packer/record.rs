//! Recorded answers on packed integers.
//!
//!     r AT HEX        VALUE NEXT OVERLONG, or refused NUMBER
//!     b AT HEX        by a reader: VALUE AT LEFT EMPTY OVERLONG, or refused NUMBER AT LEFT EMPTY
//!     i AT INT..      the same by a reader over ints
//!     w ROOM AT INT   NEXT HEX, or refused 40 HEX (an area of ROOM bytes aa)
//!     u ROOM HEX      COUNT CUT OVERLONG INT.., or refused NUMBER OVERLONG

use super::inputs;
use super::oracle;
use super::oracle::Stood;
use crate::core::damage::damage;
use crate::core::random::Random;
use crate::core::record::Record;
use crate::core::text::hex;
use crate::core::told::Told;
use cefdugar::Warnings;
use libtw2_packer::IntUnpacker;

const MOST_BYTES: usize = 64;
const MOST_INTS: usize = 64;
const MOST_ROOM: usize = 16;

/// A place far outside, of ten digits.
const FAR: usize = u32::MAX as usize;

fn overlong(warnings: &Warnings) -> usize {
    warnings.0[Warnings::OVERLONG_INT_ENCODING]
}

fn read(record: &mut Record, src: &[u8], at: usize) {
    let (said, warnings) = oracle::read_int(src, at);
    let answer = match said {
        Told::Value((value, next)) => format!("{value} {next} {}", overlong(&warnings)),
        Told::Refused(number) => format!("refused {number}"),
        Told::Panicked => unreachable!("the Rust reads without a panic"),
    };
    record.case(&format!("r {at} {}", hex(src)), &answer);
    let stood = oracle::unpacker_read_int_at(src, at);
    record.case(&format!("b {at} {}", hex(src)), &standing(&stood));
}

/// What a reader answered.
fn standing(stood: &Stood) -> String {
    let at = stood.standing.at;
    let left = stood.standing.left;
    let empty = u32::from(stood.standing.empty);
    match stood.said {
        Told::Value(value) => format!("{value} {at} {left} {empty} {}", overlong(&stood.warnings)),
        Told::Refused(number) => format!("refused {number} {at} {left} {empty}"),
        Told::Panicked => unreachable!("the Rust reads without a panic"),
    }
}

/// A reader over ints, at each of its places and past them.
fn read_ints(record: &mut Record, list: &[i32]) {
    assert!(list.len() <= MOST_INTS);
    let ints: String = list.iter().map(|int| format!(" {int}")).collect();
    let mut unpacker = IntUnpacker::new(list);
    for at in (0..=list.len() + 1).chain([FAR]) {
        let stood = oracle::int_unpacker_read_int(list.len(), &mut unpacker);
        record.case(&format!("i {at}{ints}"), &standing(&stood));
    }
}

fn write(record: &mut Record, room: usize, at: usize, int: i32) {
    assert!(room <= MOST_ROOM);
    let mut out = vec![0xaa; room];
    let answer = match oracle::write_int(&mut out, at, int) {
        Told::Value(next) => format!("{next} {}", hex(&out)),
        Told::Refused(number) => format!("refused {number} {}", hex(&out)),
        Told::Panicked => unreachable!("the Rust writes without a panic"),
    };
    record.case(&format!("w {room} {at} {int}"), &answer);
}

fn unpack(record: &mut Record, src: &[u8], spare: isize) {
    assert!(src.len() <= MOST_BYTES);
    let mut unpacked = oracle::Unpacked::default();
    let (said, warnings) = oracle::unpack_any(src, &mut unpacked);
    let needed = unpacked.ints.len();
    let room = (needed as isize + spare).clamp(0, MOST_INTS as isize) as usize;
    let overlong = overlong(&warnings);
    let answer = match said {
        Told::Value(()) if needed > room => format!("refused 40 {overlong}"),
        Told::Value(()) => {
            let cut = u32::from(unpacked.cut);
            let ints: String = unpacked.ints.iter().map(|int| format!(" {int}")).collect();
            format!("{needed} {cut} {overlong}{ints}")
        }
        Told::Refused(number) => format!("refused {number} {overlong}"),
        Told::Panicked => unreachable!("the Rust reads without a panic"),
    };
    record.case(&format!("u {room} {}", hex(src)), &answer);
}

/// The marked cases of docs/FORMAT.md, the boundaries, then random ones.
pub fn fill(record: &mut Record, random: &mut Random) {
    marked(record);
    boundaries(record);
    random_cases(record, random);
}

fn marked(record: &mut Record) {
    for (int, bytes) in inputs::MARKED {
        read(record, bytes, 0);
        write(record, bytes.len(), 0, int);
    }
    read(record, &[0x80, 0x00], 0);
    for int in inputs::FIVE_BYTES {
        read(record, &int, 0);
        unpack(record, &int, 0);
    }
    let list = inputs::MARKED.map(|(int, _)| int);
    unpack(record, &oracle::packed(&list), 0);
    read_ints(record, &list);
}

fn boundaries(record: &mut Record) {
    // The limits of each length in bytes, both signs, with room and without.
    for digits in [6, 13, 20, 27, 31] {
        let last = ((1u32 << digits) - 1) as i32;
        for int in [last, last.wrapping_add(1), !last, !last.wrapping_add(1)] {
            let bytes = oracle::packed(&[int]);
            read(record, &bytes, 0);
            write(record, bytes.len() + 1, 1, int);
            write(record, bytes.len(), 1, int);
            write(record, bytes.len() - 1, 0, int);
        }
    }
    // Every end inside an int, and places outside.
    let whole = [0x80, 0x80, 0x80, 0x80, 0x01, 0x02];
    for len in 0..whole.len() {
        for at in 0..=len + 1 {
            read(record, &whole[..len], at);
        }
        unpack(record, &whole[..len], 0);
        unpack(record, &whole[..len], 1);
    }
    read(record, &[], FAR);
    read(record, &whole, FAR);
    write(record, 0, 0, 0);
    write(record, 1, 2, 0);
    write(record, 16, 16, 0);
    write(record, 16, 15, 0);
    write(record, 16, 11, i32::MIN);
    write(record, 16, 12, i32::MIN);
    write(record, 16, FAR, i32::MIN);
    // Each bit of the fifth byte, with either sign.
    for first in [0x80, 0xff] {
        for fifth in [0x00, 0x01, 0x02, 0x04, 0x08, 0x10, 0x20, 0x40, 0x80, 0xff] {
            read(record, &[first, 0x80, 0x80, 0x80, fifth], 0);
        }
    }
    // Overlong ints of each length.
    for len in 1..=5 {
        for first in [0x80, 0xc0, 0xbf] {
            let mut bytes = vec![0x80; len];
            bytes[0] = if len == 1 { first & 0x7f } else { first };
            if len > 1 {
                bytes[len - 1] = 0;
            }
            read(record, &bytes, 0);
        }
    }
    // As many ints as a replay takes, and rooms close to it.
    for spare in [-64, -1, 0] {
        unpack(record, &[0x40; 64], spare);
        unpack(record, &[0xff, 0xff, 0xff, 0xff, 0x0f].repeat(12), spare);
        unpack(record, &[0x80, 0x80, 0x80, 0x80, 0x00].repeat(12), spare);
    }
    // A padded int first, last and between, with room for none, for those before
    // it, and for all.
    for src in inputs::with_five_bytes(&[-65, 3]) {
        for spare in [-64, 0, 64] {
            unpack(record, &src, spare);
        }
    }
    unpack(record, &[], 0);
    unpack(record, &[], 3);
    read_ints(record, &[]);
    read_ints(record, &[i32::MAX, -1, i32::MIN]);
}

fn random_cases(record: &mut Record, random: &mut Random) {
    for _ in 0..150 {
        let len = random.between(1, 8);
        let src = inputs::bytes(len, random);
        let at = random.below(len + 1) * random.below(2);
        read(record, &src, at);
    }
    for _ in 0..130 {
        let room = random.below(MOST_ROOM + 1);
        let at = room.saturating_sub(random.below(7));
        write(record, room, at, random.int());
    }
    for i in 0..130 {
        let len = random.below(if i % 4 == 0 { MOST_BYTES + 1 } else { 20 });
        let mut src = inputs::bytes(len, random);
        if i % 2 == 0 {
            let list: Vec<i32> = (0..len / 4).map(|_| random.int()).collect();
            src = oracle::packed(&list);
            damage(&mut src, random);
            src.truncate(MOST_BYTES);
            if i % 16 == 2 {
                read_ints(record, &list);
            }
        }
        let spare = random.pick(&[0, 0, 1, 2, -1, -2, -64]);
        unpack(record, &src, spare);
    }
}
