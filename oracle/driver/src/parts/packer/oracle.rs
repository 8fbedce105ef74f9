//! The Rust's answers on packed integers, or those of docs/FORMAT.md if the Rust
//! has no such call or another rule: a place outside the bytes, ints that do not
//! fit, more entries than a call reads, and padding bits that are set.

use crate::core::oracle::Number;
use crate::core::oracle::Tally;
use crate::core::padding::is_padded;
use crate::core::padding::padded_at;
use crate::core::told::told;
use crate::core::told::Told;
use cefdugar::table;
use cefdugar::Standing;
use cefdugar::Warnings;
use libtw2_packer::with_packer;
use libtw2_packer::IntUnpacker;
use libtw2_packer::Unpacker;

/// Whether so many entries are refused.
pub fn too_long(len: usize) -> bool {
    len > table::INPUT
}

/// The int at place `at`, and the place after it.
pub fn read_int(src: &[u8], at: usize) -> (Told<(i32, usize)>, Warnings) {
    let mut tally = Tally::default();
    if too_long(src.len()) {
        return (Told::Refused(42), tally.0);
    }
    let Some(rest) = src.get(at..) else {
        return (Told::Refused(1), tally.0);
    };
    if is_padded(rest) {
        return (Told::Refused(52), tally.0);
    }
    let said = told(|| {
        let mut unpacker = Unpacker::new(rest);
        match unpacker.read_int(&mut tally) {
            Ok(int) => Ok((int, at + unpacker.num_bytes_read())),
            Err(error) => Err(error.number()),
        }
    });
    (said, tally.0)
}

/// The answer of a reader, and its position afterwards.
pub struct Stood {
    pub said: Told<i32>,
    pub standing: Standing,
    pub warnings: Warnings,
}

/// A reader at place `at` of too many entries: it stays there.
pub fn refused_as_too_long(len: usize, at: usize) -> Stood {
    Stood {
        said: Told::Refused(42),
        standing: Standing {
            at,
            left: len.saturating_sub(at),
            empty: len <= at,
        },
        warnings: Warnings::default(),
    }
}

/// The next int of a reader whose bytes begin at place `from`. One that is
/// padded moves the reader to the end, as an int that is cut does.
pub fn unpacker_read_int(from: usize, unpacker: &mut Unpacker) -> Stood {
    let mut tally = Tally::default();
    let said = if is_padded(unpacker.as_slice()) {
        assert!(unpacker.read_rest().is_ok());
        Told::Refused(52)
    } else {
        told(|| {
            unpacker
                .read_int(&mut tally)
                .map_err(|error| error.number())
        })
    };
    Stood {
        said,
        standing: Standing {
            at: from + unpacker.num_bytes_read(),
            left: unpacker.as_slice().len(),
            empty: unpacker.is_empty(),
        },
        warnings: tally.0,
    }
}

/// The same for a reader at any place; outside the bytes, one at their end.
pub fn unpacker_read_int_at(src: &[u8], at: usize) -> Stood {
    let from = at.min(src.len());
    unpacker_read_int(from, &mut Unpacker::new(&src[from..]))
}

/// The next int of a reader over `len` ints.
pub fn int_unpacker_read_int(len: usize, unpacker: &mut IntUnpacker) -> Stood {
    let said = told(|| unpacker.read_int().map_err(|error| error.number()));
    Stood {
        said,
        standing: Standing {
            at: len - unpacker.as_slice().len(),
            left: unpacker.as_slice().len(),
            empty: unpacker.is_empty(),
        },
        warnings: Warnings::default(),
    }
}

/// The place after the int.
pub fn write_int(out: &mut [u8], at: usize, int: i32) -> Told<usize> {
    let Some(rest) = out.get_mut(at..) else {
        return Told::Refused(40);
    };
    told(|| {
        with_packer(rest, |mut packer| match packer.write_int(int) {
            Ok(()) => Ok(at + packer.written().len()),
            Err(error) => Err(error.number()),
        })
    })
}

/// All ints of some bytes, as `RawSnap::read` reads them.
#[derive(Clone, Debug, Default, Eq, PartialEq)]
pub struct Unpacked {
    pub ints: Vec<i32>,
    pub cut: bool,
}

/// Reads all ints of `src`, of which none is padded, into `unpacked`.
pub fn unpack(src: &[u8], unpacked: &mut Unpacked) -> (Told<()>, Warnings) {
    let mut tally = Tally::default();
    unpacked.ints.clear();
    unpacked.cut = false;
    let said = told(|| {
        let mut unpacker = Unpacker::new(src);
        while !unpacker.is_empty() {
            match unpacker.read_int(&mut tally) {
                Ok(int) => unpacked.ints.push(int),
                Err(libtw2_packer::UnexpectedEnd) => {
                    unpacked.cut = true;
                    break;
                }
            }
        }
        Ok(())
    });
    (said, tally.0)
}

/// The ints of some bytes, of which none is padded.
pub fn ints_of(src: &[u8]) -> Vec<i32> {
    let mut unpacked = Unpacked::default();
    let (said, _) = unpack(src, &mut unpacked);
    assert!(said == Told::Value(()));
    unpacked.ints
}

/// The answer for any bytes. A padded int refuses them; `unpacked` then has the
/// ints before it.
pub fn unpack_any(src: &[u8], unpacked: &mut Unpacked) -> (Told<()>, Warnings) {
    let padded = padded_at(src);
    let (said, warnings) = unpack(&src[..padded.unwrap_or(src.len())], unpacked);
    match said {
        Told::Value(()) if too_long(src.len()) => (Told::Refused(42), Warnings::default()),
        Told::Value(()) if padded.is_some() => (Told::Refused(52), warnings),
        said => (said, warnings),
    }
}

/// What refuses a table of these bytes before its header is looked at: a padded
/// int, with the Rust's warnings about those before it.
pub fn refused_as_padded<T>(src: &[u8]) -> Option<(Told<T>, Warnings)> {
    let (said, warnings) = unpack(&src[..padded_at(src)?], &mut Unpacked::default());
    assert!(said == Told::Value(()));
    Some((Told::Refused(52), warnings))
}

/// The bytes of `list`, one int after the other.
pub fn packed(list: &[i32]) -> Vec<u8> {
    let mut bytes = Vec::with_capacity(5 * list.len());
    with_packer(&mut bytes, |mut packer| {
        for &int in list {
            packer.write_int(int).expect("five bytes an int suffice");
        }
    });
    bytes
}
