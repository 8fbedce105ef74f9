//! The Rust's answers on deltas, or those of docs/FORMAT.md if the Rust has no
//! such call or another rule: an area in form is one that begins with ints which
//! the Rust reads as a delta and would write unchanged, and a padded int is
//! refused where an end inside it would be.

use crate::core::oracle::Number;
use crate::core::oracle::Tally;
use crate::core::padding::cut_inside;
use crate::core::text::hex_short;
use crate::core::told::told;
use crate::core::told::Told;
use crate::parts::tables;
use cefdugar::delta;
use cefdugar::table;
use cefdugar::Warnings;
use libtw2_packer::with_packer;
use libtw2_packer::IntUnpacker;
use libtw2_packer::Unpacker;
use libtw2_snapshot::format;
use libtw2_snapshot::format::DeltaDifferingSizes;
use libtw2_snapshot::snap;
use libtw2_snapshot::snap::RawSnap;
use libtw2_snapshot::Delta;

/// The known size of a type.
pub fn known_size(sizes: &[i32], raw_type_id: u16) -> Option<u32> {
    let size = *sizes.get(usize::from(raw_type_id))?;
    u32::try_from(size).ok()
}

/// A delta's ints under known sizes, which take at most `room`.
pub fn written(delta: &Delta, sizes: &[i32], room: usize) -> Told<Vec<i32>> {
    told(|| {
        let mut out = vec![0; room];
        let written = delta.write_to_ints(|type_id| known_size(sizes, type_id), &mut out);
        let len = written.expect("there is room").len();
        out.truncate(len);
        Ok(out)
    })
}

/// A delta packed under known sizes, of at most `room` ints.
pub fn packed(delta: &Delta, sizes: &[i32], room: usize) -> Told<Vec<u8>> {
    told(|| {
        let mut out = Vec::with_capacity(5 * room);
        with_packer(&mut out, |packer| {
            let written = delta.write(|type_id| known_size(sizes, type_id), packer);
            assert!(written.is_ok());
        });
        Ok(out)
    })
}

/// The delta between the tables of two areas, as an area holds it. The Rust
/// panics if two items of one key differ in length.
pub fn created(base: &[i32], target: &[i32]) -> Told<Vec<i32>> {
    let (Some(base), Some(target)) = (tables::oracle::held(base), tables::oracle::held(target))
    else {
        return Told::Refused(47);
    };
    let delta = told(|| {
        let mut delta = Delta::new();
        delta.create_raw(&base, &target);
        Ok(delta)
    });
    match delta {
        Told::Value(delta) => written(&delta, &[], delta::INTS),
        Told::Refused(number) => Told::Refused(number),
        Told::Panicked => Told::Panicked,
    }
}

/// The keys that the tables of two areas share with data of different
/// lengths: the least of them, read as unsigned.
pub fn first_clash(base: &[i32], target: &[i32]) -> Option<i32> {
    let held = tables::oracle::held;
    let base = held(base).unwrap_or_else(RawSnap::empty);
    let target = held(target).unwrap_or_else(RawSnap::empty);
    let differs = |key: &i32| {
        let (raw_type_id, id) = tables::oracle::parts(*key);
        let len = |snap: &RawSnap| snap.item(raw_type_id, id).map(<[i32]>::len);
        len(&base) != len(&target) && len(&base).is_some()
    };
    target
        .items()
        .map(|item| item.key())
        .filter(differs)
        .min_by_key(|key| *key as u32)
}

/// How many ints the delta at the front of an area takes by its counts and
/// sizes, which need not be in form.
fn end(area: &[i32]) -> Option<usize> {
    let count = |at: usize| usize::try_from(*area.get(at)?).ok();
    let mut at = 3 + count(0)?;
    for _ in 0..count(1)? {
        at += 3 + count(at + 2)?;
    }
    (at <= area.len()).then_some(at)
}

/// The delta that an area begins with.
pub fn held(area: &[i32]) -> Option<Delta> {
    let ints = &area[..end(area)?];
    let mut delta = Delta::new();
    delta
        .read_from_ints(&mut Tally::default(), |_| None, &mut IntUnpacker::new(ints))
        .ok()?;
    let same = written(&delta, &[], ints.len()) == Told::Value(ints.to_vec());
    same.then_some(delta)
}

/// A delta that was read, as an area holds it, and how many ints it would take
/// there with repeated entries.
#[derive(Clone, Debug, Eq, PartialEq)]
pub struct Read {
    pub ints: Vec<i32>,
    pub room: usize,
}

/// The known size of a type, asked for at each update.
type Sizes<'a> = &'a mut dyn FnMut(u16) -> Option<u32>;

/// What the Rust reads. It reads all of the input, so that a delta takes as
/// many ints as the input holds, and one for each size that is not in it.
fn read_any(
    sizes: &[i32],
    count: impl FnOnce() -> usize,
    call: impl FnOnce(&mut Delta, &mut Tally, Sizes) -> Result<(), snap::Error>,
) -> (Told<Read>, Warnings) {
    let mut tally = Tally::default();
    let said = told(|| {
        let mut delta = Delta::new();
        let mut known = 0;
        let mut size = |raw_type_id| {
            let size = known_size(sizes, raw_type_id);
            known += usize::from(size.is_some());
            size
        };
        call(&mut delta, &mut tally, &mut size).map_err(|error| error.number())?;
        let room = count() + known;
        match written(&delta, &[], room) {
            Told::Value(ints) => Ok(Read { ints, room }),
            _ => unreachable!("no size is known"),
        }
    });
    (said, tally.0)
}

pub fn read_from_ints(src: &[i32], sizes: &[i32], scratch: usize) -> (Told<Read>, Warnings) {
    if scratch < table::SCRATCH {
        return (Told::Refused(41), Warnings::default());
    }
    if src.len() > table::INPUT {
        return (Told::Refused(42), Warnings::default());
    }
    read_any(
        sizes,
        || src.len(),
        |delta, tally, size| delta.read_from_ints(tally, size, &mut IntUnpacker::new(src)),
    )
}

pub fn read(src: &[u8], sizes: &[i32], scratch: usize) -> (Told<Read>, Warnings) {
    if scratch < table::SCRATCH || scratch < src.len() {
        return (Told::Refused(41), Warnings::default());
    }
    if src.len() > table::INPUT {
        return (Told::Refused(42), Warnings::default());
    }
    let Some(cut) = cut_inside(src) else {
        return rust_read(src, sizes);
    };
    match rust_read(cut, sizes) {
        (Told::Refused(number), warnings) => (Told::Refused(if_padded(number)), warnings),
        said => panic!("{} ends inside an int: {said:?}", hex_short(cut)),
    }
}

/// The refusal of a delta with a padded int, by the Rust's refusal of the delta
/// that ends inside that int: 52 for the refusals of an end (1, 3, 4), and any
/// other as it is, for what is wrong before.
pub fn if_padded(number: u32) -> u32 {
    match number {
        1 | 3 | 4 => 52,
        number => number,
    }
}

/// What the Rust reads of bytes without a padded int.
fn rust_read(src: &[u8], sizes: &[i32]) -> (Told<Read>, Warnings) {
    read_any(
        sizes,
        || ints_in(src),
        |delta, tally, size| delta.read(tally, size, &mut Unpacker::new(src)),
    )
}

/// How many packed ints there are.
fn ints_in(src: &[u8]) -> usize {
    let mut unpacker = Unpacker::new(src);
    let mut count = 0;
    while unpacker.read_int(&mut Tally::default()).is_ok() {
        count += 1;
    }
    count
}

/// The Rust's calls on the differences of an item.
type OfItem = fn(Option<&[i32]>, &[i32], &mut [i32]) -> Result<(), DeltaDifferingSizes>;

fn of_item(call: OfItem, from: Option<&[i32]>, other: &[i32]) -> Told<Vec<i32>> {
    told(|| {
        let mut out = vec![0; other.len()];
        match call(from, other, &mut out) {
            Ok(()) => Ok(out),
            Err(DeltaDifferingSizes) => Err(10),
        }
    })
}

pub fn created_item(from: Option<&[i32]>, to: &[i32]) -> Told<Vec<i32>> {
    of_item(format::create_item_delta, from, to)
}

pub fn applied_item(from: Option<&[i32]>, delta: &[i32]) -> Told<Vec<i32>> {
    of_item(format::apply_item_delta, from, delta)
}
