//! The Rust's answers on tables, or those of docs/FORMAT.md if the Rust has no
//! such call or another rule: an area in form is one that the Rust reads and
//! would write unchanged, and a padded int refuses a packed table.

use crate::core::oracle::Number;
use crate::core::oracle::Tally;
use crate::core::told::told;
use crate::core::told::Told;
use crate::parts::packer::refused_as_padded;
use cefdugar::table;
use cefdugar::Warnings;
use libtw2_buffer::CapacityError;
use libtw2_packer::with_packer;
use libtw2_snapshot::snap::RawBuilder;
use libtw2_snapshot::snap::RawSnap;

/// An item by its key.
pub type Item = (i32, Vec<i32>);

/// The type and the id of a key.
pub fn parts(key: i32) -> (u16, u16) {
    ((key as u32 >> 16) as u16, key as u16)
}

pub fn read_from_ints(src: &[i32]) -> (Told<RawSnap>, Warnings) {
    let mut tally = Tally::default();
    if src.len() > table::INPUT {
        return (Told::Refused(42), tally.0);
    }
    let said = told(|| {
        let mut snap = RawSnap::empty();
        match snap.read_from_ints(&mut tally, src) {
            Ok(()) => Ok(snap),
            Err(error) => Err(error.number()),
        }
    });
    (said, tally.0)
}

pub fn read(src: &[u8], scratch: usize) -> (Told<RawSnap>, Warnings) {
    let mut tally = Tally::default();
    if scratch < table::SCRATCH || scratch < src.len() {
        return (Told::Refused(41), tally.0);
    }
    if src.len() > table::INPUT {
        return (Told::Refused(42), tally.0);
    }
    if let Some(refused) = refused_as_padded(src) {
        return refused;
    }
    let said = told(|| {
        let mut snap = RawSnap::empty();
        match snap.read(&mut tally, &mut Vec::new(), src) {
            Ok(()) => Ok(snap),
            Err(error) => Err(error.number()),
        }
    });
    (said, tally.0)
}

/// All ints that `write` writes for a table.
pub fn all_ints(write: impl FnOnce(&mut [i32]) -> Result<usize, CapacityError>) -> Vec<i32> {
    let mut out = vec![0; table::INTS];
    let len = match write(&mut out) {
        Ok(len) => len,
        Err(CapacityError) => unreachable!("no table takes more"),
    };
    out.truncate(len);
    out
}

/// The written form.
pub fn written(snap: &RawSnap) -> Vec<i32> {
    all_ints(|out| {
        let written = snap.write_to_ints(&mut Vec::new(), out)?;
        Ok(written.len())
    })
}

/// The packed form.
pub fn packed(snap: &RawSnap) -> Vec<u8> {
    let mut out = Vec::with_capacity(5 * table::INTS);
    with_packer(&mut out, |packer| {
        let written = snap.write(&mut Vec::new(), packer);
        assert!(written.is_ok());
    });
    out
}

/// The table that an area begins with.
pub fn held(area: &[i32]) -> Option<RawSnap> {
    let mut snap = RawSnap::empty();
    snap.read_from_ints(&mut Tally::default(), area).ok()?;
    let written = written(&snap);
    area.starts_with(&written).then_some(snap)
}

/// The table with one more item.
pub fn added(snap: &RawSnap, key: i32, data: &[i32]) -> Told<RawSnap> {
    told(|| {
        let mut builder = RawBuilder::new();
        for item in snap.items() {
            builder
                .add_item(item.raw_type_id, item.id, item.data)
                .map_err(|error| error.number())?;
        }
        let (raw_type_id, id) = parts(key);
        match builder.add_item(raw_type_id, id, data) {
            Ok(()) => Ok(builder.finish()),
            Err(error) => Err(error.number()),
        }
    })
}
