//! The Rust's answers on types, builders and applied deltas, or those of
//! docs/FORMAT.md if the Rust has no such call or another rule: a table is a
//! builder's if the Rust's builder builds it, the number of a kind is the id of
//! the item of type 0 that names it, and a padded int refuses a packed table.

use crate::core::counted::Counted;
use crate::core::oracle::Number;
use crate::core::oracle::Tally;
use crate::core::told::told;
use crate::core::told::Told;
use crate::parts::deltas;
use crate::parts::packer::refused_as_padded;
use crate::parts::tables;
use crate::parts::tables::oracle::parts;
use cefdugar::snap::TypeId;
use cefdugar::table;
use cefdugar::Warnings;
use libtw2_snapshot::format;
use libtw2_snapshot::format::RawItem;
use libtw2_snapshot::snap;
use libtw2_snapshot::snap::Builder;
use libtw2_snapshot::snap::RawSnap;
use libtw2_snapshot::snap::Snap;
use libtw2_snapshot::Delta;

/// The written form of a table that was made, and the warnings.
pub type Made = (Told<Vec<i32>>, Warnings);

fn made(call: impl FnOnce(&mut Tally) -> Result<Vec<i32>, snap::Error>) -> Made {
    let mut tally = Tally::default();
    let said = told(|| call(&mut tally).map_err(|error| error.number()));
    (said, tally.0)
}

fn refused(number: u32) -> Made {
    (Told::Refused(number), Warnings::default())
}

/// The written form.
pub fn written(snap: &Snap) -> Vec<i32> {
    tables::oracle::all_ints(|out| {
        let written = snap.write_to_ints(&mut Vec::new(), out)?;
        Ok(written.len())
    })
}

pub fn read_from_ints(src: &[i32], scratch: usize) -> Made {
    if scratch < table::SCRATCH {
        return refused(41);
    }
    if src.len() > table::INPUT {
        return refused(42);
    }
    made(|tally| {
        let mut snap = Snap::empty();
        snap.read_from_ints(tally, src)?;
        Ok(written(&snap))
    })
}

pub fn read(src: &[u8], scratch: usize) -> Made {
    if scratch < table::SCRATCH || scratch < src.len() {
        return refused(41);
    }
    if src.len() > table::INPUT {
        return refused(42);
    }
    if let Some(refused) = refused_as_padded(src) {
        return refused;
    }
    made(|tally| {
        let mut snap = Snap::empty();
        snap.read(tally, &mut Vec::new(), src)?;
        Ok(written(&snap))
    })
}

/// The table with types of an area, if these are sound.
pub fn held(area: &[i32]) -> Option<Snap> {
    tables::oracle::held(area)?;
    let mut snap = Snap::empty();
    snap.read_from_ints(&mut Tally::default(), area).ok()?;
    Some(snap)
}

/// The base and the delta of two areas, or the number of the refusal.
fn judged(base: &[i32], delta: &[i32], scratch: usize) -> Result<(RawSnap, Delta), u32> {
    let base = tables::oracle::held(base).ok_or(47u32)?;
    let delta = deltas::oracle::held(delta).ok_or(47u32)?;
    if scratch < table::SCRATCH {
        return Err(41);
    }
    Ok((base, delta))
}

/// Whether an update is of a kept item with another length.
fn clashes(base: &RawSnap, delta: &[i32]) -> bool {
    let (deleted, updated, _) = deltas::inputs::taken_apart(delta).expect("a delta's ints");
    updated.iter().any(|(key, data)| {
        let (raw_type_id, id) = parts(*key);
        let item = base.item(raw_type_id, id);
        !deleted.contains(key) && item.is_some_and(|item| item.len() != data.len())
    })
}

/// 10 if the Rust panics on an update of a kept item with another length, and
/// on nothing else.
fn settled((said, warnings): Made, base: &RawSnap, delta: &[i32]) -> Made {
    match said {
        Told::Panicked if clashes(base, delta) => (Told::Refused(10), warnings),
        said => (said, warnings),
    }
}

/// A delta applied to a table.
pub fn applied(base: &[i32], delta: &[i32], scratch: usize) -> Made {
    let (from, changes) = match judged(base, delta, scratch) {
        Ok(judged) => judged,
        Err(number) => return refused(number),
    };
    let made = made(|tally| {
        let mut snap = RawSnap::empty();
        snap.read_with_delta(tally, &from, &changes)?;
        Ok(tables::oracle::written(&snap))
    });
    settled(made, &from, delta)
}

/// A delta applied to a table, and the types of the result judged. If those of
/// the base are not sound, the Rust cannot hold it as a `Snap`: it then
/// applies the delta, and reads the result.
pub fn applied_typed(base: &[i32], delta: &[i32], scratch: usize) -> Made {
    let (from, changes) = match judged(base, delta, scratch) {
        Ok(judged) => judged,
        Err(number) => return refused(number),
    };
    let made = made(|tally| {
        let mut snap = Snap::empty();
        match held(base) {
            Some(from) => snap.read_with_delta(tally, &from, &changes)?,
            None => {
                let mut raw = RawSnap::empty();
                raw.read_with_delta(tally, &from, &changes)?;
                snap.read_from_ints(tally, &tables::oracle::written(&raw))?;
            }
        }
        Ok(written(&snap))
    });
    settled(made, &from, delta)
}

/// A kind by its 16 bytes.
pub type Kind = [u8; 16];

/// The kind that an item's data names.
pub fn kind_of(data: &[i32]) -> Option<Kind> {
    let uuid = format::item_data_to_uuid(&mut Tally::default(), data)?;
    Some(uuid.into_bytes())
}

/// A type in the Rust's form.
pub fn rust_type(type_id: TypeId) -> format::TypeId {
    match type_id {
        TypeId::Ordinal(ordinal) => format::TypeId::Ordinal(ordinal),
        TypeId::Uuid(kind) => {
            let ints = cefdugar::snap::uuid_to_ints(kind);
            let uuid = format::item_data_to_uuid(&mut Tally::default(), &ints);
            format::TypeId::Uuid(uuid.expect("four ints"))
        }
    }
}

/// A type of the Rust's in the port's form.
pub fn port_type(type_id: format::TypeId) -> TypeId {
    match type_id {
        format::TypeId::Ordinal(ordinal) => TypeId::Ordinal(ordinal),
        format::TypeId::Uuid(uuid) => TypeId::Uuid(uuid.into_bytes()),
    }
}

/// The items of type 0.
pub fn kind_items(raw: &RawSnap) -> impl Iterator<Item = RawItem<'_>> {
    raw.items().filter(|item| item.raw_type_id == 0)
}

/// The raw type of a type, or 45 if the Rust panics.
pub fn raw_type_id(raw: &RawSnap, type_id: TypeId) -> Result<Option<u16>, u32> {
    match type_id {
        TypeId::Ordinal(ordinal) => {
            let snap = Snap::empty();
            let said = told(|| Ok(snap.item(rust_type(type_id), 0).is_some()));
            match said {
                Told::Panicked => Err(45),
                _ => Ok(Some(ordinal)),
            }
        }
        TypeId::Uuid(kind) => Ok(kind_items(raw)
            .find(|item| kind_of(item.data) == Some(kind))
            .map(|item| item.id)),
    }
}

/// The type of a raw type.
pub fn type_id(raw: &RawSnap, raw_type_id: u16) -> Option<TypeId> {
    match raw_type_id {
        format::TYPE_ID_EX => None,
        1..format::OFFSET_EXTENDED_TYPE_ID => Some(TypeId::Ordinal(raw_type_id)),
        _ => {
            let named = raw.item(format::TYPE_ID_EX, raw_type_id)?;
            kind_of(named).map(TypeId::Uuid)
        }
    }
}

/// Adds a kind to a builder without any of its items: an item that is longer
/// than any table leaves its kind in the builder.
fn give_kind(builder: &mut Builder, kind: Kind) {
    static LONGER: [i32; table::INTS] = [0; table::INTS];
    let said = builder.add_item(rust_type(TypeId::Uuid(kind)), 0, &LONGER);
    assert!(said.is_err());
}

/// A builder with the kinds and the items of a table.
fn given(raw: &RawSnap) -> Option<Builder> {
    let mut builder = Builder::new();
    for item in kind_items(raw) {
        give_kind(&mut builder, kind_of(item.data)?);
    }
    for item in raw.items().filter(|item| item.raw_type_id != 0) {
        let type_id = rust_type(type_id(raw, item.raw_type_id)?);
        builder.add_item(type_id, item.id, item.data).ok()?;
    }
    Some(builder)
}

/// The builder of an area's table, if the Rust's builder builds it.
pub fn builder(area: &[i32]) -> Option<Builder> {
    let raw = tables::oracle::held(area)?;
    let snap = given(&raw)?.finish();
    if written(&snap) != tables::oracle::written(&raw) {
        return None;
    }
    given(&raw)
}

/// An area with ints written over its front, if they fit.
fn laid(area: &[i32], ints: &[i32]) -> Vec<i32> {
    let mut result = area.to_vec();
    if let Some(front) = result.get_mut(..ints.len()) {
        front.copy_from_slice(ints);
    }
    result
}

/// 45 if the Rust panics on a number, and on nothing else.
fn panicked(type_id: TypeId) -> u32 {
    match type_id {
        TypeId::Ordinal(_) => 45,
        TypeId::Uuid(_) => Told::<()>::PANICKED,
    }
}

/// The answer for adding an item to a builder's table, and what its area holds
/// afterwards.
pub fn added(area: &[i32], type_id: TypeId, id: u16, data: &[i32]) -> (Counted, Vec<i32>) {
    let Some(mut adding) = builder(area) else {
        return (Counted::refused(47), area.to_vec());
    };
    let said = told(|| {
        let said = adding.add_item(rust_type(type_id), id, data);
        said.map_err(|error| error.number())
    });
    let ints = written(&adding.finish());
    let (answer, ints) = match said {
        Told::Value(()) if ints.len() <= area.len() => {
            (Counted::fits(ints.len(), area.len()), ints)
        }
        Told::Value(()) => (Counted::refused(40), with_kind(area, type_id)),
        // An item that names a new kind stays if it has room.
        Told::Refused(number) => (Counted::refused(number), ints),
        Told::Panicked => (Counted::refused(panicked(type_id)), ints),
    };
    (answer, laid(area, &ints))
}

/// A builder's table with a kind, new or not.
fn with_kind(area: &[i32], type_id: TypeId) -> Vec<i32> {
    let mut builder = builder(area).expect("a builder's table");
    if let TypeId::Uuid(kind) = type_id {
        give_kind(&mut builder, kind);
    }
    written(&builder.finish())
}
