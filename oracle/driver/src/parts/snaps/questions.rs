//! Queries about the types of an area, on both sides.

use super::calls::Calls;
use super::inputs;
use super::inputs::KINDS;
use super::inputs::TYPES;
use super::oracle;
use super::oracle::kind_items;
use super::oracle::kind_of;
use super::oracle::port_type;
use super::oracle::rust_type;
use crate::core::area::LEFT_FLAG;
use crate::core::area::LEFT_INT;
use crate::core::counted::left;
use crate::core::counted::room;
use crate::core::counted::Counted;
use crate::core::report::Compared;
use crate::core::report::Difference;
use crate::core::report::Run;
use crate::core::report::Shown;
use crate::core::text::ints_short;
use crate::parts::tables;
use crate::parts::tables::inputs::List;
use cefdugar::plain;
use cefdugar::plain::Type;
use cefdugar::snap;
use cefdugar::snap::uuid_to_ints;
use cefdugar::snap::TypeId;
use cefdugar::Refusal;
use libtw2_snapshot::snap::RawSnap;
use libtw2_snapshot::snap::Snap;

/// The initial value of a lent raw type.
const LEFT_TYPE: u16 = 0x5a17;

/// A type with its own flag, and with numbers in the fields that are not read.
fn flagged(type_id: TypeId) -> Type {
    let mut plain = type_id.plain();
    match type_id {
        TypeId::Ordinal(ordinal) => plain.uuid = [LEFT_INT, 1, i32::from(ordinal), 0],
        TypeId::Uuid(bytes) => {
            plain.is_uuid = [1, 2, u32::MAX, 1 << 31][usize::from(bytes[15] % 4)];
            plain.ordinal = LEFT_TYPE;
        }
    }
    plain
}

/// A table, as far as the Rust holds it: as it is read, if its types are
/// sound, and as it is built, if a builder builds it.
pub struct Held {
    pub raw: RawSnap,
    read: Option<Snap>,
    built: Option<Snap>,
}

impl Held {
    pub fn new(area: &[i32]) -> Option<Held> {
        Some(Held {
            raw: tables::oracle::held(area)?,
            read: oracle::held(area),
            built: oracle::builder(area).map(|builder| builder.finish()),
        })
    }
    /// The data of an item, or 45. A table that was read has its kinds under
    /// 0; so for these the built one is asked, or the raw one.
    pub fn item(&self, type_id: TypeId, id: u16) -> Result<Option<&[i32]>, u32> {
        let raw_type_id = oracle::raw_type_id(&self.raw, type_id)?;
        let typed = match type_id {
            TypeId::Ordinal(_) => self.read.as_ref(),
            TypeId::Uuid(_) => self.built.as_ref(),
        };
        Ok(match (typed, raw_type_id) {
            (Some(snap), _) => snap.item(rust_type(type_id), id),
            (None, Some(raw_type_id)) => self.raw.item(raw_type_id, id),
            (None, None) => None,
        })
    }
    /// The types to ask for: the table's, similar ones, and others.
    fn types(&self) -> Vec<TypeId> {
        let mut types: Vec<TypeId> = TYPES.map(TypeId::Ordinal).into();
        types.extend(KINDS.map(inputs::kind));
        for item in self.raw.items() {
            types.push(TypeId::Ordinal(item.raw_type_id));
            if let Some(kind) = kind_of(item.data) {
                types.push(TypeId::Uuid(kind));
            }
        }
        types
    }
    /// The raw types to ask for.
    fn raw_types(&self) -> Vec<u16> {
        let mut types: Vec<u16> = TYPES.into();
        for item in self.raw.items() {
            types.extend([item.raw_type_id, item.id, item.raw_type_id.wrapping_add(1)]);
        }
        types
    }
    fn ids(&self) -> Vec<u16> {
        let mut ids: Vec<u16> = self.raw.items().map(|item| item.id).collect();
        ids.extend([0, 1, 0xffff]);
        ids
    }
}

/// At most so many entries of a list, spread over all of it.
fn some<T: PartialEq>(mut list: Vec<T>, most: usize) -> impl Iterator<Item = T> {
    list.dedup();
    let step = list.len().div_ceil(most).max(1);
    list.into_iter().step_by(step)
}

impl Calls {
    /// Makes all queries of an area.
    pub fn area(&mut self, run: &mut Run, area: &[i32]) -> Result<(), Difference> {
        let compared = self.compare_area(area);
        run.case(
            compared,
            || List(area.to_vec()),
            |area| self.compare_area(&area.0),
            |area| format!("types of the area {}", ints_short(&area.0)),
        )
    }

    fn compare_area(&mut self, area: &[i32]) -> Compared {
        let Some(held) = Held::new(area) else {
            return self.compare_no_table(area);
        };
        for type_id in some(held.types(), 24) {
            compare_raw_type_id(area, type_id, oracle::raw_type_id(&held.raw, type_id))?;
            for id in some(held.ids(), 6) {
                self.compare_item(area, type_id, id, held.item(type_id, id))?;
            }
        }
        for raw_type_id in some(held.raw_types(), 24) {
            let found = oracle::type_id(&held.raw, raw_type_id);
            compare_type_id(area, raw_type_id, Ok(found))?;
        }
        if let Some(read) = &held.read {
            compare_typed_items(area, &held.raw, read)?;
            compare_filed(area, &held.raw, read)?;
        }
        Ok(())
    }

    /// An area that holds no table gets 47, and no data.
    fn compare_no_table(&mut self, area: &[i32]) -> Compared {
        for type_id in [
            TypeId::Ordinal(1),
            TypeId::Ordinal(0),
            inputs::kind(KINDS[1]),
        ] {
            compare_raw_type_id(area, type_id, Err(47))?;
            self.compare_item(area, type_id, 1, Err(47))?;
        }
        compare_type_id(area, 0, Err(47))?;
        compare_type_id(area, 0x4000, Err(47))
    }

    /// Whether there is an item, and its data in room of all sorts.
    fn compare_item(
        &mut self,
        area: &[i32],
        type_id: TypeId,
        id: u16,
        item: Result<Option<&[i32]>, u32>,
    ) -> Compared {
        let oracle = match item {
            Ok(item) => (0, u32::from(item.is_some())),
            Err(number) => (number, LEFT_FLAG),
        };
        let mut port = (0, LEFT_FLAG);
        port.0 = plain::snap_has_item(area, &flagged(type_id), id, &mut port.1);
        Shown::compare(&oracle, &port)?;
        let safe = snap::has_item(area, type_id, id);
        let answer = item.map(|item| item.is_some()).map_err(Refusal);
        Shown::compare(&answer, &safe)?;

        let data = item.map(|item| item.unwrap_or(&[]));
        let needed = data.map(<[i32]>::len);
        let out = &mut self.lent.out;
        for spare in [0, -1, 2] {
            let room = room(needed.unwrap_or(0), spare);
            let oracle = Counted::laid(needed, room);
            let mut port = Counted::LEFT;
            let lent = out.lend(room);
            port.number = plain::snap_item(area, &flagged(type_id), id, lent, &mut port.count);
            Shown::compare(&oracle, &port)?;
            let written = data.ok().filter(|_| port.number == 0).unwrap_or(&[]);
            left("out", out.check(0, written))?;
            let safe = snap::item(area, type_id, id, out.lend(room));
            Shown::compare(&oracle.answer(), &safe)?;
        }
        Ok(())
    }
}

fn compare_raw_type_id(area: &[i32], type_id: TypeId, found: Result<Option<u16>, u32>) -> Compared {
    let oracle = match found {
        Ok(Some(raw_type_id)) => (0, 1, raw_type_id),
        Ok(None) => (0, 0, LEFT_TYPE),
        Err(number) => (number, LEFT_FLAG, LEFT_TYPE),
    };
    let mut port = (0, LEFT_FLAG, LEFT_TYPE);
    port.0 = plain::snap_raw_type_id(area, &flagged(type_id), &mut port.1, &mut port.2);
    Shown::compare(&oracle, &port)?;
    Shown::compare(&found.map_err(Refusal), &snap::raw_type_id(area, type_id))
}

fn compare_type_id(area: &[i32], raw_type_id: u16, found: Result<Option<TypeId>, u32>) -> Compared {
    const LEFT_KIND: [i32; 4] = [LEFT_INT; 4];
    let oracle = match found {
        Ok(Some(TypeId::Ordinal(ordinal))) => (0, 1, ordinal, LEFT_KIND),
        Ok(Some(TypeId::Uuid(kind))) => (0, 2, LEFT_TYPE, uuid_to_ints(kind)),
        Ok(None) => (0, 0, LEFT_TYPE, LEFT_KIND),
        Err(number) => (number, LEFT_FLAG, LEFT_TYPE, LEFT_KIND),
    };
    let mut port = (0, LEFT_FLAG, LEFT_TYPE, LEFT_KIND);
    port.0 = plain::snap_type_id(area, raw_type_id, &mut port.1, &mut port.2, &mut port.3);
    Shown::compare(&oracle, &port)?;
    Shown::compare(&found.map_err(Refusal), &snap::type_id(area, raw_type_id))
}

/// The types that the Rust returns with the items of a table that was read.
fn compare_typed_items(area: &[i32], raw: &RawSnap, read: &Snap) -> Compared {
    let raw_items = raw.items().filter(|item| item.raw_type_id != 0);
    let step = raw.items().len() / 24 + 1;
    for (raw, item) in raw_items.zip(read.items()).step_by(step) {
        let type_id = port_type(item.type_id);
        compare_type_id(area, raw.raw_type_id, Ok(Some(type_id)))?;
    }
    Ok(())
}

/// The Rust stores each kind of a table that was read under 0, and so looks
/// among the items of type 0; the port returns the id of the item that names it.
fn compare_filed(area: &[i32], raw: &RawSnap, read: &Snap) -> Compared {
    for named in kind_items(raw).take(8) {
        let kind = TypeId::Uuid(kind_of(named.data).expect("sound types"));
        for id in [named.id, 0, 1, 7] {
            let filed = read.item(rust_type(kind), id);
            Shown::compare(&raw.item(0, id), &filed)?;
        }
        compare_raw_type_id(area, kind, Ok(Some(named.id)))?;
    }
    Ok(())
}
