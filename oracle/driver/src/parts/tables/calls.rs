//! Each call on both sides: the answer, what was set, what was unchanged.

use super::inputs::List;
use super::oracle;
use super::oracle::parts;
use crate::core::area::Area;
use crate::core::area::LEFT_FLAG;
use crate::core::area::LEFT_INT;
use crate::core::area::LEFT_SIZE;
use crate::core::counted::left;
use crate::core::counted::room;
use crate::core::counted::Counted;
use crate::core::report::Compared;
use crate::core::report::Difference;
use crate::core::report::Run;
use crate::core::report::Shown;
use crate::core::text::hex_short;
use crate::core::text::ints_short;
use crate::core::told::Told;
use cefdugar::plain;
use cefdugar::table;
use cefdugar::Refusal;
use cefdugar::Warnings;
use libtw2_snapshot::snap::RawSnap;

const LEFT_WARNINGS: Warnings = Warnings([LEFT_SIZE; cefdugar::WARNINGS]);

/// What the caller holds after a query.
#[derive(Clone, Copy, Debug, PartialEq)]
struct Asked<T> {
    number: u32,
    value: T,
}

/// The written form of the Rust's table; nothing if it refused.
fn written(said: &Told<RawSnap>) -> Vec<i32> {
    match said {
        Told::Value(snap) => oracle::written(snap),
        _ => vec![],
    }
}

/// The port's areas, lent repeatedly.
pub struct Calls {
    src: Area<u8>,
    ints: Area<i32>,
    out: Area<i32>,
    bytes: Area<u8>,
    scratch: Vec<i32>,
    /// The most items of a table that are looked up and walked.
    most: usize,
}

impl Calls {
    pub fn new() -> Calls {
        Calls {
            src: Area::new(),
            ints: Area::new(),
            out: Area::new(),
            bytes: Area::new(),
            scratch: Vec::new(),
            most: 64,
        }
    }

    /// Reads ints into an area with as much room as the table needs and `spare`
    /// more.
    pub fn read_ints(
        &mut self,
        run: &mut Run,
        src: &[i32],
        spare: isize,
    ) -> Result<(), Difference> {
        let compared = self.compare_read_ints(src, spare);
        run.case(
            compared,
            || (List(src.to_vec()), spare),
            |(src, spare)| self.compare_read_ints(&src.0, *spare),
            |(src, spare)| {
                format!(
                    "read_from_ints of {}, room to spare: {spare}",
                    ints_short(&src.0)
                )
            },
        )
    }

    /// Reads bytes with a scratch of `scratch` entries, into as much room as the
    /// table needs, or 8 ints if it is refused, and `spare` more.
    pub fn read(
        &mut self,
        run: &mut Run,
        src: &[u8],
        spare: isize,
        scratch: usize,
    ) -> Result<(), Difference> {
        let compared = self.compare_read(src, spare, scratch);
        run.case(
            compared,
            || (src.to_vec(), spare, scratch),
            |(src, spare, scratch)| self.compare_read(src, *spare, *scratch),
            |(src, spare, scratch)| {
                let src = hex_short(src);
                format!("read of {src}, room to spare: {spare}, scratch {scratch}")
            },
        )
    }

    /// Makes all queries of an area.
    pub fn area(&mut self, run: &mut Run, area: &[i32]) -> Result<(), Difference> {
        let compared = self.compare_area(area);
        run.case(
            compared,
            || List(area.to_vec()),
            |area| self.compare_area(&area.0),
            |area| format!("the area {}", ints_short(&area.0)),
        )
    }

    /// Adds an item to an area, which then holds what the port left.
    pub fn add(
        &mut self,
        run: &mut Run,
        area: &mut [i32],
        key: i32,
        data: &[i32],
    ) -> Result<(), Difference> {
        let compared = self.compare_add(area, key, data);
        if compared.is_ok() {
            area.copy_from_slice(self.ints.now());
        }
        run.case(
            compared,
            || (List(area.to_vec()), key, data.to_vec()),
            |(area, key, data)| self.compare_add(&area.0, *key, data),
            |(area, key, data)| {
                let (raw_type_id, id) = parts(*key);
                let (area, data) = (ints_short(&area.0), ints_short(data));
                format!("add_item of {raw_type_id} {id} {data} to {area}")
            },
        )
    }

    /// The answers of both sides on a table that was read into `self.out`.
    fn compare_result(
        &mut self,
        said: &Told<RawSnap>,
        written: &[i32],
        room: usize,
        port: Counted,
    ) -> Compared {
        let oracle = match said {
            Told::Value(_) => Counted::fits(written.len(), room),
            said => Counted::refused(said.number()),
        };
        Shown::compare(&oracle, &port)?;
        let written = if oracle.number == 0 { written } else { &[] };
        left("out", self.out.check(0, written))
    }

    fn compare_read_ints(&mut self, src: &[i32], spare: isize) -> Compared {
        let (said, warnings) = oracle::read_from_ints(src);
        let written = written(&said);
        let room = room(written.len(), spare);
        let mut port = Counted::LEFT;
        let mut port_warnings = LEFT_WARNINGS;
        port.number = plain::table_read_from_ints(
            self.ints.lend_filled(src),
            self.out.lend(room),
            &mut port.count,
            &mut port_warnings,
        );
        Shown::compare(&warnings, &port_warnings)?;
        self.compare_result(&said, &written, room, port)?;
        let entries = self.ints.check(0, src);
        left("src", entries)?;
        let safe = table::read_from_ints(src, self.out.lend(room));
        Shown::compare(&(port.answer(), warnings), &safe)
    }

    fn compare_read(&mut self, src: &[u8], spare: isize, scratch: usize) -> Compared {
        let (said, warnings) = oracle::read(src, scratch);
        let written = written(&said);
        let room = match said {
            Told::Value(_) => room(written.len(), spare),
            _ => room(8, spare),
        };
        let mut port = Counted::LEFT;
        let mut port_warnings = LEFT_WARNINGS;
        self.scratch.clear();
        self.scratch.resize(scratch, LEFT_INT);
        port.number = plain::table_read(
            self.src.lend_filled(src),
            self.out.lend(room),
            &mut self.scratch,
            &mut port.count,
            &mut port_warnings,
        );
        Shown::compare(&warnings, &port_warnings)?;
        self.compare_result(&said, &written, room, port)?;
        let entries = self.src.check(0, src);
        left("src", entries)?;
        if self.scratch.iter().any(|&int| int != 0) {
            return Err(Shown::touched("scratch", "not zeros".to_string()));
        }
        let safe = table::read(src, self.out.lend(room), &mut self.scratch);
        Shown::compare(&(port.answer(), warnings), &safe)
    }

    /// A result written to ints and to bytes, with just enough room and with
    /// one less.
    fn compare_writes(&mut self, area: &[i32], held: Option<&RawSnap>) -> Compared {
        let ints = held.map_or(vec![], oracle::written);
        let bytes = held.map_or(vec![], oracle::packed);
        for spare in [0, -1, 3] {
            let room_ints = room(ints.len(), spare);
            let room_bytes = room(bytes.len(), spare);
            let (oracle_ints, oracle_bytes) = match held {
                Some(_) => (
                    Counted::fits(ints.len(), room_ints),
                    Counted::fits(bytes.len(), room_bytes),
                ),
                None => (Counted::refused(47), Counted::refused(47)),
            };
            let mut port = Counted::LEFT;
            port.number =
                plain::table_write_to_ints(area, self.out.lend(room_ints), &mut port.count);
            Shown::compare(&oracle_ints, &port)?;
            let written = if port.number == 0 { &ints[..] } else { &[] };
            left("out", self.out.check(0, written))?;
            let safe = table::write_to_ints(area, self.out.lend(room_ints));
            Shown::compare(&oracle_ints.answer(), &safe)?;

            let mut port = Counted::LEFT;
            port.number = plain::table_write(area, self.bytes.lend(room_bytes), &mut port.count);
            Shown::compare(&oracle_bytes, &port)?;
            let written = if port.number == 0 { &bytes[..] } else { &[] };
            left("out", self.bytes.check(0, written))?;
            let safe = table::write(area, self.bytes.lend(room_bytes));
            Shown::compare(&oracle_bytes.answer(), &safe)?;
        }
        Ok(())
    }

    /// An item's data, or none, with just enough room and with one less.
    fn compare_data(
        &mut self,
        data: Result<&[i32], u32>,
        mut call: impl FnMut(&mut [i32], &mut usize) -> u32,
    ) -> Compared {
        let needed = data.map(<[i32]>::len);
        for spare in [0, -1] {
            let room = room(needed.unwrap_or(0), spare);
            let oracle = Counted::laid(needed, room);
            let mut port = Counted::LEFT;
            port.number = call(self.out.lend(room), &mut port.count);
            Shown::compare(&oracle, &port)?;
            let written = data.ok().filter(|_| port.number == 0).unwrap_or(&[]);
            left("out", self.out.check(0, written))?;
        }
        Ok(())
    }

    /// Whether there is an item, and its data.
    fn compare_lookup(&mut self, area: &[i32], held: Option<&RawSnap>, key: i32) -> Compared {
        let (raw_type_id, id) = parts(key);
        let item = held.and_then(|snap| snap.item(raw_type_id, id));
        let oracle = match held {
            Some(_) => Asked {
                number: 0,
                value: u32::from(item.is_some()),
            },
            None => Asked {
                number: 47,
                value: LEFT_FLAG,
            },
        };
        let mut port = Asked {
            number: 0,
            value: LEFT_FLAG,
        };
        port.number = plain::table_has_item(area, raw_type_id, id, &mut port.value);
        Shown::compare(&oracle, &port)?;
        let safe = table::has_item(area, raw_type_id, id);
        let answer = held.map(|_| item.is_some()).ok_or(Refusal::NOT_IN_FORM);
        Shown::compare(&answer, &safe)?;
        let data = held.map(|_| item.unwrap_or(&[])).ok_or(47);
        self.compare_data(data, |out, count| {
            plain::table_item(area, raw_type_id, id, out, count)
        })?;
        let mut out = [LEFT_INT; 4];
        let safe = table::item(area, raw_type_id, id, &mut out);
        let oracle = Counted::laid(data.map(<[i32]>::len), out.len());
        Shown::compare(&oracle.answer(), &safe)
    }

    /// An item of the walk, or the end of the walk.
    fn compare_step(
        &mut self,
        area: &[i32],
        held: bool,
        i: usize,
        item: Option<(i32, &[i32])>,
    ) -> Compared {
        let oracle = match (held, item) {
            (true, Some((key, _))) => (0, key, 0),
            (true, None) => (0, LEFT_INT, 1),
            (false, _) => (47, LEFT_INT, LEFT_FLAG),
        };
        let mut port = (0, LEFT_INT, LEFT_FLAG);
        port.0 = plain::table_walk_key(area, i, &mut port.1, &mut port.2);
        Shown::compare(&oracle, &port)?;
        let safe = table::walk_key(area, i);
        let answer = match held {
            true => Ok(item.map(|(key, _)| key)),
            false => Err(Refusal::NOT_IN_FORM),
        };
        Shown::compare(&answer, &safe)?;
        let data = match held {
            true => Ok(item.map_or(&[][..], |(_, data)| data)),
            false => Err(47),
        };
        self.compare_data(data, |out, count| {
            plain::table_walk_item(area, i, out, count)
        })
    }

    fn compare_area(&mut self, area: &[i32]) -> Compared {
        let held = oracle::held(area);
        let held = held.as_ref();

        let oracle = match held {
            Some(snap) => Counted {
                number: 0,
                count: snap.items().len(),
            },
            None => Counted::refused(47),
        };
        let mut port = Counted::LEFT;
        port.number = plain::table_num_items(area, &mut port.count);
        Shown::compare(&oracle, &port)?;
        Shown::compare(&oracle.answer(), &table::num_items(area))?;

        let oracle = match held {
            Some(snap) => Asked {
                number: 0,
                value: snap.crc(),
            },
            None => Asked {
                number: 47,
                value: LEFT_INT,
            },
        };
        let mut port = Asked {
            number: 0,
            value: LEFT_INT,
        };
        port.number = plain::table_crc(area, &mut port.value);
        Shown::compare(&oracle, &port)?;
        let answer = held.map(RawSnap::crc).ok_or(Refusal::NOT_IN_FORM);
        Shown::compare(&answer, &table::crc(area))?;

        self.compare_writes(area, held)?;

        let items: Vec<_> = held.map_or(vec![], |snap| {
            snap.items().map(|item| (item.key(), item.data)).collect()
        });
        let step = items.len() / self.most + 1;
        for (i, &item) in items.iter().enumerate() {
            if i % step == 0 || i + 1 == items.len() {
                self.compare_step(area, held.is_some(), i, Some(item))?;
                for near in [0, 1, -1] {
                    self.compare_lookup(area, held, item.0.wrapping_add(near))?;
                }
            }
        }
        for i in [items.len(), items.len() + 1, usize::MAX] {
            self.compare_step(area, held.is_some(), i, None)?;
        }
        for key in super::inputs::KEYS {
            self.compare_lookup(area, held, key)?;
        }
        Ok(())
    }

    fn compare_add(&mut self, area: &[i32], key: i32, data: &[i32]) -> Compared {
        let (raw_type_id, id) = parts(key);
        let mut expected = area.to_vec();
        let oracle = match oracle::held(area) {
            Some(snap) => match oracle::added(&snap, key, data) {
                Told::Value(snap) => {
                    let written = oracle::written(&snap);
                    let fits = Counted::fits(written.len(), area.len());
                    if fits.number == 0 {
                        expected[..written.len()].copy_from_slice(&written);
                    }
                    fits
                }
                said => Counted::refused(said.number()),
            },
            None => Counted::refused(47),
        };
        let mut safe = area.to_vec();
        let answer = table::add_item(&mut safe, raw_type_id, id, data);
        Shown::compare(&oracle.answer(), &answer)?;
        Shown::compare(&expected, &safe)?;

        let mut port = Counted::LEFT;
        let lent = self.ints.lend_filled(area);
        port.number = plain::table_add_item(lent, raw_type_id, id, data, &mut port.count);
        Shown::compare(&oracle, &port)?;
        left("area", self.ints.check(0, &expected))
    }

    /// Writes the empty table into `len` ints.
    pub fn empty(&mut self, run: &mut Run, len: usize) -> Result<(), Difference> {
        let compared = self.compare_empty(len);
        run.case(
            compared,
            || len,
            |len| self.compare_empty(*len),
            |len| format!("the empty table into {len} ints"),
        )
    }

    fn compare_empty(&mut self, len: usize) -> Compared {
        let written = oracle::written(&RawSnap::empty());
        let oracle = Counted::fits(written.len(), len);
        let mut port = Counted::LEFT;
        port.number = plain::table_empty(self.out.lend(len), &mut port.count);
        Shown::compare(&oracle, &port)?;
        let entries = if oracle.number == 0 {
            &written[..]
        } else {
            &[]
        };
        left("out", self.out.check(0, entries))?;
        Shown::compare(&oracle.answer(), &table::empty(self.out.lend(len)))
    }
}
