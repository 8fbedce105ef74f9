//! Each call on both sides: the answer, what was set, what was unchanged.

use super::inputs::Ints;
use super::oracle;
use crate::core::area::Area;
use crate::core::area::Pattern;
use crate::core::area::LEFT_INT;
use crate::core::area::LEFT_SIZE;
use crate::core::counted::left;
use crate::core::counted::room;
use crate::core::counted::Counted;
use crate::core::report::Compared;
use crate::core::report::Difference;
use crate::core::report::Run;
use crate::core::report::Shown;
use crate::core::scratch::Scratch;
use crate::core::text::hex_short;
use crate::core::text::ints_short;
use crate::core::told::Told;
use crate::parts::tables::inputs::List;
use cefdugar::delta;
use cefdugar::delta::NoDelta;
use cefdugar::plain;
use cefdugar::Refusal;
use cefdugar::Warnings;
use libtw2_snapshot::Delta;

const LEFT_WARNINGS: Warnings = Warnings([LEFT_SIZE; cefdugar::WARNINGS]);

/// Room to spare: none, one too little, some, no room at all.
const SPARES: [isize; 4] = [0, -1, 3, isize::MIN];

/// What the caller must hold if `said` is to be written to `room`
/// entries; `panicked` is the refusal in place of the Rust's panic.
fn expected<T>(said: &Told<Vec<T>>, panicked: u32, room: usize) -> Counted {
    match said {
        Told::Value(written) => Counted::fits(written.len(), room),
        Told::Refused(number) => Counted::refused(*number),
        Told::Panicked => Counted::refused(panicked),
    }
}

fn entries<T>(said: &Told<Vec<T>>) -> &[T] {
    match said {
        Told::Value(written) => written,
        _ => &[],
    }
}

/// Some room if the Rust refused; else just enough and `spare` more.
fn room_for<T>(said: &Told<Vec<T>>, spare: isize) -> usize {
    match said {
        Told::Value(written) => room(written.len(), spare),
        _ => room(8, spare),
    }
}

/// A call that writes to the front of an area, with room of all sorts.
fn compare_stored<T: Pattern>(
    out: &mut Area<T>,
    said: &Told<Vec<T>>,
    panicked: u32,
    mut call: impl FnMut(&mut [T], &mut usize) -> u32,
    mut safe: impl FnMut(&mut [T]) -> Result<usize, Refusal>,
) -> Compared {
    for spare in SPARES {
        let room = room_for(said, spare);
        let oracle = expected(said, panicked, room);
        let written = if oracle.number == 0 {
            entries(said)
        } else {
            &[]
        };
        let mut port = Counted::LEFT;
        port.number = call(out.lend(room), &mut port.count);
        Shown::compare(&oracle, &port)?;
        left("out", out.check(0, written))?;
        Shown::compare(&oracle.answer(), &safe(out.lend(room)))?;
        left("out", out.check(0, written))?;
    }
    Ok(())
}

/// A delta to be read, with known sizes and the length of scratch.
#[derive(Clone, Copy)]
struct Given<'a, T> {
    src: &'a [T],
    sizes: &'a [i32],
    scratch: usize,
}

/// A call that reads: the input, known sizes, `out`, scratch, the count, the
/// warnings.
type Reads<T> = fn(&[T], &[i32], &mut [i32], &mut [i32], &mut usize, &mut Warnings) -> u32;
/// The safe form of the same call.
type SafeReads<T> = fn(&[T], &[i32], &mut [i32], &mut [i32]) -> (Result<usize, Refusal>, Warnings);

/// What the caller must hold after a delta was to be read into `room` ints,
/// and what the area must hold.
fn read_into(said: &Told<oracle::Read>, room: usize) -> (Counted, &[i32]) {
    match said {
        Told::Value(read) if read.room <= room => {
            (Counted::fits(read.ints.len(), room), &read.ints)
        }
        Told::Value(_) => (Counted::refused(40), &[]),
        said => (Counted::refused(said.number()), &[]),
    }
}

/// The port's areas, lent repeatedly.
pub struct Calls {
    ints: [Area<i32>; 2],
    out: Area<i32>,
    bytes: Area<u8>,
    scratch: Scratch,
}

impl Calls {
    pub fn new() -> Calls {
        Calls {
            ints: [Area::new(), Area::new()],
            out: Area::new(),
            bytes: Area::new(),
            scratch: Scratch::default(),
        }
    }

    /// The delta between the tables of two areas.
    pub fn create(
        &mut self,
        run: &mut Run,
        base: &[i32],
        target: &[i32],
    ) -> Result<(), Difference> {
        let compared = self.compare_create(base, target);
        run.case(
            compared,
            || (List(base.to_vec()), List(target.to_vec())),
            |(base, target)| self.compare_create(&base.0, &target.0),
            |(base, target)| {
                format!(
                    "create from {} to {}",
                    ints_short(&base.0),
                    ints_short(&target.0)
                )
            },
        )
    }

    /// Writes a delta to ints and packed.
    pub fn write(&mut self, run: &mut Run, area: &[i32], sizes: &[i32]) -> Result<(), Difference> {
        let compared = self.compare_write(area, sizes);
        run.case(
            compared,
            || (Ints(area.to_vec()), sizes.to_vec()),
            |(area, sizes)| self.compare_write(&area.0, sizes),
            |(area, sizes)| {
                let (area, sizes) = (ints_short(&area.0), ints_short(sizes));
                format!("write of {area}, sizes {sizes}")
            },
        )
    }

    /// Reads ints under known sizes, with a scratch of `scratch` entries.
    pub fn read_ints(
        &mut self,
        run: &mut Run,
        src: &[i32],
        sizes: &[i32],
        scratch: usize,
    ) -> Result<(), Difference> {
        let compared = self.compare_read_ints(src, sizes, scratch);
        run.case(
            compared,
            || (Ints(src.to_vec()), sizes.to_vec(), scratch),
            |(src, sizes, scratch)| self.compare_read_ints(&src.0, sizes, *scratch),
            |(src, sizes, scratch)| {
                let (src, sizes) = (ints_short(&src.0), ints_short(sizes));
                format!("read_from_ints of {src}, sizes {sizes}, scratch {scratch}")
            },
        )
    }

    /// Reads bytes under known sizes, with a scratch of `scratch` entries.
    pub fn read(
        &mut self,
        run: &mut Run,
        src: &[u8],
        sizes: &[i32],
        scratch: usize,
    ) -> Result<(), Difference> {
        let compared = self.compare_read(src, sizes, scratch);
        run.case(
            compared,
            || (src.to_vec(), sizes.to_vec(), scratch),
            |(src, sizes, scratch)| self.compare_read(src, sizes, *scratch),
            |(src, sizes, scratch)| {
                let (src, sizes) = (hex_short(src), ints_short(sizes));
                format!("read of {src}, sizes {sizes}, scratch {scratch}")
            },
        )
    }

    /// The differences of an item, made and applied. `has` is the flag.
    pub fn item(
        &mut self,
        run: &mut Run,
        has: u32,
        from: &[i32],
        other: &[i32],
    ) -> Result<(), Difference> {
        let compared = self.compare_item(has, from, other);
        run.case(
            compared,
            || (has as usize, from.to_vec(), other.to_vec()),
            |(has, from, other)| self.compare_item(*has as u32, from, other),
            |(has, from, other)| {
                let (from, other) = (ints_short(from), ints_short(other));
                format!("item deltas, flag {has}, {from} and {other}")
            },
        )
    }

    /// The empty delta.
    pub fn clear(&mut self, run: &mut Run, len: usize) -> Result<(), Difference> {
        let compared = self.compare_clear(len);
        run.case(
            compared,
            || len,
            |len| self.compare_clear(*len),
            |len| format!("the empty delta into {len} ints"),
        )
    }

    fn compare_create(&mut self, base: &[i32], target: &[i32]) -> Compared {
        let said = oracle::created(base, target);
        let first = oracle::first_clash(base, target);
        assert_eq!(said == Told::Panicked, first.is_some());
        let [lent_base, lent_target] = &mut self.ints;
        let mut clash = LEFT_INT;
        compare_stored(
            &mut self.out,
            &said,
            10,
            |out, count| {
                plain::delta_create(
                    lent_base.lend_filled(base),
                    lent_target.lend_filled(target),
                    out,
                    count,
                    &mut clash,
                )
            },
            |out| delta::create(base, target, out).map_err(NoDelta::refusal),
        )?;
        left("base", self.ints[0].check(0, base))?;
        left("target", self.ints[1].check(0, target))?;
        Shown::compare(&first.unwrap_or(LEFT_INT), &clash)?;
        let Some(key) = first else { return Ok(()) };
        let told = delta::create(base, target, self.out.lend(1));
        Shown::compare(&Err(NoDelta::Clash(key)), &told)
    }

    fn compare_write(&mut self, area: &[i32], sizes: &[i32]) -> Compared {
        let held = oracle::held(area);
        let (ints, bytes) = match &held {
            Some(delta) => (
                oracle::written(delta, sizes, area.len()),
                oracle::packed(delta, sizes, area.len()),
            ),
            None => (Told::Refused(47), Told::Refused(47)),
        };
        compare_stored(
            &mut self.out,
            &ints,
            46,
            |out, count| plain::delta_write_to_ints(area, sizes, out, count),
            |out| delta::write_to_ints(area, sizes, out),
        )?;
        compare_stored(
            &mut self.bytes,
            &bytes,
            46,
            |out, count| plain::delta_write(area, sizes, out, count),
            |out| delta::write(area, sizes, out),
        )
    }

    fn compare_read_ints(&mut self, src: &[i32], sizes: &[i32], scratch: usize) -> Compared {
        let given = Given {
            src,
            sizes,
            scratch,
        };
        let said = oracle::read_from_ints(src, sizes, scratch);
        self.compare_reads(
            given,
            &said,
            plain::delta_read_from_ints,
            delta::read_from_ints,
        )
    }

    fn compare_read(&mut self, src: &[u8], sizes: &[i32], scratch: usize) -> Compared {
        let given = Given {
            src,
            sizes,
            scratch,
        };
        let said = oracle::read(src, sizes, scratch);
        self.compare_reads(given, &said, plain::delta_read, delta::read)
    }

    /// Reads a delta into room of all sorts; if it is refused, into two.
    fn compare_reads<T>(
        &mut self,
        given: Given<T>,
        (said, warnings): &(Told<oracle::Read>, Warnings),
        call: Reads<T>,
        safe: SafeReads<T>,
    ) -> Compared {
        let (needed, spares) = match said {
            Told::Value(read) => (read.room, &SPARES[..]),
            _ => (8, &[0, isize::MIN][..]),
        };
        let Given {
            src,
            sizes,
            scratch,
        } = given;
        for &spare in spares {
            let room = room(needed, spare);
            let (oracle, ints) = read_into(said, room);
            let mut port = Counted::LEFT;
            let mut port_warnings = LEFT_WARNINGS;
            let (out, lent) = (self.out.lend(room), self.scratch.lend(scratch));
            port.number = call(src, sizes, out, lent, &mut port.count, &mut port_warnings);
            Shown::compare(&(oracle, *warnings), &(port, port_warnings))?;
            left("out", self.out.check(0, ints))?;
            self.scratch.check()?;
        }
        let room = room(needed, 0);
        let (oracle, ints) = read_into(said, room);
        let (out, lent) = (self.out.lend(room), self.scratch.lend(scratch));
        let answer = safe(src, sizes, out, lent);
        Shown::compare(&(oracle.answer(), *warnings), &answer)?;
        left("out", self.out.check(0, ints))?;
        self.scratch.check()
    }

    fn compare_item(&mut self, has: u32, from: &[i32], other: &[i32]) -> Compared {
        let base = (has != 0).then_some(from);
        compare_stored(
            &mut self.out,
            &oracle::created_item(base, other),
            Told::<()>::PANICKED,
            |out, count| plain::create_item_delta(has, from, other, out, count),
            |out| delta::create_item(base, other, out),
        )?;
        compare_stored(
            &mut self.out,
            &oracle::applied_item(base, other),
            Told::<()>::PANICKED,
            |out, count| plain::apply_item_delta(has, from, other, out, count),
            |out| delta::apply_item(base, other, out),
        )
    }

    fn compare_clear(&mut self, len: usize) -> Compared {
        let written = oracle::written(&Delta::new(), &[], 3);
        let oracle = expected(&written, 0, len);
        let mut port = Counted::LEFT;
        port.number = plain::delta_clear(self.out.lend(len), &mut port.count);
        Shown::compare(&oracle, &port)?;
        let written = match oracle.number {
            0 => entries(&written),
            _ => &[],
        };
        left("out", self.out.check(0, written))?;
        Shown::compare(&oracle.answer(), &delta::clear(self.out.lend(len)))
    }
}
