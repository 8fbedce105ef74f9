//! Each call that makes a table, on both sides: the answer, what was set, what
//! was unchanged.

use super::oracle;
use super::oracle::Made;
use crate::core::area::Area;
use crate::core::area::LEFT_SIZE;
use crate::core::counted::left;
use crate::core::counted::room;
use crate::core::counted::Counted;
use crate::core::report::Compared;
use crate::core::report::Difference;
use crate::core::report::Run;
use crate::core::report::Shown;
use crate::core::scratch::Scratch;
use crate::core::text::hex_short;
use crate::core::text::ints_short;
use crate::core::told::Told;
use crate::parts::deltas::inputs::Ints;
use crate::parts::tables::inputs::List;
use cefdugar::plain;
use cefdugar::snap;
use cefdugar::table;
use cefdugar::Refusal;
use cefdugar::Warnings;

const LEFT_WARNINGS: Warnings = Warnings([LEFT_SIZE; cefdugar::WARNINGS]);

/// Room to spare: none, one too little, some, no room at all.
const SPARES: [isize; 4] = [0, -1, 3, isize::MIN];

/// A call that makes a table: `out`, scratch, the count, the warnings.
type Makes<'a> = &'a mut dyn FnMut(&mut [i32], &mut [i32], &mut usize, &mut Warnings) -> u32;
/// The safe form of the same call.
type SafeMakes<'a> =
    &'a mut dyn FnMut(&mut [i32], &mut [i32]) -> (Result<usize, Refusal>, Warnings);
/// A call that applies a delta to a base.
type Applies = fn(&[i32], &[i32], &mut [i32], &mut [i32], &mut usize, &mut Warnings) -> u32;
/// The safe form of the same call.
type SafeApplies = fn(&[i32], &[i32], &mut [i32], &mut [i32]) -> (Result<usize, Refusal>, Warnings);

/// What the caller must hold after a table was to be made in `room` ints, and
/// what the area must hold.
fn made_in(said: &Told<Vec<i32>>, room: usize) -> (Counted, &[i32]) {
    match said {
        Told::Value(ints) if ints.len() <= room => (Counted::fits(ints.len(), room), ints),
        Told::Value(_) => (Counted::refused(40), &[]),
        said => (Counted::refused(said.number()), &[]),
    }
}

/// Where tables are made.
pub struct Lent {
    pub out: Area<i32>,
    scratch: Scratch,
}

impl Lent {
    /// Makes a table in room of all sorts; if it is refused, in two.
    fn compare_made(
        &mut self,
        scratch: usize,
        (said, warnings): &Made,
        call: Makes,
        safe: SafeMakes,
    ) -> Compared {
        let (needed, spares) = match said {
            Told::Value(ints) => (ints.len(), &SPARES[..]),
            _ => (8, &[0, isize::MIN][..]),
        };
        for &spare in spares {
            let room = room(needed, spare);
            let (oracle, ints) = made_in(said, room);
            let mut port = Counted::LEFT;
            let mut port_warnings = LEFT_WARNINGS;
            let (out, lent) = (self.out.lend(room), self.scratch.lend(scratch));
            port.number = call(out, lent, &mut port.count, &mut port_warnings);
            Shown::compare(&(oracle, *warnings), &(port, port_warnings))?;
            left("out", self.out.check(0, ints))?;
            self.scratch.check()?;
        }
        let (oracle, ints) = made_in(said, needed);
        let (out, lent) = (self.out.lend(needed), self.scratch.lend(scratch));
        let answer = safe(out, lent);
        Shown::compare(&(oracle.answer(), *warnings), &answer)?;
        left("out", self.out.check(0, ints))?;
        self.scratch.check()
    }
}

/// The port's areas, lent repeatedly.
pub struct Calls {
    pub ints: [Area<i32>; 2],
    pub lent: Lent,
}

impl Calls {
    pub fn new() -> Calls {
        Calls {
            ints: [Area::new(), Area::new()],
            lent: Lent {
                out: Area::new(),
                scratch: Scratch::default(),
            },
        }
    }

    /// Applies a delta to a table, with and without judging its types.
    pub fn apply(
        &mut self,
        run: &mut Run,
        base: &[i32],
        delta: &[i32],
        scratch: usize,
    ) -> Result<(), Difference> {
        let compared = self.compare_apply(base, delta, scratch);
        run.case(
            compared,
            || (List(base.to_vec()), Ints(delta.to_vec()), scratch),
            |(base, delta, scratch)| self.compare_apply(&base.0, &delta.0, *scratch),
            |(base, delta, scratch)| {
                let (base, delta) = (ints_short(&base.0), ints_short(&delta.0));
                format!("read_with_delta from {base} by {delta}, scratch {scratch}")
            },
        )
    }

    /// Reads ints with types.
    pub fn read_ints(
        &mut self,
        run: &mut Run,
        src: &[i32],
        scratch: usize,
    ) -> Result<(), Difference> {
        let compared = self.compare_read_ints(src, scratch);
        run.case(
            compared,
            || (List(src.to_vec()), scratch),
            |(src, scratch)| self.compare_read_ints(&src.0, *scratch),
            |(src, scratch)| {
                let src = ints_short(&src.0);
                format!("typed read_from_ints of {src}, scratch {scratch}")
            },
        )
    }

    /// Reads bytes with types.
    pub fn read(&mut self, run: &mut Run, src: &[u8], scratch: usize) -> Result<(), Difference> {
        let compared = self.compare_read(src, scratch);
        run.case(
            compared,
            || (src.to_vec(), scratch),
            |(src, scratch)| self.compare_read(src, *scratch),
            |(src, scratch)| format!("typed read of {}, scratch {scratch}", hex_short(src)),
        )
    }

    fn compare_apply(&mut self, base: &[i32], delta: &[i32], scratch: usize) -> Compared {
        let said = oracle::applied(base, delta, scratch);
        let raw: Applies = plain::table_read_with_delta;
        self.compare_applies(base, delta, scratch, &said, raw, table::read_with_delta)?;
        let said = oracle::applied_typed(base, delta, scratch);
        let typed: Applies = plain::snap_read_with_delta;
        self.compare_applies(base, delta, scratch, &said, typed, snap::read_with_delta)
    }

    fn compare_applies(
        &mut self,
        base: &[i32],
        delta: &[i32],
        scratch: usize,
        said: &Made,
        call: Applies,
        safe: SafeApplies,
    ) -> Compared {
        let [lent_base, lent_delta] = &mut self.ints;
        let (from, by) = (lent_base.lend_filled(base), lent_delta.lend_filled(delta));
        self.lent.compare_made(
            scratch,
            said,
            &mut |out, scratch, count, warnings| call(from, by, out, scratch, count, warnings),
            &mut |out, scratch| safe(base, delta, out, scratch),
        )?;
        left("base", lent_base.check(0, base))?;
        left("delta", lent_delta.check(0, delta))
    }

    fn compare_read_ints(&mut self, src: &[i32], scratch: usize) -> Compared {
        let said = oracle::read_from_ints(src, scratch);
        self.lent.compare_made(
            scratch,
            &said,
            &mut |out, scratch, count, warnings| {
                plain::snap_read_from_ints(src, out, scratch, count, warnings)
            },
            &mut |out, scratch| snap::read_from_ints(src, out, scratch),
        )
    }

    fn compare_read(&mut self, src: &[u8], scratch: usize) -> Compared {
        let said = oracle::read(src, scratch);
        self.lent.compare_made(
            scratch,
            &said,
            &mut |out, scratch, count, warnings| {
                plain::snap_read(src, out, scratch, count, warnings)
            },
            &mut |out, scratch| snap::read(src, out, scratch),
        )
    }
}
