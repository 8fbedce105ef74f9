//! Each call on a builder, on both sides.

use super::calls::Calls;
use super::oracle;
use crate::core::counted::left;
use crate::core::counted::Counted;
use crate::core::report::Compared;
use crate::core::report::Difference;
use crate::core::report::Run;
use crate::core::report::Shown;
use crate::core::text::ints_short;
use crate::parts::tables::inputs::List;
use cefdugar::builder;
use cefdugar::plain;
use cefdugar::snap::TypeId;
use libtw2_snapshot::snap::Builder;

impl Calls {
    /// A new builder in `len` ints.
    pub fn new_builder(&mut self, run: &mut Run, len: usize) -> Result<(), Difference> {
        let compared = self.compare_new(len);
        run.case(
            compared,
            || len,
            |len| self.compare_new(*len),
            |len| format!("a new builder in {len} ints"),
        )
    }

    /// Adds an item to a builder's area, which then holds what the port left.
    pub fn build(
        &mut self,
        run: &mut Run,
        area: &mut [i32],
        type_id: TypeId,
        id: u16,
        data: &[i32],
    ) -> Result<(), Difference> {
        let compared = self.compare_build(area, type_id, id, data);
        if compared.is_ok() {
            area.copy_from_slice(self.ints[0].now());
        }
        run.case(
            compared,
            || {
                (
                    (List(area.to_vec()), data.to_vec()),
                    type_id,
                    usize::from(id),
                )
            },
            |((area, data), type_id, id)| self.compare_build(&area.0, *type_id, *id as u16, data),
            |((area, data), type_id, id)| {
                let (area, data) = (ints_short(&area.0), ints_short(data));
                format!("builder's add_item of {type_id:?} {id} {data} to {area}")
            },
        )
    }

    /// How many ints a builder's table takes.
    pub fn finish(&mut self, run: &mut Run, area: &[i32]) -> Result<(), Difference> {
        run.case(
            compare_finish(area),
            || List(area.to_vec()),
            |area| compare_finish(&area.0),
            |area| format!("builder's finish of {}", ints_short(&area.0)),
        )
    }

    fn compare_new(&mut self, len: usize) -> Compared {
        let written = oracle::written(&Builder::new().finish());
        let oracle = Counted::fits(written.len(), len);
        let mut port = Counted::LEFT;
        let out = &mut self.lent.out;
        port.number = plain::builder_new(out.lend(len), &mut port.count);
        Shown::compare(&oracle, &port)?;
        let entries = match oracle.number {
            0 => &written[..],
            _ => &[],
        };
        left("out", out.check(0, entries))?;
        Shown::compare(&oracle.answer(), &builder::new(out.lend(len)))
    }

    fn compare_build(&mut self, area: &[i32], type_id: TypeId, id: u16, data: &[i32]) -> Compared {
        let (oracle, expected) = oracle::added(area, type_id, id, data);
        let mut safe = area.to_vec();
        let answer = builder::add_item(&mut safe, type_id, id, data);
        Shown::compare(&oracle.answer(), &answer)?;
        Shown::compare(&expected, &safe)?;

        let mut port = Counted::LEFT;
        let lent = self.ints[0].lend_filled(area);
        port.number = plain::builder_add_item(lent, &type_id.plain(), id, data, &mut port.count);
        Shown::compare(&oracle, &port)?;
        left("area", self.ints[0].check(0, &expected))
    }
}

fn compare_finish(area: &[i32]) -> Compared {
    let oracle = match oracle::builder(area) {
        Some(builder) => Counted {
            number: 0,
            count: oracle::written(&builder.finish()).len(),
        },
        None => Counted::refused(47),
    };
    let mut port = Counted::LEFT;
    port.number = plain::builder_finish(area, &mut port.count);
    Shown::compare(&oracle, &port)?;
    Shown::compare(&oracle.answer(), &builder::finish(area))
}
