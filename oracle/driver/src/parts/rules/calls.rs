//! The call on both sides: the answer, what was set, what was unchanged.

use super::inputs;
use super::oracle;
use super::oracle::Won;
use crate::core::area::Area;
use crate::core::area::LEFT_FLAG;
use crate::core::area::LEFT_INT;
use crate::core::counted::left;
use crate::core::report::Compared;
use crate::core::report::Difference;
use crate::core::report::Run;
use crate::core::report::Shown;
use crate::core::text::ints_short;
use crate::parts::tables::inputs::List;
use crate::parts::tables::oracle::held;
use cefdugar::plain;
use cefdugar::rules;
use cefdugar::Refusal;
use libtw2_snapshot::snap::RawSnap;

/// What the caller holds after a call.
#[derive(Clone, Copy, Debug, PartialEq)]
struct Held {
    number: u32,
    found: u32,
    key: i32,
    action: i32,
}

/// What the caller may hold before it.
const BEFORE: [Held; 3] = [
    Held {
        number: 0,
        found: LEFT_FLAG,
        key: LEFT_INT,
        action: !LEFT_INT,
    },
    Held {
        number: 0,
        found: 0,
        key: 0,
        action: 0,
    },
    Held {
        number: 0,
        found: 1,
        key: -1,
        action: i32::MIN,
    },
];

impl Held {
    /// After a call with this answer.
    fn after(self, won: &Won) -> Held {
        match *won {
            Ok(Some(winner)) => Held {
                number: 0,
                found: 1,
                key: winner.key,
                action: winner.action,
            },
            Ok(None) => Held {
                number: 0,
                found: 0,
                ..self
            },
            Err(number) => Held { number, ..self },
        }
    }
}

/// An area, a list of types and an ingredient.
type Question = (List, Vec<u16>, i32);

fn print((area, types, ingredient): &Question) -> String {
    let most = types.len().min(60);
    let more = if most < types.len() { ".." } else { "" };
    let (area, listed) = (ints_short(&area.0), &types[..most]);
    format!("the winner for {ingredient} of the types {listed:?}{more} in {area}")
}

/// The port's areas, lent repeatedly.
pub struct Calls {
    area: Area<i32>,
    types: Area<u16>,
}

impl Calls {
    pub fn new() -> Calls {
        Calls {
            area: Area::new(),
            types: Area::new(),
        }
    }

    /// Asks an area for the winner of each ingredient under each list of types.
    pub fn area(
        &mut self,
        run: &mut Run,
        area: &[i32],
        lists: &[Vec<u16>],
        ingredients: &[i32],
    ) -> Result<(), Difference> {
        let table = held(area);
        for types in lists {
            for &ingredient in ingredients {
                let compared = self.compare(table.as_ref(), area, types, ingredient);
                run.case(
                    compared,
                    || (List(area.to_vec()), types.clone(), ingredient),
                    |(area, types, ingredient)| {
                        let table = held(&area.0);
                        self.compare(table.as_ref(), &area.0, types, *ingredient)
                    },
                    print,
                )?;
            }
        }
        Ok(())
    }

    /// Makes the table of an area in other ways: each must have its winners.
    pub fn made_again(
        &mut self,
        run: &mut Run,
        area: &[i32],
        types: &[u16],
        ingredient: i32,
    ) -> Result<(), Difference> {
        let compared = self.compare_again(area, types, ingredient);
        run.case(
            compared,
            || (List(area.to_vec()), types.to_vec(), ingredient),
            |(area, types, ingredient)| self.compare_again(&area.0, types, *ingredient),
            |question| format!("{}, made again", print(question)),
        )
    }

    /// Asks an area for the winner that the Rust's table has.
    fn compare(
        &mut self,
        table: Option<&RawSnap>,
        area: &[i32],
        types: &[u16],
        ingredient: i32,
    ) -> Compared {
        let won = oracle::winner_in(table, types, ingredient);
        let lent = self.area.lend_filled(area);
        let lent_types = self.types.lend_filled(types);
        for before in BEFORE {
            let mut port = before;
            port.number = plain::rule_winner(
                lent,
                lent_types,
                ingredient,
                &mut port.found,
                &mut port.key,
                &mut port.action,
            );
            Shown::compare(&before.after(&won), &port)?;
        }
        let safe = rules::winner(lent, lent_types, ingredient);
        Shown::compare(&won.map_err(Refusal), &safe)?;
        left("area", self.area.check(0, area))?;
        left("types", self.types.check(0, types))
    }

    fn compare_again(&mut self, area: &[i32], types: &[u16], ingredient: i32) -> Compared {
        let Some(table) = held(area) else {
            return Ok(());
        };
        for made in inputs::made_again(&table) {
            self.compare(Some(&table), &made, types, ingredient)?;
        }
        Ok(())
    }
}
