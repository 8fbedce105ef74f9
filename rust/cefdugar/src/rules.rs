//! Which rule of a table prints.

use crate::answer;
use crate::plain;
use crate::Refusal;

/// The rule that wins.
#[derive(Clone, Copy, Debug, Eq, Hash, PartialEq)]
pub struct Winner {
    pub key: i32,
    pub action: i32,
}

/// The winner for `ingredient` among the items of the raw types in `types`,
/// which have ingredient, priority and action as their first three ints: the
/// rule with the highest priority, and among equals with the greatest key,
/// read as unsigned; none where no rule is for this ingredient. Refused:
/// `NOT_IN_FORM`; `SHORT_RULE` where an item of these types has fewer than
/// three ints, for whatever ingredient.
///
/// Raw types are in any order, may be repeated, and may be 0. That of a kind
/// is what [`snap::raw_type_id`](crate::snap::raw_type_id) gives.
pub fn winner(area: &[i32], types: &[u16], ingredient: i32) -> Result<Option<Winner>, Refusal> {
    let (mut found, mut key, mut action) = (0, 0, 0);
    let number = plain::rule_winner(area, types, ingredient, &mut found, &mut key, &mut action);
    answer(number, (found != 0).then_some(Winner { key, action }))
}
