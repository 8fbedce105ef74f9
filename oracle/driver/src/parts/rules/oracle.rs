//! The winner among the rules of a table, by the words of docs/FORMAT.md, since
//! the Rust has no such call: the Rust reads the table, and its items are
//! sorted.

use crate::parts::tables::oracle::held;
use cefdugar::rules::Winner;
use libtw2_snapshot::format::RawItem;
use libtw2_snapshot::snap::RawSnap;

/// The winner, or none, or the number of the refusal.
pub type Won = Result<Option<Winner>, u32>;

/// The winner in the table that an area begins with.
pub fn winner(area: &[i32], types: &[u16], ingredient: i32) -> Won {
    winner_in(held(area).as_ref(), types, ingredient)
}

/// The winner in a table, or 47 if there is none.
pub fn winner_in(table: Option<&RawSnap>, types: &[u16], ingredient: i32) -> Won {
    let table = table.ok_or(47u32)?;
    let rules: Vec<RawItem> = table
        .items()
        .filter(|item| types.contains(&item.raw_type_id))
        .collect();
    if rules.iter().any(|rule| rule.data.len() < 3) {
        return Err(55);
    }
    let mut matching: Vec<RawItem> = rules
        .into_iter()
        .filter(|rule| rule.data[0] == ingredient)
        .collect();
    matching.sort_by_key(|rule| (rule.data[1], rule.key() as u32));
    Ok(matching.last().map(|rule| Winner {
        key: rule.key(),
        action: rule.data[2],
    }))
}
