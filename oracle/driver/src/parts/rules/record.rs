//! Recorded answers on rules: those of the model, since the Rust has no such
//! call.
//!
//!     w INGREDIENT COUNT TYPE.. INT..   KEY ACTION, none, or refused NUMBER
//!                                       (COUNT types, an area)

use super::inputs;
use super::inputs::key;
use super::inputs::Rules;
use super::oracle;
use crate::core::damage::damage;
use crate::core::random::Random;
use crate::core::record::Record;
use crate::parts::tables::oracle::Item;

const MOST_INTS: usize = 64;
const MOST_TYPES: usize = 8;

/// Keys of the types 1, 7fff and 8000 hex; the last two are neighbours, read as
/// unsigned.
const SHORT_NAME: i32 = 0x1_0003;
const LAST: i32 = i32::MAX;
const ALLERGEN_BOLD: i32 = i32::MIN;

/// ` NUMBER..`
fn numbers<T: ToString>(list: &[T]) -> String {
    list.iter().map(|n| format!(" {}", n.to_string())).collect()
}

fn area(record: &mut Record, area: &[i32], types: &[u16], ingredient: i32) {
    assert!(area.len() <= MOST_INTS && types.len() <= MOST_TYPES);
    let answer = match oracle::winner(area, types, ingredient) {
        Ok(Some(winner)) => format!("{} {}", winner.key, winner.action),
        Ok(None) => "none".to_string(),
        Err(number) => format!("refused {number}"),
    };
    let (count, types, ints) = (types.len(), numbers(types), numbers(area));
    record.case(&format!("w {ingredient} {count}{types}{ints}"), &answer);
}

/// The winner for ingredient 5 among items with this data.
fn rules(record: &mut Record, items: &[(i32, &[i32])], types: &[u16]) {
    let items: Vec<Item> = items
        .iter()
        .map(|(key, data)| (*key, data.to_vec()))
        .collect();
    area(record, &inputs::area(&items), types, 5);
}

/// The case of the request, each refusal, lists of all sorts, then random ones.
pub fn fill(record: &mut Record, random: &mut Random) {
    orders(record);
    refusals(record);
    lists(record);
    random_cases(record, random);
}

/// Short name and allergen bold, and other rules that come first by priority or
/// key.
fn orders(record: &mut Record) {
    const KEYS: [i32; 3] = [SHORT_NAME, LAST, ALLERGEN_BOLD];
    const TYPES: [u16; 3] = [1, 0x7fff, 0x8000];
    let both = |record: &mut Record, first: &[i32], second: &[i32], keys: [i32; 2]| {
        rules(record, &[(keys[0], first), (keys[1], second)], &TYPES);
    };
    for keys in [[0, 2], [1, 2], [0, 1]].map(|places| places.map(|i: usize| KEYS[i])) {
        for priorities in [[2, 2], [3, 2], [2, 3], [-2, -3], [-1, 0]] {
            let [first, second] = priorities;
            both(record, &[5, first, 10], &[5, second, 20], keys);
        }
    }
    let ends = [SHORT_NAME, ALLERGEN_BOLD];
    for [first, second] in [[i32::MIN, i32::MAX], [i32::MAX, i32::MIN], [i32::MIN; 2]] {
        both(record, &[5, first, 10], &[5, second, 20], ends);
    }
    both(record, &[5, 2, 10], &[6, 2, 20], ends);
    both(record, &[6, 2, 10], &[7, 2, 20], ends);
    both(record, &[5, 2, 10, 9, 9], &[5, 2, 20, -9], ends);
    both(record, &[5, 2, i32::MIN], &[5, 1, 20], ends);
    let three = KEYS.map(|key| (key, &[5, 0, 1][..]));
    rules(record, &three, &TYPES);
    rules(record, &[(0, &[5, 1, 7]), (-1, &[5, 1, 8])], &[0, 0xffff]);
    rules(record, &[(0, &[5, 1, 7]), (-1, &[5, 0, 8])], &[0, 0xffff]);
}

/// 55 for each length, beside a winner and for another ingredient; 47, also
/// before 55.
fn refusals(record: &mut Record) {
    const SHORT: [&[i32]; 3] = [&[], &[5], &[6, 9]];
    for short in SHORT {
        for key in [SHORT_NAME, ALLERGEN_BOLD] {
            for types in [&[1, 0x7fff, 0x8000][..], &[0x7fff]] {
                rules(record, &[(LAST, &[5, 3, 10]), (key, short)], types);
            }
        }
    }
    let whole = inputs::area(&[(SHORT_NAME, vec![5, 1, 10]), (LAST, vec![5])]);
    for len in 0..whole.len() {
        area(record, &whole[..len], &[1, 0x7fff], 5);
    }
    for types in [&[1, 0x7fff][..], &[1], &[0x7fff], &[2], &[]] {
        area(record, &whole, types, 5);
    }
    for (at, change) in [(0, 4), (1, 1), (3, 4), (4, i32::MIN)] {
        let mut changed = whole.clone();
        changed[at] = changed[at].wrapping_add(change);
        area(record, &changed, &[1, 0x7fff], 5);
    }
}

/// The empty list and table, 0, types that repeat or are not there, and ints
/// behind the table.
fn lists(record: &mut Record) {
    let items = [
        (key(0, 4), vec![5, 1, 10]),
        (key(1, 4), vec![5, 1, 20]),
        (key(1, 9), vec![5, -1, 30]),
        (key(0x8000, 4), vec![5, 0, 40]),
    ];
    let mut ints = inputs::area(&items);
    for types in [
        &[][..],
        &[0],
        &[1],
        &[0x8000],
        &[2],
        &[0, 0x8000],
        &[1, 1],
        &[0x8000, 1, 0x8000, 0],
        &[2, 3, 4, 5, 6, 7, 8, 0x8000],
    ] {
        area(record, &ints, types, 5);
    }
    area(record, &ints, &[0, 1, 0x8000], 6);
    ints.extend([key(1, 9), 5, 8, 50]);
    area(record, &ints, &[0, 1, 0x8000], 5);
    for types in [&[][..], &[0], &[0, 1]] {
        area(record, &[0, 0], types, 5);
        area(record, &[0, 0, 5, 5, 5], types, 5);
    }
}

fn random_cases(record: &mut Record, random: &mut Random) {
    for i in 0..15 {
        let rules = Rules::any(random, 8);
        let mut ints = inputs::area(&rules.items);
        if i % 6 == 5 {
            damage(&mut ints, random);
        }
        ints.truncate(MOST_INTS);
        let mut types = rules.list(random);
        types.truncate(MOST_TYPES);
        area(record, &ints, &types, random.pick(&rules.ingredients));
        area(record, &ints, &rules.types, random.pick(&rules.ingredients));
    }
}
