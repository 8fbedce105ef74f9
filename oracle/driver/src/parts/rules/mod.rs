//! Rules: which item of a table wins for an ingredient.

mod bench;
mod calls;
mod inputs;
mod oracle;
mod record;

use super::packer::numbered;
use super::tables;
use super::tables::oracle::Item;
use super::Part;
use super::Rounds;
use crate::core::damage::damage;
use crate::core::random::Random;
use crate::core::report::Difference;
use crate::core::report::Length;
use crate::core::report::Run;
use calls::Calls;
use cefdugar::table;
use inputs::key;
use inputs::Rules;

pub fn part() -> Part {
    Part {
        name: "rules",
        rounds: Rounds {
            quick: 40,
            full: 100_000,
        },
        compare,
        record: Some(record::fill),
        bench: Some(bench::bench),
    }
}

type Result = std::result::Result<(), Difference>;

fn compare(run: &mut Run) -> Result {
    let mut calls = Calls::new();
    short_areas(run, &mut calls)?;
    few_rules(run, &mut calls)?;
    limits(run, &mut calls)?;
    long_lists(run, &mut calls)?;
    for round in 0..run.rounds {
        let mut random = run.random(round);
        random_rules(run, &mut calls, &mut random)?;
        damaged_rules(run, &mut calls, &mut random)?;
    }
    Ok(())
}

/// All lists of up to five ints over a small alphabet as areas: most hold no
/// table, and the tables have items of type 0 and of type 1, all of them short.
fn short_areas(run: &mut Run, calls: &mut Calls) -> Result {
    let lists = [vec![], vec![0], vec![1], vec![1, 0]];
    for len in 0..=5 {
        for number in 0..tables::inputs::TELLING.len().pow(len) {
            let area = numbered(number, len, &tables::inputs::TELLING);
            calls.area(run, &area, &lists, &[0])?;
        }
    }
    Ok(())
}

/// All tables of up to three items with four keys and up to four ints each,
/// under all lists of up to three types; those of up to two items also made in
/// other ways. Of three items, a quick run has two ingredients.
fn few_rules(run: &mut Run, calls: &mut Calls) -> Result {
    const INGREDIENTS: [i32; 3] = [0, 1, -1];
    let lists = inputs::short_lists();
    for count in 0..=3 {
        let ingredients = match (run.length, count) {
            (Length::Quick, 3) => 2,
            _ => 3,
        };
        let data = inputs::data(&INGREDIENTS[..ingredients]);
        inputs::few(count, &data, |area| {
            calls.area(run, area, &lists, &INGREDIENTS)?;
            if count < 3 {
                calls.made_again(run, area, &[1, 0x7fff, 0x8000], 0)?;
            }
            Ok(())
        })?;
    }
    Ok(())
}

/// A rule for ingredient 5 with this number: eight types lie on both sides of
/// 8000 hex.
fn nth(i: usize, priority: i32) -> Item {
    let raw_type_id = (i % 8) as u16 + 0x7ffc;
    (
        key(raw_type_id, (i / 8) as u16),
        vec![5, priority, i as i32],
    )
}

/// As many rules as a table can have: all equal, one above the others, one
/// short; and rules that are as long as a table can have them.
fn limits(run: &mut Run, calls: &mut Calls) -> Result {
    let all: Vec<u16> = (0x7ffc..0x8004).collect();
    let lists = [all.clone(), all[..4].to_vec(), all[4..].to_vec(), vec![1]];
    let ends = [i32::MIN, -1, 0, i32::MAX];
    for count in [table::ITEMS - 1, table::ITEMS] {
        for least in ends {
            let items: Vec<Item> = (0..count).map(|i| nth(i, least)).collect();
            calls.area(run, &inputs::area(&items), &lists, &[5, 0])?;
            for place in [0, 1, 3, 4, 500, count - 1] {
                for above in ends {
                    let mut items = items.clone();
                    items[place].1[1] = above;
                    calls.area(run, &inputs::area(&items), &lists, &[5])?;
                    items[place].1.truncate(2);
                    calls.area(run, &inputs::area(&items), &lists, &[5])?;
                }
            }
        }
    }
    let lists = [vec![1, 0xffff], vec![1], vec![0xffff]];
    for len in [2, 3, 16_373, 16_374] {
        let items = [(key(1, 0), vec![5; len]), (key(0xffff, 0xffff), vec![5; 3])];
        calls.area(run, &inputs::area(&items), &lists, &[5])?;
    }
    Ok(())
}

/// Long lists of types, of which none, the first or the last is there, and an
/// area of more ints than are read anywhere.
fn long_lists(run: &mut Run, calls: &mut Calls) -> Result {
    let items: Vec<Item> = (0..200).map(|i| nth(i, i as i32 / 32)).collect();
    let mut area = inputs::area(&items);
    let mut lists = vec![];
    for len in [1_000, 65_536, table::INPUT + 1] {
        for raw_type_id in [0x1234, 0x7ffc, 0x8003] {
            let mut list = vec![1; len];
            lists.push(list.clone());
            list[0] = raw_type_id;
            lists.push(list.clone());
            list.reverse();
            lists.push(list);
        }
    }
    lists.push((0..=0xffff).collect());
    lists.push((0..=0xffff).rev().collect());
    calls.area(run, &area, &lists, &[5])?;
    area.resize(table::INPUT + 1, 3);
    calls.area(run, &area, &lists[..3], &[5, 0])
}

/// Random tables under random lists, with ints behind them, and made in other
/// ways.
fn random_rules(run: &mut Run, calls: &mut Calls, random: &mut Random) -> Result {
    for _ in 0..60 {
        let rules = Rules::any(random, table::ITEMS);
        let mut lists: Vec<Vec<u16>> = (0..6).map(|_| rules.list(random)).collect();
        lists.push(rules.types.clone());
        let mut ingredients = rules.ingredients.clone();
        ingredients.push(random.int());
        let mut area = inputs::area(&rules.items);
        calls.area(run, &area, &lists, &ingredients)?;
        let types = &lists[random.below(lists.len())];
        calls.made_again(run, &area, types, random.pick(&ingredients))?;
        for i in 0..random.between(1, 9) {
            let copied = area[random.below(area.len())];
            area.push(if i % 2 == 0 { copied } else { random.int() });
        }
        calls.area(run, &area, &lists[..3], &ingredients)?;
    }
    Ok(())
}

/// Random tables, damaged: some areas then hold no table, some another one.
fn damaged_rules(run: &mut Run, calls: &mut Calls, random: &mut Random) -> Result {
    for _ in 0..100 {
        let rules = Rules::any(random, 20);
        let mut area = inputs::area(&rules.items);
        if random.chance(1, 2) {
            tables::inputs::misread(&mut area, &rules.items, random);
        } else {
            for _ in 0..random.between(1, 3) {
                damage(&mut area, random);
            }
        }
        let lists = [rules.list(random), rules.types];
        calls.area(run, &area, &lists, &rules.ingredients)?;
    }
    Ok(())
}
