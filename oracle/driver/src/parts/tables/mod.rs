//! Tables of keyed items: reading, writing, queries, walks, adding.

mod bench;
mod calls;
pub mod inputs;
pub mod oracle;
mod record;

use super::packer::loose;
use super::packer::numbered;
use super::packer::packed;
use super::packer::with_five_bytes;
use super::packer::with_twice_five_bytes;
use super::Part;
use super::Rounds;
use crate::core::damage::damage;
use crate::core::random::Random;
use crate::core::report::Difference;
use crate::core::report::Length;
use crate::core::report::Run;
use calls::Calls;
use cefdugar::table;
use oracle::Item;

pub fn part() -> Part {
    Part {
        name: "tables",
        rounds: Rounds {
            quick: 150,
            full: 200_000,
        },
        compare,
        record: Some(record::fill),
        bench: Some(bench::bench),
    }
}

type Result = std::result::Result<(), Difference>;

fn compare(run: &mut Run) -> Result {
    let mut calls = Calls::new();
    for len in 0..=4 {
        calls.empty(run, len)?;
    }
    short_lists(run, &mut calls)?;
    few_items(run, &mut calls)?;
    short_strings(run, &mut calls)?;
    five_bytes(run, &mut calls)?;
    limits(run, &mut calls)?;
    lengths(run, &mut calls)?;
    for round in 0..run.rounds {
        let mut random = run.random(round);
        random_tables(run, &mut calls, &mut random)?;
        random_adds(run, &mut calls, &mut random)?;
        random_strings(run, &mut calls, &mut random)?;
    }
    Ok(())
}

/// Scratch of exactly enough entries for `src`.
fn scratch(src: &[u8]) -> usize {
    src.len().max(table::SCRATCH)
}

/// Reads ints into exactly enough room, one less, one more and none; then
/// makes all queries of them as an area.
fn everything(run: &mut Run, calls: &mut Calls, ints: &[i32]) -> Result {
    for spare in [0, -1, 1, isize::MIN] {
        calls.read_ints(run, ints, spare)?;
    }
    calls.area(run, ints)
}

/// All lists of up to six ints over a small alphabet; seven in a full run.
fn short_lists(run: &mut Run, calls: &mut Calls) -> Result {
    let most = match run.length {
        Length::Quick => 6,
        Length::Full => 7,
    };
    for len in 0..=most {
        for number in 0..inputs::TELLING.len().pow(len) {
            let list = numbered(number, len, &inputs::TELLING);
            calls.read_ints(run, &list, 0)?;
            calls.area(run, &list)?;
        }
    }
    Ok(())
}

/// All tables of up to three items with a few keys, with up to two ints each:
/// in every order, keys doubled.
fn few_items(run: &mut Run, calls: &mut Calls) -> Result {
    for count in 0..=3 {
        for number in 0..inputs::KEYS.len().pow(count) {
            let keys = numbered(number, count, &inputs::KEYS);
            for number in 0..3usize.pow(count) {
                let lens = numbered(number, count, &[0, 1, 2]);
                let items: Vec<Item> = keys
                    .iter()
                    .zip(&lens)
                    .map(|(&key, &len)| (key, (0..len).map(|i| key ^ (5 << i)).collect()))
                    .collect();
                let ints = inputs::listed(&items);
                everything(run, calls, &ints)?;
                adds(run, calls, &items, ints.len())?;
            }
        }
    }
    Ok(())
}

/// Adds items one by one in areas of just enough room, one less and some
/// more.
fn adds(run: &mut Run, calls: &mut Calls, items: &[Item], needed: usize) -> Result {
    for room in [needed, needed.saturating_sub(1).max(2), needed + 5] {
        let mut area = vec![0; room];
        for (key, data) in items {
            calls.add(run, &mut area, *key, data)?;
        }
        calls.area(run, &area)?;
    }
    Ok(())
}

/// All byte strings of up to two bytes, and of four to five over a small
/// alphabet.
fn short_strings(run: &mut Run, calls: &mut Calls) -> Result {
    const TELLING: [u8; 6] = [0x00, 0x01, 0x02, 0x04, 0x40, 0x80];
    let mut read = |src: &[u8]| calls.read(run, src, 0, table::SCRATCH);
    read(&[])?;
    for a in 0..=255 {
        read(&[a])?;
        for b in (0..=255).step_by(5) {
            read(&[a, b])?;
        }
    }
    for len in 3..=5 {
        for number in 0..TELLING.len().pow(len) {
            read(&numbered(number, len, &TELLING))?;
        }
    }
    Ok(())
}

/// All strings of up to five ints over a small alphabet with an overlong int and
/// a padded one, six in a full run; whole tables with ints of five bytes in every
/// two places, also behind the table.
fn five_bytes(run: &mut Run, calls: &mut Calls) -> Result {
    const TELLING: [&[u8]; 7] = [
        &[0x00],
        &[0x01],
        &[0x04],
        &[0x08],
        &[0x40],
        &[0x80, 0x80, 0x80, 0x80, 0x00],
        &[0x80, 0x80, 0x80, 0x80, 0x10],
    ];
    let most = match run.length {
        Length::Quick => 5,
        Length::Full => 6,
    };
    for len in 0..=most {
        for number in 0..TELLING.len().pow(len) {
            let src = numbered(number, len, &TELLING).concat();
            calls.read(run, &src, 0, table::SCRATCH)?;
        }
    }
    let tables: [&[Item]; 3] = [
        &[],
        &[(65_538, vec![7])],
        &[(-1, vec![]), (3, vec![40, -1])],
    ];
    for items in tables {
        let ints = inputs::listed(items);
        let once = with_five_bytes(&ints);
        for src in once.iter().chain(&with_twice_five_bytes(&ints)) {
            for spare in [0, isize::MIN] {
                calls.read(run, src, spare, table::SCRATCH)?;
            }
        }
    }
    Ok(())
}

/// Tables with about the most items and the most ints.
fn limits(run: &mut Run, calls: &mut Calls) -> Result {
    let mut tables = vec![];
    for count in [1_023, 1_024, 1_025, 1_026] {
        tables.push(inputs::many(count, 0));
        tables.push(inputs::many(count, 4 * count));
    }
    for count in [1, 2, 7, 1_000, 1_023, 1_024, 1_025] {
        for ints in 0..=4 {
            tables.push(inputs::many(count, 16_380 + ints - 2 * count));
        }
    }
    for items in &tables {
        let ints = inputs::listed(items);
        everything(run, calls, &ints)?;
        let src = packed(&ints);
        for spare in [0, -1] {
            calls.read(run, &src, spare, scratch(&src))?;
        }
    }
    // A key that comes twice, at the end of a table that is full or more than full.
    for (count, ints) in [(1_023, 0), (1_024, 0), (1_025, 0), (1_000, 14_382)] {
        let mut items = inputs::many(count, ints);
        items.push(items[3].clone());
        everything(run, calls, &inputs::listed(&items))?;
    }
    // Items added to tables that are full, or nearly.
    for (count, ints) in [
        (1_022, 0),
        (1_023, 0),
        (1_024, 0),
        (1_000, 14_375),
        (1_000, 14_380),
        (1_000, 14_382),
        (1_024, 14_334),
    ] {
        let mut area = vec![0; 16_400];
        let ints = inputs::listed(&sorted(&inputs::many(count, ints)));
        area[..ints.len()].copy_from_slice(&ints);
        calls.area(run, &area)?;
        for key in [77, 78, 0, i32::MIN, -1] {
            for len in [3, 0, 1] {
                let data = vec![-9; len];
                calls.add(run, &mut area.clone(), key, &data)?;
                calls.add(run, &mut ints.clone(), key, &data)?;
            }
        }
    }
    for len in 16_379..=16_382 {
        let mut area = vec![0; 16_400];
        calls.add(run, &mut area, -1, &vec![8; len])?;
        calls.add(run, &mut area, 1, &[])?;
    }
    // A whole table item by item, in both directions.
    for turned in [false, true] {
        let mut items = inputs::many(if turned { 300 } else { 1_026 }, 700);
        if turned {
            items.reverse();
        }
        let mut area = vec![0; 4_000];
        for (key, data) in &items {
            calls.add(run, &mut area, *key, data)?;
        }
        calls.area(run, &area)?;
    }
    Ok(())
}

/// Items in the order of a written table.
pub fn sorted(items: &[Item]) -> Vec<Item> {
    let mut items = items.to_vec();
    items.sort_by_key(|(key, _)| *key as u32);
    items
}

/// Inputs and scratch of about the lengths that are judged.
fn lengths(run: &mut Run, calls: &mut Calls) -> Result {
    const MOST: usize = table::INPUT;
    for len in [MOST - 1, MOST, MOST + 1] {
        for header in [[0, 0], [4, 0], [0, 1]] {
            let mut ints = vec![0; len];
            ints[..2].copy_from_slice(&header);
            calls.read_ints(run, &ints, 0)?;
            let mut src = vec![0; len];
            src[0] = header[0] as u8;
            src[1] = header[1] as u8;
            for scratch in [len, len - 1, len + 1] {
                calls.read(run, &src, 0, scratch)?;
                src[len - 5..].copy_from_slice(&[0x80, 0x80, 0x80, 0x80, 0x10]);
                calls.read(run, &src, 0, scratch)?;
                src[len - 5..].fill(0);
            }
        }
    }
    // The lengths of areas and of data are not judged.
    let mut area = vec![0; MOST + 1];
    for (key, len) in [(-1, 3), (7, 0), (i32::MIN, 2), (1, MOST + 1), (2, 16_370)] {
        calls.add(run, &mut area, key, &vec![key; len])?;
    }
    calls.area(run, &area)?;
    let good = packed(&inputs::listed(&[(1, vec![2, 3])]));
    for scratch in [0, 1, 16_383, 16_384, 16_385] {
        for spare in [0, -1] {
            calls.read(run, &good, spare, scratch)?;
        }
    }
    let long = vec![0x01; 20_000];
    for scratch in [16_384, 19_999, 20_000] {
        calls.read(run, &long, 0, scratch)?;
    }
    Ok(())
}

fn random_tables(run: &mut Run, calls: &mut Calls, random: &mut Random) -> Result {
    for _ in 0..300 {
        let items = inputs::items(random);
        let mut ints = inputs::listed(&items);
        everything(run, calls, &ints)?;
        everything(run, calls, &inputs::listed(&sorted(&items)))?;
        let src = packed(&ints);
        calls.read(run, &src, random.pick(&[0, 0, 1, -1]), scratch(&src))?;

        inputs::misread(&mut ints, &items, random);
        everything(run, calls, &ints)?;
        let src = packed(&ints);
        calls.read(run, &src, 0, scratch(&src))?;

        let mut ints = inputs::listed(&sorted(&items));
        for _ in 0..random.between(1, 3) {
            damage(&mut ints, random);
        }
        everything(run, calls, &ints)?;

        let mut src = loose(&inputs::listed(&items), random);
        calls.read(run, &src, 0, scratch(&src))?;
        for _ in 0..random.between(1, 3) {
            damage(&mut src, random);
        }
        calls.read(run, &src, random.pick(&[0, 0, 2, -1]), scratch(&src))?;
    }
    Ok(())
}

fn random_adds(run: &mut Run, calls: &mut Calls, random: &mut Random) -> Result {
    for _ in 0..60 {
        let mut items = inputs::items(random);
        if random.chance(1, 2) {
            items.extend(inputs::items(random));
        }
        let needed = inputs::listed(&items).len();
        adds(run, calls, &items, needed)?;
        // The same for areas that hold no table.
        let mut area = inputs::listed(&sorted(&items));
        damage(&mut area, random);
        calls.add(run, &mut area, random.pick(&inputs::KEYS), &[1, 2])?;
    }
    Ok(())
}

fn random_strings(run: &mut Run, calls: &mut Calls, random: &mut Random) -> Result {
    for _ in 0..200 {
        let len = random.below(30);
        let src: Vec<u8> = (0..len)
            .map(|_| match random.below(3) {
                0 => random.byte(),
                1 => random.below(16) as u8,
                _ => random.pick(&[0x00, 0x04, 0x08, 0x01, 0x80]),
            })
            .collect();
        calls.read(run, &src, 0, scratch(&src))?;
        let ints: Vec<i32> = (0..len)
            .map(|_| match random.below(3) {
                0 => random.int(),
                1 => 4 * random.below(8) as i32,
                _ => random.below(3) as i32,
            })
            .collect();
        everything(run, calls, &ints)?;
    }
    Ok(())
}
