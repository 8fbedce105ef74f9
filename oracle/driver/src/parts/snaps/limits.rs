//! Tables with the most items, the most ints and the most kinds.

use super::area;
use super::everything;
use super::inputs;
use super::inputs::key;
use super::Calls;
use super::Result;
use super::SCRATCH;
use crate::core::report::Run;
use crate::parts::tables::oracle::Item;
use cefdugar::snap::TypeId;
use cefdugar::table;

/// `count` items whose types are numbers, with `ints` ints of data among them.
pub fn ordinals(count: usize, ints: usize) -> Vec<Item> {
    (0..count)
        .map(|i| {
            let len = ints / count + usize::from(i < ints % count);
            let data = (0..len).map(|j| (i * 7 + j) as i32 - 50).collect();
            (key(1 + 15 * i as u16, i as u16), data)
        })
        .collect()
}

/// A separate kind for each number.
pub fn numbered_kind(i: usize) -> [i32; 4] {
    [1, -(i as i32 % 3), 0x0700_0000 - i as i32 % 50, i as i32]
}

/// `count` kinds from an id on, and an item of each.
pub fn kinds_from(first: u16, count: usize) -> Vec<Item> {
    let mut items = vec![];
    for i in 0..count {
        let number = first.wrapping_add(i as u16);
        items.push((key(0, number), numbered_kind(i).to_vec()));
        items.push((key(number, 0), vec![i as i32]));
    }
    items
}

/// Bases and deltas whose result has about as many items or ints as a table
/// may have; what is too much comes before and after what clashes.
pub fn applied(run: &mut Run, calls: &mut Calls) -> Result {
    for count in [1_022, 1_023, 1_024] {
        for ints in [0, 4 * count, 16_380 - 2 * count, 16_382 - 2 * count] {
            let items = ordinals(count, ints);
            let base = area(&items);
            for deletes in [0, 1, 2] {
                let deleted: Vec<i32> = items[3..3 + deletes].iter().map(|item| item.0).collect();
                for news in 0..=3 {
                    for len in [0, 1, 2] {
                        at_limit(run, calls, &items, &base, &deleted, news, len)?;
                    }
                }
            }
        }
    }
    // A whole table by updates alone.
    for (count, ints) in [
        (1_023, 0),
        (1_024, 0),
        (1_025, 0),
        (1_024, 14_334),
        (1_024, 14_335),
        (1, 16_380),
        (1, 16_381),
        (5_000, 0),
    ] {
        let updated = ordinals(count.min(1_090), ints);
        let updated = match count {
            5_000 => (0..5_000).map(|i| (i * 70_001, vec![i])).collect(),
            _ => updated,
        };
        let delta = inputs::delta(vec![], updated);
        calls.apply(run, &[0, 0], &delta, SCRATCH)?;
        calls.apply(run, &area(&ordinals(20, 60)), &delta, SCRATCH)?;
    }
    Ok(())
}

/// A delta with some deleted keys of a table and some new ones; the same with
/// an update that clashes, before and after these, and with a deleted key
/// that is updated.
fn at_limit(
    run: &mut Run,
    calls: &mut Calls,
    items: &[Item],
    base: &[i32],
    deleted: &[i32],
    news: i32,
    len: usize,
) -> Result {
    let updated: Vec<Item> = (0..news)
        .map(|i| (key(0x3fff, 7) + i, vec![i; len]))
        .collect();
    let delta = inputs::delta(deleted.to_vec(), updated.clone());
    calls.apply(run, base, &delta, SCRATCH)?;
    let (first, _) = &items[0];
    let (last, data) = &items[items.len() - 1];
    for clash in [
        (*first, vec![1; items[0].1.len() + 1]),
        (*last, vec![1; data.len() + 1]),
        (items[3].0, items[3].1.clone()),
        (items[3].0, vec![2; items[3].1.len() + 1]),
        (-5, vec![3; len]),
    ] {
        let mut updated = updated.clone();
        updated.push(clash);
        calls.apply(
            run,
            base,
            &inputs::delta(deleted.to_vec(), updated),
            SCRATCH,
        )?;
    }
    Ok(())
}

/// Builders with the most items and the most ints, also in areas where the item
/// that names a new kind has no room: 9 and 8 of the other come before 40.
pub fn built(run: &mut Run, calls: &mut Calls) -> Result {
    for count in [1_020, 1_022, 1_023, 1_024] {
        for ints in [
            0,
            16_370 - 2 * count,
            16_376 - 2 * count,
            16_382 - 2 * count,
        ] {
            let held = area(&ordinals(count, ints));
            for room in [held.len(), held.len() + 7, 16_400] {
                for len in [0, 1, 4] {
                    let mut area = held.clone();
                    area.resize(room, 7);
                    for type_id in [inputs::kind([1, 2, 3, 4]), TypeId::Ordinal(0x3fff)] {
                        calls.build(run, &mut area, type_id, 9, &vec![5; len])?;
                        calls.build(run, &mut area, type_id, 10, &[])?;
                    }
                    calls.finish(run, &area)?;
                }
            }
        }
    }
    for len in [16_373, 16_374, 16_375, 16_380, 16_381] {
        for type_id in [inputs::kind([1, 2, 3, 4]), TypeId::Ordinal(1)] {
            for room in [2, 7, 8, 20, 16_384] {
                let mut area = vec![0; room];
                calls.build(run, &mut area, type_id, 1, &vec![8; len])?;
                calls.build(run, &mut area, type_id, 2, &[])?;
            }
        }
    }
    Ok(())
}

/// Many kinds: read and looked up, with ids on both sides of 8000 hex and the last
/// ones doubled or missing; built, until a table is full.
pub fn kinds(run: &mut Run, calls: &mut Calls) -> Result {
    for (first, count) in [(0x4000, 511), (0x4000, 512), (0x7f00, 512), (0xff00, 255)] {
        let mut items = kinds_from(first, count);
        everything(run, calls, &items)?;
        items.reverse();
        everything(run, calls, &items)?;
        let last = items.len() - 1;
        let missing = items.remove(last);
        everything(run, calls, &items)?;
        items.push((missing.0, items[1].1.clone()));
        everything(run, calls, &items)?;
        items[last].1 = vec![1, 2, 3];
        everything(run, calls, &items)?;
    }
    let mut area = vec![0; table::INTS];
    for i in 0..514 {
        let kind = inputs::kind(numbered_kind(i));
        calls.build(run, &mut area, kind, 0, &[i as i32])?;
        if i % 100 == 0 {
            calls.build(run, &mut area, inputs::kind(numbered_kind(i / 2)), 1, &[])?;
        }
    }
    calls.finish(run, &area)?;
    calls.area(run, &area)
}
