//! Reading deltas: valid and damaged, in order and not, whole and cut.

use super::calls::Calls;
use super::inputs;
use super::oracle;
use super::oracle::known_size;
use super::Result;
use crate::core::damage::damage;
use crate::core::random::Random;
use crate::core::report::Length;
use crate::core::report::Run;
use crate::core::told::Told;
use crate::parts::packer::loose;
use crate::parts::packer::numbered;
use crate::parts::packer::packed;
use crate::parts::packer::with_five_bytes;
use crate::parts::packer::with_twice_five_bytes;
use crate::parts::tables;
use crate::parts::tables::inputs::KEYS;
use crate::parts::tables::oracle::parts;
use crate::parts::tables::oracle::Item;
use cefdugar::table;

/// The least scratch.
const SCRATCH: usize = table::SCRATCH;

/// Scratch of exactly enough entries for `src`.
fn enough(src: &[u8]) -> usize {
    src.len().max(SCRATCH)
}

/// Reads ints unpacked and packed.
fn both(run: &mut Run, calls: &mut Calls, ints: &[i32], sizes: &[i32]) -> Result {
    calls.read_ints(run, ints, sizes, SCRATCH)?;
    let src = packed(ints);
    calls.read(run, &src, sizes, enough(&src))
}

/// The cases that do not depend on the seed.
pub fn fixed(run: &mut Run, calls: &mut Calls) -> Result {
    short_lists(run, calls)?;
    short_strings(run, calls)?;
    five_bytes(run, calls)?;
    padded_deltas(run, calls)?;
    few_updates(run, calls)?;
    few_keys(run, calls)?;
    cut(run, calls)?;
    known(run, calls)?;
    lengths(run, calls)?;
    many_entries(run, calls)
}

/// All lists of up to five ints over a small alphabet; seven in a full run.
fn short_lists(run: &mut Run, calls: &mut Calls) -> Result {
    let most = match run.length {
        Length::Quick => 5,
        Length::Full => 7,
    };
    for len in 0..=most {
        for number in 0..inputs::TELLING.len().pow(len) {
            let list = numbered(number, len, &inputs::TELLING);
            for sizes in [&[][..], &[0, 0, 0], &[1, -1]] {
                both(run, calls, &list, sizes)?;
            }
        }
    }
    Ok(())
}

/// All strings of up to five bytes over a small alphabet (seven in a full
/// run), with and without a header before them.
fn short_strings(run: &mut Run, calls: &mut Calls) -> Result {
    const TELLING: [u8; 5] = [0x00, 0x01, 0x02, 0x40, 0x80];
    let most = match run.length {
        Length::Quick => 5,
        Length::Full => 7,
    };
    for len in 0..=most {
        for number in 0..TELLING.len().pow(len) {
            let mut src = numbered(number, len, &TELLING);
            calls.read(run, &src, &[], SCRATCH)?;
            src.splice(0..0, [1, 1, 0]);
            calls.read(run, &src, &[0, 1], SCRATCH)?;
        }
    }
    Ok(())
}

/// All strings of up to five ints over a small alphabet with an overlong int and
/// padded ones (six in a full run), with and without a header before them.
fn five_bytes(run: &mut Run, calls: &mut Calls) -> Result {
    const TELLING: [&[u8]; 6] = [
        &[0x00],
        &[0x01],
        &[0x40],
        &[0x80, 0x80, 0x80, 0x80, 0x00],
        &[0x80, 0x80, 0x80, 0x80, 0x10],
        &[0xff, 0xff, 0xff, 0xff, 0x1f],
    ];
    let most = match run.length {
        Length::Quick => 5,
        Length::Full => 6,
    };
    for len in 0..=most {
        for number in 0..TELLING.len().pow(len) {
            let mut src = numbered(number, len, &TELLING).concat();
            calls.read(run, &src, &[], SCRATCH)?;
            src.splice(0..0, [1, 1, 0]);
            calls.read(run, &src, &[], SCRATCH)?;
            calls.read(run, &src, &[0, 1], SCRATCH)?;
        }
    }
    Ok(())
}

/// Whole deltas with ints of five bytes in every two places, also behind the last
/// update, with sizes unknown and known; types and ids out of range before a
/// padded int; updates of keys that are repeated and deleted.
fn padded_deltas(run: &mut Run, calls: &mut Calls) -> Result {
    let updated = updates(&[65_538, 9, 65_538], &[1, 0, 2]);
    let deltas: [&[i32]; 7] = [
        &[0, 0, 0],
        &[1, 1, 7, 65_538, 1, 2, 1, 5],
        &[2, 1, 0, 9, 9, 0, 9, 0],
        &[0, 1, 0, 65_536, 3, 0],
        &[0, 1, 0, 3, -1, 0],
        &[0, 1, 0, 3, 3, -1],
        &inputs::listed(&[9, 65_538, 9], &updated),
    ];
    for ints in deltas {
        let mut all = with_five_bytes(ints);
        all.extend(with_twice_five_bytes(ints));
        for src in &all {
            for sizes in [&[][..], &[0, 1], &[-1, 2]] {
                calls.read(run, src, sizes, SCRATCH)?;
            }
        }
    }
    Ok(())
}

/// Updates of these keys, with data of these lengths.
fn updates(keys: &[i32], lens: &[usize]) -> Vec<Item> {
    keys.iter()
        .zip(lens)
        .enumerate()
        .map(|(i, (&key, &len))| (key, vec![key ^ (3 + i as i32); len]))
        .collect()
}

/// All deltas of up to two deleted keys and two updates over a few keys, in
/// every order and with keys doubled, under several known sizes.
fn few_updates(run: &mut Run, calls: &mut Calls) -> Result {
    let mut all = vec![];
    for count in 0..=2 {
        for number in 0..KEYS.len().pow(count) {
            all.push(numbered(number, count, &KEYS));
        }
    }
    for deleted in &all {
        for keys in &all {
            for lens in [[0, 0], [0, 1], [2, 0]] {
                let updated = updates(keys, &lens);
                both(run, calls, &inputs::listed(deleted, &updated), &[])?;
            }
            let updated = updates(keys, &[1, 1]);
            let right = inputs::right_sizes(&updated, 32_768);
            both(run, calls, &inputs::sent(deleted, &updated, &right), &right)?;
        }
    }
    Ok(())
}

/// All deltas of up to three deleted keys and three updates over three keys;
/// the header's numbers right and wrong, padding 0 and not.
fn few_keys(run: &mut Run, calls: &mut Calls) -> Result {
    const FEW: [i32; 3] = [-7, 5, 65_536];
    let mut all = vec![];
    for count in 0..=3 {
        for number in 0..FEW.len().pow(count) {
            all.push(numbered(number, count, &FEW));
        }
    }
    for (i, deleted) in all.iter().enumerate() {
        for (j, keys) in all.iter().enumerate() {
            let updated = updates(keys, &[1, 0, 2]);
            let mut ints = inputs::listed(deleted, &updated);
            both(run, calls, &ints, &[])?;
            // One of the header's numbers is changed.
            let at = (i + j) % 3;
            ints[at] += [1, -1, i32::MAX / 2][j % 3];
            both(run, calls, &ints, &[])?;
        }
    }
    Ok(())
}

/// Deltas cut at every length, as ints and as bytes, also with overlong and
/// padded integers, and those with an int or a byte too many.
fn cut(run: &mut Run, calls: &mut Calls) -> Result {
    let deltas: [(Vec<i32>, Vec<Item>); 4] = [
        (vec![], vec![]),
        (vec![-500, 7], updates(&[-1, 65_538], &[0, 2])),
        (vec![9, 9, -70_000], updates(&[3, -3, 3, 9], &[1, 1, 3, 0])),
        (vec![i32::MAX, i32::MIN], updates(&[i32::MIN, 1], &[4, 4])),
    ];
    for (deleted, updated) in &deltas {
        let ints = inputs::listed(deleted, updated);
        for len in 0..=ints.len() {
            both(run, calls, &ints[..len], &[])?;
            both(run, calls, &ints[..len], &[0, 2])?;
        }
        let mut random = run.random(u64::MAX);
        for _ in 0..8 {
            let src = loose(&ints, &mut random);
            for len in 0..=src.len() {
                calls.read(run, &src[..len], &[], SCRATCH)?;
            }
            for more in [&[0x00][..], &[0x80], &[0x05, 0x06, 0x00], &[0xff; 5]] {
                let src = [&src[..], more].concat();
                calls.read(run, &src, &[], SCRATCH)?;
            }
        }
        for more in [&[0][..], &[0, 0], &[3, 0, 0], &[3, 0, -1], &[-1, 0, 0]] {
            both(run, calls, &[&ints[..], more].concat(), &[])?;
            both(run, calls, &[&ints[..], more].concat(), &[3, 0, 0, 0])?;
        }
    }
    Ok(())
}

/// Known sizes of every shape for updates of four types.
fn known(run: &mut Run, calls: &mut Calls) -> Result {
    let keys = [3, 65_538, 65_539, 131_072, -65_536];
    let updated = updates(&keys, &[0, 2, 2, 1, 3]);
    let mut turned = updated.clone();
    turned.reverse();
    let all = inputs::right_sizes(&updated, 65_536);
    let shapes: [&[i32]; 14] = [
        &[],
        &[0],
        &[0, 2, 1],
        &[0, 2],
        &[-1, 2],
        &[-1, -1, 1],
        &[i32::MIN, -7, 1, 9],
        &[0, 2, 0],
        &[1],
        &[0, i32::MAX],
        &[i32::MAX],
        &[0, 3, 1],
        &all,
        &all[..65_535],
    ];
    for updated in [&updated, &turned] {
        for sizes in shapes {
            // As sent under the right ones, and under these.
            for sent_under in [&[][..], &all, sizes] {
                let ints = inputs::sent(&[65_540, 3], updated, sent_under);
                both(run, calls, &ints, sizes)?;
            }
        }
    }
    Ok(())
}

/// Inputs and scratch of about the lengths that are judged.
fn lengths(run: &mut Run, calls: &mut Calls) -> Result {
    const MOST: usize = table::INPUT;
    let good = inputs::listed(&[4, 2], &updates(&[9, 1], &[1, 1]));
    let bad = [1, -1, 0];
    for ints in [&good[..], &bad, &[]] {
        for scratch in [0, 1, SCRATCH - 1, SCRATCH, SCRATCH + 1] {
            calls.read_ints(run, ints, &[], scratch)?;
            calls.read(run, &packed(ints), &[], scratch)?;
        }
    }
    let long = vec![0x01; 20_000];
    for scratch in [SCRATCH, 19_999, 20_000, 20_001] {
        calls.read(run, &long, &[], scratch)?;
        calls.read(run, &long, &[-1, 0], scratch)?;
    }
    for len in [MOST, MOST + 1] {
        let ints = vec![0; len];
        calls.read_ints(run, &ints, &[], SCRATCH)?;
        calls.read_ints(run, &ints, &[], SCRATCH - 1)?;
        let mut padded = vec![0; len];
        padded[len - 5..].copy_from_slice(&[0x80, 0x80, 0x80, 0x80, 0x10]);
        for src in [vec![0; len], padded, vec![0xff; len]] {
            for scratch in [len, len - 1] {
                calls.read(run, &src, &[], scratch)?;
            }
        }
    }
    Ok(())
}

/// A list in some order: rising, falling, any, or few different ones.
fn order(list: &mut [i32], order: usize, random: &mut Random) {
    match order {
        0 => list.sort_unstable(),
        1 => list.sort_unstable_by_key(|key| std::cmp::Reverse(*key)),
        2 => inputs::shuffle(list, random),
        few => list
            .iter_mut()
            .for_each(|key| *key = KEYS[random.below(few - 2)]),
    }
}

/// More entries than an index in the least scratch has room for: in several
/// orders, with keys close together and far apart, and with so few
/// different ones that those of one key alone have no room.
fn many_entries(run: &mut Run, calls: &mut Calls) -> Result {
    let mut random = run.random(u64::MAX);
    for (deletes, updates) in [
        (8_192, 0),
        (8_193, 0),
        (0, 8_193),
        (5_000, 5_000),
        (20_000, 9_000),
    ] {
        for kind in 0..6 {
            let near = random.chance(1, 2);
            let mut keys: Vec<i32> = (0..deletes + updates)
                .map(|i| match near {
                    true => i / 3 - 5_000,
                    false => (i as i32).wrapping_mul(0x0009_8765),
                })
                .collect();
            inputs::shuffle(&mut keys, &mut random);
            let (deleted, updated) = keys.split_at_mut(deletes as usize);
            order(deleted, kind, &mut random);
            order(updated, kind, &mut random);
            let sizes = random.pick(&[&[][..], &[0; 65_536], &[1; 40_000]]);
            let items: Vec<Item> = updated
                .iter()
                .map(|&key| {
                    let len = known_size(sizes, parts(key).0);
                    (key, vec![key; len.unwrap_or(1) as usize])
                })
                .collect();
            let ints = inputs::sent(deleted, &items, sizes);
            calls.read_ints(run, &ints, sizes, SCRATCH)?;
            calls.read_ints(run, &ints, sizes, 3 * SCRATCH)?;
            let src = packed(&ints);
            calls.read(run, &src, sizes, enough(&src))?;
            let end = random.below(src.len());
            calls.read(run, &src[..end], sizes, enough(&src))?;
        }
    }
    Ok(())
}

/// Random deltas under random known sizes: unchanged, damaged, with overlong
/// and padded integers, and cut.
pub fn random(run: &mut Run, calls: &mut Calls, random: &mut Random) -> Result {
    for _ in 0..6 {
        let (deleted, updated) = match random.below(3) {
            0 => inputs::delta(random),
            _ => inputs::jumbled(random),
        };
        let sizes = inputs::sizes(&updated, random);
        let mut ints = inputs::sent(&deleted, &updated, &sizes);
        both(run, calls, &ints, &sizes)?;
        let src = loose(&ints, random);
        calls.read(run, &src, &sizes, enough(&src))?;
        for _ in 0..random.between(1, 2) {
            damage(&mut ints, random);
        }
        both(run, calls, &ints, &sizes)?;
        let mut src = src;
        damage(&mut src, random);
        calls.read(run, &src, &sizes, enough(&src))?;
        both(run, calls, &ints, &inputs::sizes(&updated, random))?;
    }
    created(run, calls, random)
}

/// The Rust's deltas of two tables.
fn created(run: &mut Run, calls: &mut Calls, random: &mut Random) -> Result {
    let base = tables::inputs::items(random);
    let target = inputs::related(&base, random);
    let listed = |items: &[Item]| tables::inputs::listed(&tables::sorted(items));
    if let Told::Value(area) = oracle::created(&listed(&base), &listed(&target)) {
        both(run, calls, &area, &[])?;
    }
    Ok(())
}
