//! Recorded answers on deltas. An area of ROOM entries is lent.
//!
//!     e ROOM                   3 0 0 0, or refused 40 (the empty delta)
//!     c ROOM LEN INT.. INT..   COUNT INT.., refused 10 KEY, or refused NUMBER
//!                              (LEN ints of the base, those of the target)
//!     i ROOM LEN INT.. INT..   COUNT INT.., or refused NUMBER (LEN known
//!                              sizes, an area; written to ints)
//!     b ROOM LEN INT.. INT..   COUNT HEX, or refused NUMBER (the same, packed)
//!     r ROOM LEN INT.. INT..   COUNT WARNINGS INT.., or refused NUMBER
//!                              WARNINGS (LEN known sizes, ints that are
//!                              read; of the warnings the six counts that
//!                              reading can give, in their order)
//!     p ROOM LEN INT.. HEX     the same for packed ints
//!     m ROOM HAS LEN INT.. INT..  COUNT INT.., or refused NUMBER (whether
//!                              there is a base, its LEN ints, the target's;
//!                              the differences are made)
//!     a ROOM HAS LEN INT.. INT..  COUNT INT.., or refused NUMBER (the same
//!                              with the differences, which are applied)

use super::inputs;
use super::oracle;
use crate::core::damage::damage;
use crate::core::random::Random;
use crate::core::record::Record;
use crate::core::text::hex;
use crate::core::told::Told;
use crate::parts::packer::loose;
use crate::parts::packer::packed;
use crate::parts::packer::with_five_bytes;
use crate::parts::tables;
use crate::parts::tables::inputs::KEYS;
use crate::parts::tables::oracle::Item;
use crate::parts::tables::sorted;
use cefdugar::table;
use cefdugar::Warnings;
use libtw2_snapshot::Delta;
use oracle::Read;

const MOST_INTS: usize = 64;

/// ` INT..`
fn ints(list: &[i32]) -> String {
    list.iter().map(|int| format!(" {int}")).collect()
}

fn bytes(list: &[u8]) -> String {
    format!(" {}", hex(list))
}

/// The room, and the result of a call in it.
fn stored<T>(
    said: &Told<Vec<T>>,
    panicked: &str,
    spare: isize,
    text: fn(&[T]) -> String,
) -> (usize, String) {
    let written = match said {
        Told::Value(written) => written,
        Told::Refused(number) => return (MOST_INTS, format!("refused {number}")),
        Told::Panicked => return (MOST_INTS, format!("refused {panicked}")),
    };
    let room = (written.len() as isize + spare).max(0) as usize;
    let answer = if written.len() <= room {
        format!("{}{}", written.len(), text(written))
    } else {
        "refused 40".to_string()
    };
    (room, answer)
}

fn clear(record: &mut Record, spare: isize) {
    let said = oracle::written(&Delta::new(), &[], 3);
    let (room, answer) = stored(&said, "", spare, ints);
    record.case(&format!("e {room}"), &answer);
}

fn create(record: &mut Record, base: &[i32], target: &[i32], spare: isize) {
    let said = oracle::created(base, target);
    let panicked = match oracle::first_clash(base, target) {
        Some(key) => format!("10 {key}"),
        None => String::new(),
    };
    let (room, answer) = stored(&said, &panicked, spare, ints);
    let question = format!("c {room} {}{}{}", base.len(), ints(base), ints(target));
    record.case(&question, &answer);
}

fn write(record: &mut Record, area: &[i32], sizes: &[i32], spare: isize) {
    let held = oracle::held(area);
    let (said_ints, said_bytes) = match &held {
        Some(delta) => (
            oracle::written(delta, sizes, area.len()),
            oracle::packed(delta, sizes, area.len()),
        ),
        None => (Told::Refused(47), Told::Refused(47)),
    };
    let rest = format!(" {}{}{}", sizes.len(), ints(sizes), ints(area));
    let (room, answer) = stored(&said_ints, "46", spare, ints);
    record.case(&format!("i {room}{rest}"), &answer);
    let (room, answer) = stored(&said_bytes, "46", spare, bytes);
    record.case(&format!("b {room}{rest}"), &answer);
}

/// The kinds of warning that reading can give.
const READ_WARNINGS: [usize; 6] = [
    Warnings::OVERLONG_INT_ENCODING,
    Warnings::NON_ZERO_PADDING,
    Warnings::DUPLICATE_DELETE,
    Warnings::DUPLICATE_UPDATE,
    Warnings::DELETE_UPDATE,
    Warnings::NUM_UPDATED_ITEMS,
];

/// The room, and the result of reading a delta into it.
fn was_read((said, warnings): (Told<Read>, Warnings), spare: isize) -> (usize, String) {
    let counts: String = READ_WARNINGS
        .map(|kind| format!(" {}", warnings.0[kind]))
        .concat();
    let read = match said {
        Told::Value(read) => read,
        said => return (MOST_INTS, format!("refused {}{counts}", said.number())),
    };
    let room = (read.room as isize + spare).max(0) as usize;
    let answer = if read.room <= room {
        format!("{}{counts}{}", read.ints.len(), ints(&read.ints))
    } else {
        format!("refused 40{counts}")
    };
    (room, answer)
}

fn read_ints(record: &mut Record, src: &[i32], sizes: &[i32], spare: isize) {
    let said = oracle::read_from_ints(src, sizes, table::SCRATCH);
    let (room, answer) = was_read(said, spare);
    let question = format!("r {room} {}{}{}", sizes.len(), ints(sizes), ints(src));
    record.case(&question, &answer);
}

fn read(record: &mut Record, src: &[u8], sizes: &[i32], spare: isize) {
    let said = oracle::read(src, sizes, table::SCRATCH);
    let (room, answer) = was_read(said, spare);
    let question = format!("p {room} {}{}{}", sizes.len(), ints(sizes), bytes(src));
    record.case(&question, &answer);
}

fn item(record: &mut Record, from: Option<&[i32]>, other: &[i32], spare: isize) {
    let (has, base) = match from {
        Some(base) => (1, base),
        None => (0, &[][..]),
    };
    let rest = format!(" {has} {}{}{}", base.len(), ints(base), ints(other));
    let (room, answer) = stored(&oracle::created_item(from, other), "", spare, ints);
    record.case(&format!("m {room}{rest}"), &answer);
    let (room, answer) = stored(&oracle::applied_item(from, other), "", spare, ints);
    record.case(&format!("a {room}{rest}"), &answer);
}

/// The published examples, each refusal, then random cases.
pub fn fill(record: &mut Record, random: &mut Random) {
    examples(record);
    tables_of_few(record);
    forms(record);
    known_sizes(record);
    random_cases(record, random);
    reads(record);
    cut_reads(record);
    padded_reads(record);
    known_reads(record);
    random_reads(record, random);
}

fn examples(record: &mut Record) {
    const OLD: [i32; 4] = [0, 1337, 42, 0x7fff_ffff];
    const NEW: [i32; 4] = [0, 1338, 21, -0x8000_0000];
    const DELTA: [i32; 4] = [0, 1, -21, 1];
    for spare in [0, 1, -1, -3] {
        clear(record, spare);
    }
    for spare in [0, 2, -1] {
        for other in [&NEW, &DELTA] {
            item(record, Some(&OLD), other, spare);
            item(record, None, other, spare);
        }
    }
    item(record, Some(&OLD[..3]), &NEW, 0);
    item(record, Some(&OLD), &DELTA[..3], -1);
    item(record, Some(&[]), &[1], 0);
    item(record, Some(&[]), &[], 0);
    item(record, None, &[], 0);
}

/// Tables with keys at the ends of both orders.
fn tables_of_few(record: &mut Record) {
    let table = |states: [usize; 6]| {
        let items: Vec<Item> = KEYS
            .iter()
            .zip(states)
            .filter(|(_, state)| *state > 0)
            .map(|(&key, state)| (key, (1..state as i32).map(|i| key ^ i).collect()))
            .collect();
        tables::inputs::listed(&sorted(&items))
    };
    let tables = [
        table([0; 6]),
        table([1; 6]),
        table([2, 0, 3, 0, 2, 1]),
        table([2, 1, 3, 1, 0, 0]),
        table([0, 0, 0, 1, 2, 1]),
        table([0, 1, 0, 2, 0, 0]),
    ];
    for base in &tables {
        for target in &tables {
            create(record, base, target, 0);
        }
    }
    clashes(record);
    let (base, target) = (&tables[2], &tables[4]);
    for spare in [1, 5, -1, -2, -20] {
        create(record, base, target, spare);
    }
    create(record, &base[..base.len() - 1], target, 0);
    create(record, base, &target[..target.len() - 1], 0);
    create(record, &[], &[], 0);
    create(record, &[0, 0, 9], &[0, 0], 0);
}

/// Every set of keys that clashes with a table that has none of them longer,
/// and with its complement.
fn clashes(record: &mut Record) {
    let tables = inputs::clashing();
    for (set, target) in tables.iter().enumerate() {
        create(record, &tables[0], target, 0);
        create(record, target, &tables[tables.len() - 1 - set], 0);
    }
}

/// Areas in form, and with damage in one place.
fn forms(record: &mut Record) {
    let whole = inputs::listed(&[-5, 7], &[(-1, vec![]), (65_538, vec![70, -70])]);
    for spare in [0, 3, -1, -40] {
        write(record, &whole, &[], spare);
    }
    for len in 0..whole.len() {
        write(record, &whole[..len], &[], 0);
    }
    for at in 0..whole.len() {
        for change in [1, -1, i32::MAX, i32::MIN] {
            let mut changed = whole.clone();
            changed[at] = changed[at].wrapping_add(change);
            write(record, &changed, &[], 0);
        }
    }
    let mut more = whole.clone();
    more.push(99);
    write(record, &more, &[], 0);
    for keys in [[3, 3], [-1, 3], [3, -1], [i32::MIN, i32::MAX]] {
        write(record, &inputs::listed(&keys, &[]), &[], 0);
        let updated = keys.map(|key| (key, vec![9]));
        write(record, &inputs::listed(&[], &updated), &[], 0);
        write(record, &inputs::listed(&keys, &updated), &[], 0);
    }
}

/// Known sizes of all shapes.
fn known_sizes(record: &mut Record) {
    let updated = [
        (3, vec![]),
        (65_538, vec![70, -70]),
        (65_539, vec![1, 2]),
        (131_072, vec![5]),
    ];
    let area = inputs::listed(&[65_540], &updated);
    for sizes in [
        &[0, 2, 1][..],
        &[0, 2],
        &[-1, 2],
        &[i32::MIN, -7, 1, 9],
        &[0, 2, 1, -1],
        &[0, 2, 0],
        &[1],
        &[0, i32::MAX],
    ] {
        write(record, &area, sizes, 0);
        write(record, &area, sizes, -1);
    }
    write(record, &area[..area.len() - 1], &[1], 0);
}

fn random_cases(record: &mut Record, random: &mut Random) {
    for i in 0..40 {
        let mut base = tables::inputs::items(random);
        base.truncate(5);
        let mut target = inputs::related(&base, random);
        target.truncate(6);
        let base = tables::inputs::listed(&sorted(&base));
        let target = tables::inputs::listed(&sorted(&target));
        if base.len() + target.len() <= MOST_INTS {
            create(record, &base, &target, random.pick(&[0, 0, 2, -1]));
        }
        let (mut deleted, mut updated) = inputs::delta(random);
        deleted.truncate(4);
        updated.truncate(4);
        let mut area = inputs::listed(&deleted, &updated);
        if i % 3 == 0 {
            damage(&mut area, random);
        }
        if area.len() <= MOST_INTS {
            let sizes = inputs::right_sizes(&updated, random.pick(&[0, 1, 3, 8]));
            write(record, &area, &sizes, random.pick(&[0, 0, 2, -1]));
        }
    }
}

/// Keys in every order, repeated, deleted and updated; wrong headers.
fn reads(record: &mut Record) {
    let orders: [[i32; 3]; 6] = [
        [-7, 5, 65_536],
        [65_536, 5, -7],
        [5, -7, 5],
        [5, 5, 5],
        [i32::MAX, i32::MIN, -1],
        [-7, -7, 5],
    ];
    for (i, keys) in orders.iter().enumerate() {
        let updated: Vec<Item> = keys
            .iter()
            .zip([1, 0, 2])
            .map(|(&key, len)| (key, vec![key ^ 3; len]))
            .collect();
        let spare = [0, 3, -1][i % 3];
        read_ints(record, &inputs::listed(keys, &[]), &[], 0);
        read_ints(record, &inputs::listed(&[], &updated), &[], spare);
        let both = inputs::listed(&[keys[1], 5], &updated);
        read_ints(record, &both, &[], -spare);
        read(record, &packed(&both), &[], spare);
        let mut header = both.clone();
        header[i % 3] += [1, -1, i32::MIN][i % 3];
        read_ints(record, &header, &[], 0);
        read(record, &packed(&header), &[], 0);
    }
}

/// Deltas cut short, and those with too much; integers in their longest form.
fn cut_reads(record: &mut Record) {
    let whole = inputs::listed(&[-5, 7], &[(-1, vec![]), (65_538, vec![70, -70])]);
    for len in 0..whole.len() {
        read_ints(record, &whole[..len], &[], 0);
    }
    let src = packed(&whole);
    for len in (0..=src.len()).rev().step_by(2) {
        read(record, &src[..len], &[], 0);
    }
    for more in [&[0][..], &[0, 0], &[3, 0, 0], &[3, 0, -1], &[3, 0, 1]] {
        read_ints(record, &[&whole[..], more].concat(), &[], 0);
    }
    for (type_id, id) in [(65_536, 0), (-1, 0), (0, 65_536), (0, -1), (65_535, 65_535)] {
        read_ints(record, &[0, 1, 0, type_id, id, 0], &[], 0);
    }
    for src in [
        &[0x80, 0x00, 0x80, 0x80, 0x80, 0x80, 0x00, 0x00][..],
        &[0x80, 0x80, 0x80, 0x80, 0x70, 0x00, 0x01],
        &[0x81, 0x00, 0x00, 0x05, 0x40, 0x00],
        &[0x01, 0x00, 0x00, 0x85],
        &[0x80; 5],
    ] {
        read(record, src, &[], 0);
    }
}

/// Ints of five bytes, overlong and padded, in each place of a delta and behind
/// it, also where a type, an id or a size before them is wrong.
fn padded_reads(record: &mut Record) {
    let whole = inputs::listed(&[7, 7], &[(65_538, vec![70]), (65_538, vec![-70])]);
    for src in with_five_bytes(&whole) {
        read(record, &src, &[], 0);
    }
    for wrong in [
        &[-1, 0, 0][..],
        &[0, 1, 0, 65_536, 0, 0],
        &[0, 1, 0, 0, -1, 0],
        &[0, 1, 0, 3, 0, -1, 0],
    ] {
        for src in with_five_bytes(wrong) {
            read(record, &src, &[0], 0);
        }
    }
}

/// Known sizes of all shapes.
fn known_reads(record: &mut Record) {
    let updated = [
        (131_072, vec![5]),
        (65_539, vec![1, 2]),
        (3, vec![]),
        (65_538, vec![70, -70]),
    ];
    for sizes in [
        &[0, 2, 1][..],
        &[0, 2],
        &[-1, 2],
        &[i32::MIN, -7, 1, 9],
        &[0, 2, 0],
        &[1],
        &[0, i32::MAX],
    ] {
        let src = inputs::sent(&[65_540], &updated, sizes);
        read_ints(record, &src, sizes, 0);
        read(record, &packed(&src), sizes, -1);
    }
}

fn random_reads(record: &mut Record, random: &mut Random) {
    for i in 0..60 {
        let (mut deleted, mut updated) = inputs::jumbled(random);
        deleted.truncate(5);
        updated.truncate(5);
        let sizes = inputs::right_sizes(&updated, random.pick(&[0, 1, 3, 8]));
        let mut src = inputs::sent(&deleted, &updated, &sizes);
        if i % 3 == 0 {
            damage(&mut src, random);
        }
        if src.len() > MOST_INTS {
            continue;
        }
        let spare = random.pick(&[0, 0, 2, -1]);
        match i % 2 {
            0 => read_ints(record, &src, &sizes, spare),
            _ => {
                let src = loose(&src, random);
                if src.len() <= 2 * MOST_INTS {
                    read(record, &src, &sizes, spare);
                }
            }
        }
    }
}
