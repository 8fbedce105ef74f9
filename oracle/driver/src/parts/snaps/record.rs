//! Recorded answers on types, builders and applied deltas. An area of
//! ROOM entries is lent. TYPE is six ints: whether the type is a kind, its
//! number, and the four ints of the kind. COUNTS are the four warning counts
//! that these calls can give, in their order.
//!
//!     r ROOM LEN INT.. INT..     COUNT COUNTS INT.., or refused NUMBER COUNTS
//!                                (a base of LEN ints, a delta)
//!     d ROOM LEN INT.. INT..     the same, with types judged
//!     i ROOM INT..               the same for ints that are read
//!     p ROOM HEX                 the same for packed ints
//!     n TYPE INT..               raw NUMBER, none, or refused NUMBER
//!     t RAW INT..                number NUMBER, kind INT INT INT INT, none, or
//!                                refused NUMBER
//!     l TYPE ID INT..            item INT.., none, or refused NUMBER
//!     e ROOM                     COUNT INT.., or refused NUMBER (a new builder)
//!     a TYPE ID LEN INT.. INT..  COUNT, or refused NUMBER; then the area (LEN
//!                                ints of an item, a builder's area)
//!     f INT..                    COUNT, or refused NUMBER (a builder's area)

use super::area;
use super::inputs;
use super::inputs::key;
use super::inputs::KINDS;
use super::oracle;
use super::oracle::Made;
use super::questions::Held;
use super::SCRATCH;
use crate::core::counted::Counted;
use crate::core::damage::damage;
use crate::core::random::Random;
use crate::core::record::Record;
use crate::core::text::hex;
use crate::core::told::Told;
use crate::parts::packer::packed;
use crate::parts::packer::with_five_bytes;
use crate::parts::tables;
use crate::parts::tables::oracle::Item;
use cefdugar::snap::uuid_to_ints;
use cefdugar::snap::TypeId;
use cefdugar::Warnings;
use libtw2_snapshot::snap::Builder;

const MOST_INTS: usize = 60;

/// ` INT..`
fn ints(list: &[i32]) -> String {
    list.iter().map(|int| format!(" {int}")).collect()
}

fn type_text(type_id: TypeId) -> String {
    match type_id {
        TypeId::Ordinal(ordinal) => format!("0 {ordinal} 0 0 0 0"),
        TypeId::Uuid(kind) => format!("1 0{}", ints(&uuid_to_ints(kind))),
    }
}

/// The room, and the result of making a table in it.
fn was_made((said, warnings): &Made, spare: isize) -> (usize, String) {
    let counts: String = [
        Warnings::OVERLONG_INT_ENCODING,
        Warnings::UNKNOWN_DELETE,
        Warnings::EXCESS_SNAP_DATA,
        Warnings::EXCESS_UUID_ITEM_DATA,
    ]
    .map(|kind| format!(" {}", warnings.0[kind]))
    .concat();
    let written = match said {
        Told::Value(written) => written,
        said => return (MOST_INTS, format!("refused {}{counts}", said.number())),
    };
    let room = (written.len() as isize + spare).max(0) as usize;
    let answer = if written.len() <= room {
        format!("{}{counts}{}", written.len(), ints(written))
    } else {
        format!("refused 40{counts}")
    };
    (room, answer)
}

fn apply(record: &mut Record, base: &[i32], delta: &[i32], spare: isize) {
    if base.len() > MOST_INTS || delta.len() > MOST_INTS {
        return;
    }
    let rest = format!("{}{}{}", base.len(), ints(base), ints(delta));
    let (room, answer) = was_made(&oracle::applied(base, delta, SCRATCH), spare);
    record.case(&format!("r {room} {rest}"), &answer);
    let (room, answer) = was_made(&oracle::applied_typed(base, delta, SCRATCH), spare);
    record.case(&format!("d {room} {rest}"), &answer);
}

fn read_ints(record: &mut Record, src: &[i32], spare: isize) {
    let (room, answer) = was_made(&oracle::read_from_ints(src, SCRATCH), spare);
    record.case(&format!("i {room}{}", ints(src)), &answer);
}

fn read(record: &mut Record, src: &[u8], spare: isize) {
    let (room, answer) = was_made(&oracle::read(src, SCRATCH), spare);
    record.case(&format!("p {room} {}", hex(src)), &answer);
}

/// `refused NUMBER`, or a value, or none.
fn found<T>(said: Result<Option<T>, u32>, text: impl FnOnce(T) -> String) -> String {
    match said {
        Ok(Some(value)) => text(value),
        Ok(None) => "none".to_string(),
        Err(number) => format!("refused {number}"),
    }
}

fn raw_type(record: &mut Record, area: &[i32], type_id: TypeId) {
    let said = match Held::new(area) {
        Some(held) => oracle::raw_type_id(&held.raw, type_id),
        None => Err(47),
    };
    let question = format!("n {}{}", type_text(type_id), ints(area));
    record.case(&question, &found(said, |number| format!("raw {number}")));
}

fn type_of(record: &mut Record, area: &[i32], raw_type_id: u16) {
    let said = match Held::new(area) {
        Some(held) => Ok(oracle::type_id(&held.raw, raw_type_id)),
        None => Err(47),
    };
    let answer = found(said, |type_id| match type_id {
        TypeId::Ordinal(ordinal) => format!("number {ordinal}"),
        TypeId::Uuid(kind) => format!("kind{}", ints(&uuid_to_ints(kind))),
    });
    record.case(&format!("t {raw_type_id}{}", ints(area)), &answer);
}

fn item(record: &mut Record, area: &[i32], type_id: TypeId, id: u16) {
    let held = Held::new(area);
    let said = match &held {
        Some(held) => held.item(type_id, id),
        None => Err(47),
    };
    let question = format!("l {} {id}{}", type_text(type_id), ints(area));
    record.case(
        &question,
        &found(said, |data| format!("item{}", ints(data))),
    );
}

fn counted(answer: Counted) -> String {
    match answer.number {
        0 => answer.count.to_string(),
        number => format!("refused {number}"),
    }
}

fn new_builder(record: &mut Record, room: usize) {
    let written = oracle::written(&Builder::new().finish());
    let mut answer = counted(Counted::fits(written.len(), room));
    if written.len() <= room {
        answer += &ints(&written);
    }
    record.case(&format!("e {room}"), &answer);
}

fn add(record: &mut Record, area: &mut Vec<i32>, type_id: TypeId, id: u16, data: &[i32]) {
    let (answer, then) = oracle::added(area, type_id, id, data);
    let given = format!("{}{}{}", data.len(), ints(data), ints(area));
    let question = format!("a {} {id} {given}", type_text(type_id));
    record.case(&question, &format!("{}{}", counted(answer), ints(&then)));
    *area = then;
}

fn finish(record: &mut Record, area: &[i32]) {
    let answer = match oracle::builder(area) {
        Some(builder) => oracle::written(&builder.finish()).len().to_string(),
        None => "refused 47".to_string(),
    };
    record.case(&format!("f{}", ints(area)), &answer);
}

/// Each refusal, types on both sides of 8000 hex, then random cases.
pub fn fill(record: &mut Record, random: &mut Random) {
    for room in 0..4 {
        new_builder(record, room);
    }
    deltas(record);
    types(record);
    builds(record);
    random_cases(record, random);
}

/// Deleted keys and updates for a table with a kind, an item of that kind, and
/// an item whose type is a number.
fn changes() -> [(Vec<i32>, Vec<Item>); 16] {
    let [kept, of_kind, named] = [key(1, 3), key(0x4000, 1), key(0, 0x4000)];
    [
        (vec![], vec![]),
        (vec![kept], vec![]),
        (vec![kept, 9], vec![]),
        (vec![named], vec![]),
        (vec![of_kind, named], vec![]),
        (vec![], vec![(of_kind, vec![1])]),
        (vec![], vec![(of_kind, vec![1, 2])]),
        (vec![of_kind], vec![(of_kind, vec![1])]),
        (vec![of_kind], vec![(of_kind, vec![1, 2])]),
        (vec![], vec![(named, vec![0, 0, 0, 1])]),
        (vec![named], vec![(named, vec![0, 0, 0, -1])]),
        (vec![], vec![(key(0, 0x4001), vec![1, 2, 3, 4])]),
        (vec![], vec![(key(0, 5), vec![1, 2, 3, 5, 6])]),
        (vec![], vec![(key(0, 5), vec![1, 2, 3])]),
        (vec![], vec![(key(0x8000, 0), vec![])]),
        (vec![0, -1], vec![(key(2, 0), vec![7]), (kept, vec![1, 1])]),
    ]
}

/// These deltas applied to such a table and to the empty one.
fn deltas(record: &mut Record) {
    let base = area(&[
        (key(0, 0x4000), KINDS[1].to_vec()),
        (key(1, 3), vec![10, -20]),
        (key(0x4000, 1), vec![i32::MAX]),
    ]);
    for (i, (deleted, updated)) in changes().into_iter().enumerate() {
        let delta = inputs::delta(deleted, updated);
        apply(record, &base, &delta, 0);
        apply(record, &[0, 0], &delta, [0, -1, 2][i % 3]);
    }
    let delta = inputs::delta(vec![key(1, 3)], vec![(key(2, 2), vec![3])]);
    for spare in [-1, -40, 3] {
        apply(record, &base, &delta, spare);
    }
    apply(record, &base[..base.len() - 1], &delta, 0);
    apply(record, &base, &delta[..delta.len() - 1], 0);
    apply(
        record,
        &[base, vec![1, 2]].concat(),
        &[delta, vec![3]].concat(),
        0,
    );
}

/// Kinds that are missing, short, long, doubled; types from 8000 hex come
/// first.
fn type_tables() -> [Vec<Item>; 9] {
    let long = [&KINDS[2][..], &[6, 7]].concat();
    [
        vec![],
        vec![
            (key(0, 0x4000), KINDS[1].to_vec()),
            (key(0x4000, 7), vec![5]),
        ],
        vec![
            (key(0, 0x4000), KINDS[1].to_vec()),
            (key(0, 7), long.clone()),
            (key(0x4000, 7), vec![5]),
        ],
        vec![(key(0, 0x8000), long.clone()), (key(0x8000, 0), vec![1, 2])],
        vec![
            (key(0, 3), KINDS[1].to_vec()),
            (key(0, 4), KINDS[1].to_vec()),
        ],
        vec![(key(0, 0x4000), vec![1, 2, 3]), (key(0x4000, 0), vec![])],
        vec![(key(1, 1), vec![4]), (key(0x4001, 0), vec![])],
        vec![
            (key(0, 3), KINDS[1].to_vec()),
            (key(0, 4), KINDS[1].to_vec()),
            (key(0xffff, 0), vec![]),
        ],
        vec![
            (key(0, 3), long.clone()),
            (key(0, 4), long),
            (key(0x4000, 0), vec![]),
        ],
    ]
}

/// Reads these tables and makes all queries of them.
fn types(record: &mut Record) {
    for items in &type_tables() {
        let area = area(items);
        for spare in [0, -1] {
            read_ints(record, &area, spare);
            read(record, &packed(&area), spare);
        }
        finish(record, &area);
        asked(record, &area);
    }
    asked(record, &[0, 1]);
    read_ints(record, &[0, 0, 5], 0);
    read(record, &[0x80, 0x00, 0x00, 0x80], 0);
    // Ints of five bytes, overlong and padded, in each place and behind the table.
    let long = area(&[(key(0, 7), vec![1, 2, 3, 5, 9])]);
    for ints in [&[0, 0][..], &long] {
        for src in with_five_bytes(ints) {
            read(record, &src, 0);
        }
    }
    finish(record, &[0]);
}

/// Asks for a number, kinds, raw types and items of an area.
fn asked(record: &mut Record, area: &[i32]) {
    let types = [
        TypeId::Ordinal(0),
        TypeId::Ordinal(0x4000),
        TypeId::Ordinal(1),
        inputs::kind(KINDS[1]),
        inputs::kind(KINDS[2]),
    ];
    for type_id in types {
        raw_type(record, area, type_id);
        item(record, area, type_id, 7);
    }
    item(record, area, TypeId::Ordinal(1), 1);
    for raw_type_id in [0, 1, 0x3fff, 0x4000, 0x4001, 0x8000] {
        type_of(record, area, raw_type_id);
    }
}

/// Items one by one, in areas of some rooms.
fn builds(record: &mut Record) {
    let [one, two] = [KINDS[1], KINDS[4]].map(inputs::kind);
    for room in [40, 24, 9, 8, 7, 2] {
        let mut area = vec![0; room];
        add(record, &mut area, one, 5, &[1, 2]);
        add(record, &mut area, TypeId::Ordinal(2), 5, &[3]);
        add(record, &mut area, one, 5, &[]);
        add(record, &mut area, two, 5, &[]);
        add(record, &mut area, one, 0, &[7; 3]);
        add(record, &mut area, TypeId::Ordinal(0), 1, &[]);
        add(record, &mut area, TypeId::Ordinal(0x3fff), 1, &[]);
        add(record, &mut area, TypeId::Ordinal(0x4000), 1, &[]);
        finish(record, &area);
    }
    let mut odd = area(&[(key(0, 0x4001), KINDS[1].to_vec())]);
    odd.extend([0; 12]);
    add(record, &mut odd, one, 1, &[]);
    add(record, &mut odd, TypeId::Ordinal(0), 1, &[]);
    add(record, &mut vec![1, 2, 3], TypeId::Ordinal(0), 1, &[]);
}

fn random_cases(record: &mut Record, random: &mut Random) {
    for i in 0..60 {
        let mut items = inputs::items(random);
        items.truncate(6);
        let base = area(&items);
        let mut delta = inputs::delta_to(&items, random);
        if i % 6 == 0 {
            damage(&mut delta, random);
        }
        if base.len() > MOST_INTS {
            continue;
        }
        let spare = random.pick(&[0, 0, 2, -1]);
        apply(record, &base, &delta, spare);
        read_ints(record, &tables::inputs::listed(&items), spare);
        let mut adding = area(&inputs::built(random));
        if adding.len() > MOST_INTS {
            continue;
        }
        adding.extend(vec![0; random.pick(&[0, 3, 12])]);
        add(record, &mut adding, inputs::type_id(random), 1, &[9]);
        finish(record, &base);
    }
}
