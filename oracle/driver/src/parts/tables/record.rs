//! Recorded answers on tables. An area of ROOM ints holds 77 everywhere.
//!
//!     i ROOM INT..             COUNT EXCESS INT.., or refused NUMBER EXCESS
//!     b ROOM HEX               COUNT OVERLONG EXCESS INT.., or
//!                              refused NUMBER OVERLONG EXCESS
//!     w INT..                  LEN HEX, or refused 47 (an area, packed)
//!     q INT..                  ITEMS SUM KEY.., or refused 47 (an area, walked)
//!     l TYPE ID INT..          item INT.., none, or refused 47 (an area)
//!     a TYPE ID LEN INT.. INT..  COUNT INT.., or refused NUMBER INT.. (LEN ints
//!                              of data, an area; the whole area afterwards)

use super::inputs;
use super::oracle;
use super::oracle::parts;
use super::oracle::Item;
use super::sorted;
use crate::core::damage::damage;
use crate::core::random::Random;
use crate::core::record::Record;
use crate::core::text::hex;
use crate::core::told::Told;
use crate::parts::packer::packed;
use crate::parts::packer::with_five_bytes;
use cefdugar::table;
use cefdugar::Warnings;
use libtw2_snapshot::snap::RawSnap;

const MOST_INTS: usize = 64;
const MOST_BYTES: usize = 128;

/// ` INT..`
fn ints(list: &[i32]) -> String {
    list.iter().map(|int| format!(" {int}")).collect()
}

fn counts(warnings: &Warnings) -> String {
    let overlong = warnings.0[Warnings::OVERLONG_INT_ENCODING];
    let excess = warnings.0[Warnings::EXCESS_SNAP_DATA];
    format!("{overlong} {excess}")
}

/// The room, and the result of reading into it.
fn stored(said: &Told<RawSnap>, spare: isize, counts: &str) -> (usize, String) {
    let written = match said {
        Told::Value(snap) => oracle::written(snap),
        Told::Refused(number) => return (MOST_INTS, format!("refused {number} {counts}")),
        Told::Panicked => unreachable!("the Rust reads without a panic"),
    };
    let room = (written.len() as isize + spare).max(0) as usize;
    let answer = if written.len() <= room {
        format!("{} {counts}{}", written.len(), ints(&written))
    } else {
        format!("refused 40 {counts}")
    };
    (room, answer)
}

fn read_ints(record: &mut Record, src: &[i32], spare: isize) {
    assert!(src.len() <= MOST_INTS);
    let (said, warnings) = oracle::read_from_ints(src);
    let excess = warnings.0[Warnings::EXCESS_SNAP_DATA];
    let (room, answer) = stored(&said, spare, &excess.to_string());
    record.case(&format!("i {room}{}", ints(src)), &answer);
}

fn read(record: &mut Record, src: &[u8], spare: isize) {
    assert!(src.len() <= MOST_BYTES);
    let (said, warnings) = oracle::read(src, table::SCRATCH);
    let (room, answer) = stored(&said, spare, &counts(&warnings));
    record.case(&format!("b {room} {}", hex(src)), &answer);
}

/// An area: packed, walked, and some items looked up.
fn area(record: &mut Record, area: &[i32], keys: &[i32]) {
    assert!(area.len() <= MOST_INTS);
    let held = oracle::held(area);
    let refused = || "refused 47".to_string();
    let answer = held.as_ref().map_or_else(refused, |snap| {
        let bytes = oracle::packed(snap);
        format!("{} {}", bytes.len(), hex(&bytes))
    });
    record.case(&format!("w{}", ints(area)), &answer);
    let answer = held.as_ref().map_or_else(refused, |snap| {
        let keys: Vec<i32> = snap.items().map(|item| item.key()).collect();
        format!("{} {}{}", keys.len(), snap.crc(), ints(&keys))
    });
    record.case(&format!("q{}", ints(area)), &answer);
    for &key in keys {
        let (raw_type_id, id) = parts(key);
        let answer = held
            .as_ref()
            .map_or_else(refused, |snap| match snap.item(raw_type_id, id) {
                Some(data) => format!("item{}", ints(data)),
                None => "none".to_string(),
            });
        record.case(&format!("l {raw_type_id} {id}{}", ints(area)), &answer);
    }
}

fn add(record: &mut Record, area: &[i32], key: i32, data: &[i32]) {
    assert!(area.len() <= MOST_INTS);
    let (raw_type_id, id) = parts(key);
    let mut after = area.to_vec();
    let number = match oracle::held(area) {
        Some(snap) => match oracle::added(&snap, key, data) {
            Told::Value(snap) => {
                let written = oracle::written(&snap);
                match after.get_mut(..written.len()) {
                    Some(front) => {
                        front.copy_from_slice(&written);
                        Ok(written.len())
                    }
                    None => Err(40),
                }
            }
            Told::Refused(number) => Err(number),
            Told::Panicked => unreachable!("the Rust adds without a panic"),
        },
        None => Err(47),
    };
    let answer = match number {
        Ok(count) => format!("{count}{}", ints(&after)),
        Err(number) => format!("refused {number}{}", ints(&after)),
    };
    let question = format!(
        "a {raw_type_id} {id} {}{}{}",
        data.len(),
        ints(data),
        ints(area)
    );
    record.case(&question, &answer);
}

/// The marked cases of docs/FORMAT.md, each refusal, then random ones.
pub fn fill(record: &mut Record, random: &mut Random) {
    marked(record);
    refusals(record);
    orders(record);
    random_cases(record, random);
}

fn marked(record: &mut Record) {
    read_ints(record, &[0, 0], 0);
    read_ints(record, &[4, 0, 9], 0);
    read(record, &[0x08, 0x01, 0x00, 0x82, 0x80, 0x08, 0x07], 0);
    area(record, &[0, 0], &[0, -1]);
    area(record, &[8, 1, 0, 65_538, 7], &[65_538, 65_537]);
}

fn refusals(record: &mut Record) {
    let whole = [12, 2, 0, 8, 3, 40, -1];
    for len in 0..whole.len() {
        read_ints(record, &whole[..len], 0);
        area(record, &whole[..len], &[3]);
    }
    for spare in [0, 1, -1, -7] {
        read_ints(record, &whole, spare);
        read(record, &packed(&whole), spare);
    }
    // Each int of header and offsets off by one, off by four, negative, large.
    for at in 0..4 {
        for change in [1, -1, 4, -4, -100, i32::MAX] {
            let mut changed = whole;
            changed[at] = changed[at].wrapping_add(change);
            read_ints(record, &changed, 0);
            area(record, &changed, &[]);
        }
    }
    // Ints after the table, bytes after it, and an int that is cut off.
    let more = [12, 2, 0, 8, 3, 40, -1, 5, 6];
    read_ints(record, &more, 0);
    area(record, &more, &[3, -1, 5]);
    read(record, &packed(&more), 0);
    for rest in [&[0x80][..], &[0x00, 0x80], &[0x80, 0x00]] {
        let mut src = packed(&whole);
        src.extend(rest);
        read(record, &src, 0);
    }
    // Ints of five bytes, overlong and padded, in each place and behind the table.
    for src in with_five_bytes(&whole) {
        read(record, &src, 0);
    }
    for src in with_five_bytes(&[0, 0]) {
        read(record, &src, 0);
    }
    // Keys that come twice, and keys out of order.
    for keys in [[3, 3], [-1, 3], [i32::MIN, i32::MAX], [i32::MAX, i32::MIN]] {
        let items: Vec<Item> = keys.map(|key| (key, vec![9])).to_vec();
        read_ints(record, &inputs::listed(&items), 0);
        area(record, &inputs::listed(&items), &keys);
    }
}

/// Items of all keys at the ends, added in several orders.
fn orders(record: &mut Record) {
    for turn in 0..inputs::KEYS.len() {
        let mut list = vec![0; 30];
        for i in 0..inputs::KEYS.len() {
            let key = inputs::KEYS[(turn + i * 5) % inputs::KEYS.len()];
            let data = vec![key ^ 1; i % 3];
            add(record, &list, key, &data);
            if let Some(snap) = oracle::held(&list) {
                if let Told::Value(snap) = oracle::added(&snap, key, &data) {
                    let written = oracle::written(&snap);
                    list[..written.len()].copy_from_slice(&written);
                }
            }
        }
        area(record, &list, &[0, -1, 2]);
    }
    let list = [8, 1, 0, 65_538, 7, 77];
    add(record, &list, 65_538, &[1]);
    add(record, &list, 65_539, &[]);
    add(record, &list[..5], 65_537, &[]);
    add(record, &list[..4], 65_537, &[]);
    add(record, &[], 1, &[]);
}

fn random_cases(record: &mut Record, random: &mut Random) {
    for i in 0..36 {
        let items = inputs::items(random);
        let items = &items[..items.len().min(8)];
        let mut list = inputs::listed(items);
        let mut src = packed(&list);
        match i % 3 {
            0 => {}
            1 => inputs::misread(&mut list, items, random),
            _ => damage(&mut list, random),
        }
        list.truncate(40);
        read_ints(record, &list, random.pick(&[0, 0, 2, -1]));
        if i % 2 == 0 {
            damage(&mut src, random);
        }
        src.truncate(MOST_BYTES);
        read(record, &src, random.pick(&[0, 0, 2, -1]));
        let mut list = inputs::listed(&sorted(items));
        list.truncate(40);
        if i % 4 == 0 {
            damage(&mut list, random);
            list.truncate(40);
        }
        let key = items.first().map_or(5, |item| item.0);
        area(record, &list, &[key, random.pick(&inputs::KEYS)]);
        list.resize(list.len() + 4, 77);
        add(record, &list, random.pick(&inputs::KEYS), &[i]);
    }
}
