//! Ints, bytes and lengths around each boundary of packed integers.

use super::oracle::packed;
use crate::core::padding;
use crate::core::random::Random;

/// The marked cases of docs/FORMAT.md.
pub const MARKED: [(i32, &[u8]); 8] = [
    (0, &[0x00]),
    (-1, &[0x40]),
    (63, &[0x3f]),
    (64, &[0x80, 0x01]),
    (-64, &[0x7f]),
    (-65, &[0xc0, 0x01]),
    (2147483647, &[0xbf, 0xff, 0xff, 0xff, 0x0f]),
    (-2147483648, &[0xff, 0xff, 0xff, 0xff, 0x0f]),
];

/// Places far outside of any bytes.
pub const FAR: [usize; 4] = [1 << 32, isize::MAX as usize, usize::MAX - 4, usize::MAX];

/// Bytes that reach each branch of reading: zero, sign, extend, digits at both
/// ends, the last fifth byte without a padding bit and the first with one.
pub const TELLING: [u8; 9] = [0x00, 0x01, 0x0f, 0x10, 0x40, 0x7f, 0x80, 0x90, 0xff];

/// Ints of five bytes: an overlong 0, a positive and a negative one with all
/// digits of the fifth byte, and padded ones.
pub const FIVE_BYTES: [[u8; 5]; 6] = [
    [0x80, 0x80, 0x80, 0x80, 0x00],
    [0x80, 0x80, 0x80, 0x80, 0x0f],
    [0xff, 0xff, 0xff, 0xff, 0x0f],
    [0x80, 0x80, 0x80, 0x80, 0x10],
    [0xff, 0xff, 0xff, 0xff, 0x1f],
    [0xff, 0xff, 0xff, 0xff, 0xff],
];

/// Ints of each length and sign, for lists.
pub const LIST_INTS: [i32; 13] = [
    0,
    1,
    -1,
    63,
    64,
    -64,
    -65,
    8_191,
    8_192,
    -1_048_577,
    134_217_728,
    i32::MAX,
    i32::MIN,
];

/// Lengths of random bytes, and how many of each a round has.
pub const LENGTHS: [(usize, usize); 24] = [
    (0, 1),
    (1, 10),
    (2, 20),
    (3, 50),
    (4, 100),
    (5, 300),
    (6, 300),
    (7, 100),
    (8, 100),
    (9, 100),
    (10, 100),
    (11, 100),
    (12, 100),
    (899, 2),
    (900, 2),
    (901, 2),
    (4_096, 2),
    (8_191, 2),
    (8_192, 2),
    (8_193, 2),
    (65_536, 2),
    (1_048_575, 1),
    (1_048_576, 1),
    (1_048_577, 1),
];

/// The list of `len` entries of `alphabet` that has this number.
pub fn numbered<T: Copy>(mut number: usize, len: u32, alphabet: &[T]) -> Vec<T> {
    let mut list = Vec::with_capacity(len as usize);
    for _ in 0..len {
        list.push(alphabet[number % alphabet.len()]);
        number /= alphabet.len();
    }
    list
}

/// All ints within a few of a power of two, both signs.
pub fn boundary_ints() -> Vec<i32> {
    let mut ints = vec![];
    for power in 0..=32 {
        for sign in [1, -1] {
            for near in -4..=4 {
                let int: i64 = sign * (1i64 << power) + near;
                ints.extend(i32::try_from(int).ok());
            }
        }
    }
    ints.sort_unstable();
    ints.dedup();
    ints
}

/// The packed ints of a list, with an int of five bytes in the place of one of
/// them or behind the last.
pub fn with_five_bytes(list: &[i32]) -> Vec<Vec<u8>> {
    let mut all = vec![];
    for at in 0..=list.len() {
        let rest = packed(list.get(at + 1..).unwrap_or(&[]));
        for int in FIVE_BYTES {
            all.push([&packed(&list[..at])[..], &int, &rest].concat());
        }
    }
    all
}

/// The same with two such ints.
pub fn with_twice_five_bytes(list: &[i32]) -> Vec<Vec<u8>> {
    let mut all = vec![];
    for at in 0..list.len() {
        for int in FIVE_BYTES {
            let front = [&packed(&list[..at])[..], &int].concat();
            for rest in with_five_bytes(&list[at + 1..]) {
                all.push([&front[..], &rest].concat());
            }
        }
    }
    all
}

/// Packed ints, some of them overlong, and at times a padded one among them or
/// behind them.
pub fn loose(ints: &[i32], random: &mut Random) -> Vec<u8> {
    let padded = random.chance(1, 3).then(|| random.below(ints.len() + 1));
    let mut bytes = vec![];
    for (i, int) in ints.iter().chain([&0]).enumerate() {
        let mut int = packed(&[*int]);
        if padded == Some(i) {
            lengthen(&mut int, 5);
            int[4] |= 0x10 << random.below(4);
        } else if i == ints.len() {
            break;
        } else if random.chance(1, 3) {
            let len = random.between(int.len(), 5);
            lengthen(&mut int, len);
        }
        bytes.extend(int);
    }
    bytes
}

/// Lengthens a packed int to `len` bytes, unless it has as many.
fn lengthen(int: &mut Vec<u8>, len: usize) {
    let last = int.len() - 1;
    if last + 1 < len {
        int[last] |= 0x80;
        int.resize(len - 1, 0x80);
        int.push(0);
    }
}

/// Random bytes in which long, overlong and padded ints are frequent. In half of
/// them no int is padded, so that all of them are read.
pub fn bytes(len: usize, random: &mut Random) -> Vec<u8> {
    let mut bytes = any_bytes(len, random);
    let end = match random.below(4) {
        0 => 0,
        1 => random.below(len + 1),
        _ => len,
    };
    padding::clear(&mut bytes[..end]);
    bytes
}

fn any_bytes(len: usize, random: &mut Random) -> Vec<u8> {
    match random.below(6) {
        0 => (0..len).map(|_| random.byte()).collect(),
        1 => (0..len).map(|_| random.byte() | 0x80).collect(),
        2 => (0..len).map(|_| random.pick(&TELLING)).collect(),
        // Mostly extended, sometimes an end of any sort.
        3 => (0..len)
            .map(|_| match random.below(5) {
                0 => random.pick(&[0x00, 0x01, 0x0f, 0x10, 0x40, 0x7f]),
                1 => 0x80,
                _ => random.byte() | 0x80,
            })
            .collect(),
        // Packed ints of all sizes.
        4 => {
            let list: Vec<i32> = (0..len).map(|_| random.int()).collect();
            let mut bytes = packed(&list);
            bytes.truncate(len);
            bytes
        }
        // Ints of five bytes, including padded and overlong ones.
        _ => (0..len)
            .map(|i| match i % 5 {
                4 => random.pick(&[0x00, 0x01, 0x0f, 0x10, 0x1f, 0x80, 0xf0, 0xff]),
                _ => random.byte() | 0x80,
            })
            .collect(),
    }
}
