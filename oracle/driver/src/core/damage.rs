//! Damaged copies of good inputs.

use super::random::Random;

/// The entries of a list: bytes or ints.
pub trait Entry: Copy {
    /// Any entry.
    fn any(random: &mut Random) -> Self;
    /// An entry that differs a little from this one.
    fn changed(self, random: &mut Random) -> Self;
}

impl Entry for u8 {
    fn any(random: &mut Random) -> u8 {
        random.byte()
    }
    fn changed(self, random: &mut Random) -> u8 {
        match random.below(3) {
            0 => self ^ 1 << random.below(8),
            1 => self.wrapping_add(random.pick(&[1, 255])),
            _ => random.byte(),
        }
    }
}

impl Entry for i32 {
    fn any(random: &mut Random) -> i32 {
        random.int()
    }
    fn changed(self, random: &mut Random) -> i32 {
        match random.below(4) {
            0 => self ^ 1 << random.below(32),
            1 => self.wrapping_add(random.pick(&[1, -1, 4, -4])),
            2 => self.wrapping_neg(),
            _ => random.int(),
        }
    }
}

/// Makes one change to `list`: an entry changed, inserted, removed, doubled or
/// swapped with another, a run doubled, or the end cut off.
pub fn damage<T: Entry>(list: &mut Vec<T>, random: &mut Random) {
    if list.is_empty() {
        list.push(T::any(random));
        return;
    }
    let at = random.below(list.len());
    match random.below(7) {
        0 => list[at] = list[at].changed(random),
        1 => list.insert(at, T::any(random)),
        2 => drop(list.remove(at)),
        3 => list.insert(at, list[at]),
        4 => {
            let other = random.below(list.len());
            list.swap(at, other);
        }
        5 => {
            let end = random.between(at, list.len());
            let run = list[at..end].to_vec();
            list.splice(at..at, run);
        }
        _ => list.truncate(at),
    }
}
