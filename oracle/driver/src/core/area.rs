//! Lent areas: filled with a known pattern, with guards on both sides, so
//! that every entry that was written can be told from one that was not.

/// The entries of an area: bytes, types or ints.
pub trait Pattern: Copy + PartialEq + std::fmt::Debug {
    /// The initial value of place `i`.
    fn pattern(i: usize) -> Self;
}

impl Pattern for u8 {
    fn pattern(i: usize) -> u8 {
        (i as u8).wrapping_mul(29) ^ 0xa5
    }
}

impl Pattern for u16 {
    fn pattern(i: usize) -> u16 {
        (i as u16).wrapping_mul(0x1d35) ^ 0xa53c
    }
}

impl Pattern for i32 {
    fn pattern(i: usize) -> i32 {
        (i as i32).wrapping_mul(0x0101_1d35) ^ 0x5aa5_3cc3
    }
}

/// The initial value of a lent number.
pub const LEFT_INT: i32 = 0x5a17_c3e1;
pub const LEFT_FLAG: u32 = 0xc35a_17e1;
pub const LEFT_SIZE: usize = 0x5a17_c3e1_0f2d_b496;

const GUARD: usize = 4;

/// An area that is lent repeatedly.
pub struct Area<T> {
    entries: Vec<T>,
    len: usize,
}

impl<T: Pattern> Area<T> {
    pub fn new() -> Area<T> {
        Area {
            entries: Vec::new(),
            len: 0,
        }
    }
    /// `len` entries that hold the pattern.
    pub fn lend(&mut self, len: usize) -> &mut [T] {
        self.len = len;
        self.entries.clear();
        self.entries.extend((0..len + 2 * GUARD).map(T::pattern));
        &mut self.entries[GUARD..GUARD + len]
    }
    /// Entries that hold `content`.
    pub fn lend_filled(&mut self, content: &[T]) -> &mut [T] {
        let lent = self.lend(content.len());
        lent.copy_from_slice(content);
        lent
    }
    /// The lent part, in its current state.
    pub fn now(&self) -> &[T] {
        &self.entries[GUARD..GUARD + self.len]
    }
    /// Whether `written` is at place `at`, and everything else is unchanged.
    pub fn check(&self, at: usize, written: &[T]) -> Result<(), String> {
        let start = GUARD + at;
        for (i, &entry) in self.entries.iter().enumerate() {
            let expected = match i.checked_sub(start) {
                Some(j) if j < written.len() => written[j],
                _ => T::pattern(i),
            };
            if entry != expected {
                let place = i as isize - GUARD as isize;
                return Err(format!("place {place} holds {entry:?}, not {expected:?}"));
            }
        }
        Ok(())
    }
}
