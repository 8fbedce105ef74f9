//! Scratch: it is lent with any content, and is all zeros afterwards.

use super::area::LEFT_INT;
use super::report::Compared;
use super::report::Shown;

/// Scratch, with a guard on both sides.
#[derive(Default)]
pub struct Scratch(Vec<i32>);

impl Scratch {
    pub fn lend(&mut self, len: usize) -> &mut [i32] {
        self.0.clear();
        self.0.resize(len + 2, LEFT_INT);
        &mut self.0[1..=len]
    }
    /// Whether all of it is zeros, and the guards are unchanged.
    pub fn check(&self) -> Compared {
        let [first, lent @ .., last] = &self.0[..] else {
            unreachable!("there are two guards")
        };
        if [*first, *last] != [LEFT_INT; 2] || lent.iter().any(|&int| int != 0) {
            return Err(Shown::touched("scratch", "not zeros".to_string()));
        }
        Ok(())
    }
}
