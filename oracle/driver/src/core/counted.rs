//! Calls that set a count and write to the front of a lent area.

use super::area::LEFT_SIZE;
use super::report::Compared;
use super::report::Shown;
use cefdugar::Refusal;

/// What the caller holds after a call, beside the areas.
#[derive(Clone, Copy, Debug, PartialEq)]
pub struct Counted {
    pub number: u32,
    pub count: usize,
}

impl Counted {
    /// Before the call.
    pub const LEFT: Counted = Counted {
        number: 0,
        count: LEFT_SIZE,
    };
    /// `needed` entries into `room`, or 40.
    pub fn fits(needed: usize, room: usize) -> Counted {
        if needed <= room {
            Counted {
                number: 0,
                count: needed,
            }
        } else {
            Counted::refused(40)
        }
    }
    /// As many entries as `needed` says into `room`, or its refusal.
    pub fn laid(needed: Result<usize, u32>, room: usize) -> Counted {
        match needed {
            Ok(needed) => Counted::fits(needed, room),
            Err(number) => Counted::refused(number),
        }
    }
    pub fn refused(number: u32) -> Counted {
        Counted {
            number,
            count: LEFT_SIZE,
        }
    }
    /// As the safe calls return it.
    pub fn answer(self) -> Result<usize, Refusal> {
        match self.number {
            0 => Ok(self.count),
            number => Err(Refusal(number)),
        }
    }
}

/// Room for `needed` entries and `spare` more, or none if that is negative.
pub fn room(needed: usize, spare: isize) -> usize {
    (needed as isize).saturating_add(spare).max(0) as usize
}

/// Whether the area lent as `name` is as expected.
pub fn left(name: &str, how: Result<(), String>) -> Compared {
    how.map_err(|how| Shown::touched(name, how))
}
