//! A run of a part: the seed of its inputs, its length, its count of cases,
//! and the first difference.

use super::random::Random;
use super::shrink;
use super::shrink::Shrink;
use super::text::thousands;

/// What the two sides showed for the same input.
#[derive(Clone, Debug)]
pub struct Shown {
    pub oracle: String,
    pub port: String,
}

/// `Err` if the sides differ.
pub type Compared = Result<(), Shown>;

impl Shown {
    /// Compares all that both sides show.
    pub fn compare<T: PartialEq + std::fmt::Debug>(oracle: &T, port: &T) -> Compared {
        if oracle == port {
            Ok(())
        } else {
            Err(Shown {
                oracle: format!("{oracle:?}"),
                port: format!("{port:?}"),
            })
        }
    }
    /// Something that the port must leave unchanged has changed.
    pub fn touched(what: &str, how: String) -> Shown {
        Shown {
            oracle: format!("{what} otherwise left as it was"),
            port: how,
        }
    }
}

/// A difference, on the smallest input found.
pub struct Difference {
    pub input: String,
    pub shown: Shown,
}

#[derive(Clone, Copy, Eq, PartialEq)]
pub enum Length {
    Quick,
    Full,
}

/// After how many cases a full run prints its progress.
const SAY_EVERY: u64 = 1_000_000_000;

pub struct Run {
    pub part: &'static str,
    pub seed: u64,
    pub rounds: u64,
    pub length: Length,
    pub cases: u64,
}

impl Run {
    /// The generator of a round.
    pub fn random(&self, round: u64) -> Random {
        Random::new(self.seed, self.part, round)
    }
    /// Counts a case. If it differs, searches the smallest input that
    /// differs: `input` makes the input, `compare` compares on any input,
    /// `print` prints one.
    pub fn case<I: Shrink>(
        &mut self,
        compared: Compared,
        input: impl FnOnce() -> I,
        mut compare: impl FnMut(&I) -> Compared,
        print: impl FnOnce(&I) -> String,
    ) -> Result<(), Difference> {
        self.cases += 1;
        if self.cases % SAY_EVERY == 0 {
            eprintln!("{}: {} cases so far", self.part, thousands(self.cases));
        }
        if compared.is_ok() {
            return Ok(());
        }
        let (input, shown) = shrink::smallest(input(), |input| compare(input).err());
        Err(Difference {
            input: print(&input),
            shown,
        })
    }
}
