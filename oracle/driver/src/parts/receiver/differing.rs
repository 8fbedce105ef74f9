//! A model of `DifferingAttributes`, written from docs/FORMAT.md, since the Rust
//! counts it by another rule.

use super::oracle::Call;
use cefdugar::receiver::ReceivedDelta;

/// Tick, base, part count and sum of the unfinished tick's first part.
#[derive(Clone, Debug, Default)]
pub struct FirstPart(Option<[i32; 4]>);

impl FirstPart {
    /// How often a call counts the warning, by the Rust's answer to the call.
    pub fn due(&mut self, call: &Call, answer: &Result<Option<ReceivedDelta>, u32>) -> usize {
        if let Err(20..=22) = answer {
            return 0;
        }
        let (first, differs) = match call {
            Call::Snap([tick, distance, count, _, sum], _) => {
                let part = [*tick, tick.wrapping_sub(*distance), *count, *sum];
                let first = self.0.filter(|first| first[0] == *tick).unwrap_or(part);
                (Some(first), part != first)
            }
            Call::Single(..) | Call::Empty(_) | Call::Reset => (None, false),
        };
        let finished = matches!(answer, Ok(Some(_)));
        self.0 = first.filter(|_| !finished);
        usize::from(differs)
    }
}
