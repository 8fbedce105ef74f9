//! The parts: one for each subject.
//!
//! A new part is a module with a function `part`, listed in [`all`]. Its `oracle`
//! has the Rust's answers, its `calls` what both sides do on one input, and its
//! `compare` which inputs they get.

mod deltas;
mod examples;
mod manager;
mod packer;
mod receiver;
mod rules;
mod sessions;
mod snaps;
mod storage;
mod tables;

use crate::core::bench::Table;
use crate::core::random::Random;
use crate::core::record::Record;
use crate::core::report::Difference;
use crate::core::report::Run;

/// How many rounds of random inputs a run has.
pub struct Rounds {
    pub quick: u64,
    pub full: u64,
}

pub struct Part {
    pub name: &'static str,
    pub rounds: Rounds,
    /// Compares until the first difference.
    pub compare: fn(&mut Run) -> Result<(), Difference>,
    /// Records a sample of the Rust's answers.
    pub record: Option<fn(&mut Record, &mut Random)>,
    pub bench: Option<fn(&mut Table)>,
}

pub fn all() -> Vec<Part> {
    vec![
        examples::part(),
        packer::part(),
        tables::part(),
        rules::part(),
        deltas::part(),
        receiver::part(),
        snaps::part(),
        storage::part(),
        manager::part(),
        sessions::part(),
    ]
}
