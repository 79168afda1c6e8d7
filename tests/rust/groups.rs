//! The groups of comparisons. Each goes over its own inputs, a part of them on each thread, and says which kinds of answer must have come.
use crate::tally::{refusal, Tally};
use std::path::PathBuf;

mod bench;
mod check;
mod empty;
mod explain;
mod judge;
mod large;
mod limited;
mod measure;
mod program;
mod removal;
mod search;
mod sessions;
mod stored;
mod tables;
mod text;

/// Which part of the inputs, of how many; where the program and the stored jobs are.
#[derive(Clone)]
pub struct Part {
    pub number: u64,
    pub of: u64,
    pub program: PathBuf,
    pub folders: Vec<PathBuf>,
}

impl Part {
    /// The seeds of this part, of so many in all.
    fn seeds(&self, count: u64) -> impl Iterator<Item = u64> {
        (self.number..count).step_by(self.of as usize)
    }
}

pub struct Group {
    pub name: &'static str,
    pub run: fn(&Part) -> Tally,
    /// The kinds of answer that must come, and how often at least.
    pub wanted: fn(&Part) -> (Vec<String>, u64),
}

pub const GROUPS: &[Group] = &[
    check::GROUP,
    judge::GROUP,
    search::GROUP,
    large::GROUP,
    limited::GROUP,
    explain::GROUP,
    removal::GROUP,
    empty::GROUP,
    measure::GROUP,
    tables::GROUP,
    text::GROUP,
    program::GROUP,
    stored::GROUP,
    bench::GROUP,
    sessions::GROUP,
];

/// The kinds of these refusals, and one more.
fn refusals(numbers: impl IntoIterator<Item = u32>, more: &[&str]) -> Vec<String> {
    numbers.into_iter().map(refusal).chain(more.iter().map(|kind| kind.to_string())).collect()
}
