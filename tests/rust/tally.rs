//! Counts of a group of comparisons: what agreed, what did not, and how often each kind of answer came.
use std::collections::BTreeMap;
use std::fmt::Debug;

/// Differences told in full before a group only counts on.
const TOLD: u64 = 5;

#[derive(Default)]
pub struct Tally {
    pub passed: u64,
    pub failed: u64,
    kinds: BTreeMap<String, u64>,
    told: Vec<String>,
}

/// The kind of a refusal.
pub fn refusal(number: u32) -> String {
    format!("R{number:>2}")
}

impl Tally {
    /// One comparison; `input` tells what was asked where the answers differ.
    pub fn compare<T: PartialEq + Debug>(
        &mut self,
        kind: String,
        expected: &T,
        got: &T,
        input: impl FnOnce() -> String,
    ) {
        *self.kinds.entry(kind).or_default() += 1;
        if expected == got {
            self.passed += 1;
            return;
        }
        self.failed += 1;
        if self.failed <= TOLD {
            self.told.push(format!("expected {expected:?}\n     got {got:?}\n     for {}", input()));
        }
    }

    pub fn count(&mut self, kind: &str) {
        *self.kinds.entry(kind.to_string()).or_default() += 1;
    }

    pub fn add(&mut self, other: Tally) {
        self.passed += other.passed;
        self.failed += other.failed;
        self.told.extend(other.told);
        for (kind, count) in other.kinds {
            *self.kinds.entry(kind).or_default() += count;
        }
    }

    /// A kind of answer that came less often than it must is a failure: a run that asks nothing does not pass.
    pub fn require(&mut self, kinds: &[String], least: u64) {
        for kind in kinds {
            let count = self.kinds.get(kind).copied().unwrap_or(0);
            if count < least {
                self.failed += 1;
                self.told.push(format!("{kind} came {count} times, wanted {least}"));
            }
        }
    }

    pub fn print(&self, name: &str) {
        for told in &self.told {
            println!("{name}: {told}");
        }
        let kinds: Vec<String> = self.kinds.iter().map(|(kind, count)| format!("{kind}: {count}")).collect();
        println!("{name}: {} passed, {} failed ({})", self.passed, self.failed, kinds.join(", "));
    }
}
