//! How many inputs of each kind a test had.

use crate::inputs::random::say;
use cerahupo::Refusal;
use std::collections::BTreeMap;

pub struct Tally {
    test: &'static str,
    counts: BTreeMap<String, usize>,
}

impl Tally {
    pub fn new(test: &'static str) -> Tally {
        Tally { test, counts: BTreeMap::new() }
    }

    pub fn count(&mut self, kind: &str) {
        *self.counts.entry(kind.to_string()).or_default() += 1;
    }

    /// Counts a refusal by its number, a result by what is said of it.
    pub fn count_answer<T>(&mut self, answer: Result<T, Refusal>, kind: impl Fn(T) -> &'static str) {
        match answer {
            Ok(result) => self.count(kind(result)),
            Err(refusal) => self.count(&format!("refusal {}", refusal.number)),
        }
    }

    /// Says the counts; each kind named must have come up, so that no comparison is empty.
    pub fn finish(self, kinds: &[&str]) {
        let counts: Vec<String> = self.counts.iter().map(|(kind, count)| format!("{kind}: {count}")).collect();
        say(&format!("{}: {}", self.test, counts.join(", ")));
        for kind in kinds {
            assert!(self.counts.contains_key(*kind), "{} had no {kind}", self.test);
        }
    }
}
