//! Branches that a run must reach, and how often each was.

use std::collections::BTreeMap;

pub struct Counted {
    wanted: &'static [&'static str],
    counts: BTreeMap<&'static str, u64>,
}

impl Counted {
    pub fn of(wanted: &'static [&'static str]) -> Counted {
        Counted { wanted, counts: BTreeMap::new() }
    }

    /// Of these cases those that are so.
    pub fn add_those<const N: usize>(&mut self, cases: [(&'static str, bool); N]) {
        for (branch, _) in cases.into_iter().filter(|(_, so)| *so) {
            assert!(self.wanted.contains(&branch), "{branch}");
            *self.counts.entry(branch).or_default() += 1;
        }
    }

    pub fn told(&self) -> String {
        let each: Vec<String> = self.wanted.iter().map(|b| format!("{b}: {}", self.counts.get(b).copied().unwrap_or(0))).collect();
        each.join("; ")
    }

    /// What should have been reached and was not.
    pub fn never(&self) -> Vec<&'static str> {
        self.wanted.iter().filter(|b| !self.counts.contains_key(*b)).copied().collect()
    }
}
