//! What an entry that is compared by itself is given, and how often cases of each kind were compared. A kind that is
//! listed has to occur.

use crate::tally::{fits, Tally};
use std::path::Path;

/// The seed of a run, how many cases of other entries it generates, and where the records are.
pub struct Run<'a> {
    pub seed: u64,
    pub count: u64,
    pub records: &'a Path,
}

pub struct Kinds {
    entry: &'static str,
    counts: Vec<(&'static str, u64)>,
}

impl Kinds {
    pub fn new(entry: &'static str, kinds: &[&'static str]) -> Kinds {
        Kinds { entry, counts: kinds.iter().map(|kind| (*kind, 0)).collect() }
    }

    /// One case of a kind that is listed.
    pub fn count(&mut self, kind: &'static str) {
        let counts = self.counts.iter_mut().find(|(listed, _)| *listed == kind);
        counts.unwrap_or_else(|| panic!("{}: no kind '{kind}'", self.entry)).1 += 1;
    }

    pub fn count_if(&mut self, holds: bool, kind: &'static str) {
        if holds {
            self.count(kind);
        }
    }

    /// Prints the counts, and tests that there is a case of each kind.
    pub fn close(self, tally: &mut Tally) {
        println!("{:66}{:>9}", self.entry, "cases");
        for (kind, count) in &self.counts {
            let name = format!("{}: {kind}", self.entry);
            println!("{name:66}{count:>9}");
            tally.count_cases(&name, *count);
            tally.test(&format!("{}, {kind}", self.entry), fits(*count > 0, || "no case".to_string()));
        }
    }
}
