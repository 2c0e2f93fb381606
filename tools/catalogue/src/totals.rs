//! How many records were accepted and refused, and how often each refusal came.

use crate::table::{Row, Sort};
use std::collections::BTreeMap;
use std::fmt;
use zorambi::words::counted;
use zorambi::Refusal;

#[derive(Clone, Debug, Default)]
pub struct Totals {
    accepted: usize,
    refused: usize,
    older_accepted: usize,
    older_refused: usize,
    unlisted: usize,
    links: usize,
    elsewhere: usize,
    /// How often each refusal came, by its number.
    refusals: BTreeMap<i64, usize>,
}

impl Totals {
    pub fn count(&mut self, row: &Row) {
        match row.sort {
            Sort::Accepted => {
                self.accepted += 1;
                self.older_accepted += usize::from(row.older);
            }
            Sort::Refused => {
                self.refused += 1;
                self.older_refused += usize::from(row.older);
                *self.refusals.entry(row.numbers[0]).or_default() += 1;
            }
            Sort::Unlisted => self.unlisted += 1,
            Sort::Link => self.links += 1,
            Sort::Elsewhere => self.elsewhere += 1,
        }
    }

    /// Everything that was found is a record and was accepted.
    pub fn all_accepted(&self) -> bool {
        self.refused + self.unlisted + self.links == 0
    }

    pub fn counts(&self) -> [(&'static str, usize); 8] {
        [
            ("records", self.accepted + self.refused),
            ("accepted", self.accepted),
            ("refused", self.refused),
            ("older_accepted", self.older_accepted),
            ("older_refused", self.older_refused),
            ("not_listed", self.unlisted),
            ("not_followed", self.links),
            ("listed_elsewhere", self.elsewhere),
        ]
    }

    /// How many rows were counted.
    pub fn all(&self) -> usize {
        self.accepted + self.refused + self.unlisted + self.links + self.elsewhere
    }

    /// Each refusal that came by its number, and how often.
    pub fn refusals(&self) -> Vec<(u8, usize)> {
        self.refusals.iter().filter_map(|(number, times)| Some((u8::try_from(*number).ok()?, *times))).collect()
    }

    /// Each refusal that came, the most frequent first, a line each.
    pub fn summary(&self) -> Vec<String> {
        let mut refusals: Vec<_> = self.refusals.iter().map(|(number, times)| (*times, *number)).collect();
        refusals.sort_by_key(|(times, number)| (usize::MAX - times, *number));
        let words =
            |number: i64| Refusal::of_number(number as u64).map_or(String::new(), |refusal| refusal.to_string());
        refusals.iter().map(|(times, number)| format!("{times:>9} refused: {} ({number})", words(*number))).collect()
    }
}

impl fmt::Display for Totals {
    fn fmt(&self, f: &mut fmt::Formatter<'_>) -> fmt::Result {
        let records = counted(self.accepted + self.refused, "record");
        write!(f, "{records}: {} accepted, {} refused", self.accepted, self.refused)?;
        let older = self.older_accepted + self.older_refused;
        if older > 0 {
            let (accepted, refused) = (self.older_accepted, self.older_refused);
            write!(f, "; of these, {older} older: {accepted} accepted, {refused} refused")?;
        }
        for (count, thing, what) in [
            (self.unlisted, "folder", "not listed"),
            (self.links, "link", "to a folder not followed"),
            (self.elsewhere, "link", "to a folder listed elsewhere"),
        ] {
            if count > 0 {
                write!(f, "; {} {what}", counted(count, thing))?;
            }
        }
        Ok(())
    }
}
