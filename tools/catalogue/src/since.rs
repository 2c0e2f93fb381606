//! An earlier table that a run is held against.

use crate::judge::Texts;
use crate::table::{Part, Row, Sort, Table};
use crate::walk::order;
use std::collections::{HashMap, HashSet};
use std::path::Path;
use zorambi::{shown_name, IDENTITY};

pub struct Earlier {
    rows: HashMap<String, Row>,
    library: String,
}

impl Earlier {
    /// The rows of a table that belong to a part. It has to be the whole's or that part's.
    pub fn read(path: &Path, part: Part) -> Result<Earlier, String> {
        let table = Table::read(path)?;
        if table.of.part != Part::WHOLE && table.of.part != part {
            let shown = shown_name(path);
            return Err(format!("{shown} is the table of part {}, not of the whole or of part {part}", table.of.part));
        }
        let rows = table.rows.into_iter().filter(|row| part.has(&row.name));
        let rows = rows.map(|row| (row.name.clone(), row)).collect();
        Ok(Earlier { rows, library: table.of.library })
    }

    /// The library that wrote it, if that was another one.
    pub fn of_another_library(&self) -> Option<&str> {
        Some(&self.library[..]).filter(|library| *library != IDENTITY)
    }

    pub fn row(&self, name: &str) -> Option<&Row> {
        self.rows.get(name)
    }

    /// The row has this library's verdict on these texts, and says why where it is a refusal.
    pub fn vouches_for(&self, row: &Row, texts: &Texts) -> bool {
        let is_told = row.sort != Sort::Refused || !row.why.is_empty();
        self.of_another_library().is_none() && is_told && texts.are_of(row)
    }

    /// Rows of names that are no longer there, in their order.
    pub fn gone<'a>(&self, names: impl Iterator<Item = &'a str>) -> Vec<&Row> {
        let there: HashSet<&str> = names.collect();
        let mut gone: Vec<&Row> = self.rows.values().filter(|row| !there.contains(&row.name[..])).collect();
        gone.sort_by(|one, other| order(&one.name).cmp(order(&other.name)));
        gone
    }
}

/// What an earlier table says of a row.
#[derive(Clone, Copy, PartialEq, Eq, PartialOrd, Ord)]
pub enum News {
    /// There is no earlier table.
    Unasked,
    New,
    /// It has other texts, or cannot be held against what it was.
    Changed,
    /// It has the same texts and another verdict.
    Judged,
    Same,
}

impl News {
    pub const COUNTED: [News; 4] = [News::New, News::Changed, News::Judged, News::Same];

    pub fn of(before: Option<&Row>, row: &Row) -> News {
        let Some(before) = before else { return News::New };
        let texts = |row: &Row| (row.schema.clone(), row.proof.clone(), row.older);
        let read = !row.schema.is_empty() && !row.proof.is_empty();
        match (texts(before) == texts(row), (before.sort, before.numbers) == (row.sort, row.numbers)) {
            (true, true) => News::Same,
            (true, false) if read => News::Judged,
            _ => News::Changed,
        }
    }

    pub fn word(self) -> &'static str {
        match self {
            News::Unasked => "",
            News::New => "new",
            News::Changed => "changed",
            News::Judged => "with another verdict",
            News::Same => "as before",
        }
    }

    /// What a line starts with.
    pub fn start(self) -> &'static str {
        match self {
            News::New => "new, ",
            News::Changed => "changed, ",
            News::Judged => "unchanged and with another verdict, ",
            News::Unasked | News::Same => "",
        }
    }
}
