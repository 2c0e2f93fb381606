//! The formula rows of a schema and a proof as one list, and what is known of each: size, depth, what stands in it.

use crate::notation::Voice;
use zorambi::Row;

pub const MAX_ROWS: usize = 1024;
pub const MAX_SIZE: u64 = 4096;
pub const MAX_DEPTH: u64 = 64;
pub const MAX_OFFSET: i32 = 9999;
pub const MAX_SYMBOL: i32 = 255;

/// The kinds by their numbers; those from 8 on stand in wide schemata alone.
pub const KINDS: [&str; 12] = [
    "true",
    "false",
    "a literal",
    "a negated literal",
    "an and",
    "an or",
    "a big and",
    "a big or",
    "a not",
    "an implication",
    "an equivalence",
    "an exclusive or",
];

/// The name of a kind, `an and (kind 4)`.
pub fn kind_name(kind: i32) -> String {
    match usize::try_from(kind).ok().and_then(|kind| KINDS.get(kind)) {
        Some(name) => format!("{name} (kind {kind})"),
        None => format!("of kind {kind}, which there is not"),
    }
}

/// What is known of a row whose parts are rows before it. Sizes and depths stop at the largest number.
#[derive(Clone, Copy, Debug, Default, PartialEq, Eq)]
pub struct Facts {
    pub size: u64,
    pub depth: u64,
    /// A literal on i stands in it outside an iteration.
    pub on_i: bool,
    /// A literal that is not on i stands in it, or an iteration.
    pub not_on_i: bool,
}

/// Formula rows: the schema's, then the proof's.
#[derive(Clone, Debug, Default)]
pub struct Rows {
    rows: Vec<Row>,
    schema_rows: usize,
    /// Kinds 8 to 11 may stand in it.
    pub wide: bool,
    facts: Vec<Facts>,
    pub voice: Voice,
}

impl Rows {
    /// Of two flat tables with their counts, as far as they go and as far as rows are allowed.
    pub fn new([schema, proof]: [(&[i32], usize); 2], wide: bool, voice: &Voice) -> Rows {
        let rows_of = |(table, count): (&[i32], usize)| -> Vec<Row> {
            table.as_chunks().0.iter().take(count.min(MAX_ROWS)).copied().collect()
        };
        let mut rows = rows_of(schema);
        let schema_rows = rows.len();
        rows.extend(rows_of(proof));
        let mut all = Rows { rows, schema_rows, wide, facts: Vec::new(), voice: voice.clone() };
        for row in 0..all.rows.len() {
            all.facts.push(all.facts_of(row));
        }
        all
    }

    pub fn len(&self) -> usize {
        self.rows.len()
    }

    pub fn schema_rows(&self) -> usize {
        self.schema_rows
    }

    pub fn all(&self) -> &[Row] {
        &self.rows
    }

    /// The row of this number, if it is one.
    pub fn get(&self, row: i32) -> Option<Row> {
        self.rows.get(usize::try_from(row).ok()?).copied()
    }

    pub fn facts(&self, row: i32) -> Facts {
        usize::try_from(row).ok().and_then(|row| self.facts.get(row)).copied().unwrap_or_default()
    }

    /// The parts of a row that are rows before it.
    pub fn parts(&self, row: usize) -> Vec<usize> {
        let Some([kind, a, b, _]) = self.rows.get(row).copied() else { return Vec::new() };
        let before = |part: i32| usize::try_from(part).ok().filter(|part| *part < row);
        match kind {
            4 | 5 | 9..=11 => [a, b].into_iter().filter_map(before).collect(),
            6..=8 => before(a).into_iter().collect(),
            _ => Vec::new(),
        }
    }

    fn facts_of(&self, row: usize) -> Facts {
        let mut facts = Facts { size: 1, depth: 1, ..Facts::default() };
        for part in self.parts(row) {
            let part = self.facts[part];
            facts.size = facts.size.saturating_add(part.size);
            facts.depth = facts.depth.max(part.depth.saturating_add(1));
            facts.on_i |= part.on_i;
            facts.not_on_i |= part.not_on_i;
        }
        match self.rows[row] {
            [2 | 3, _, b, _] => (facts.on_i, facts.not_on_i) = (b == 2, b != 2),
            [6 | 7, ..] => (facts.on_i, facts.not_on_i) = (false, true),
            _ => {}
        }
        facts
    }

    /// The first row in it, parts from left to right, that makes a fact so: a literal, or an iteration.
    pub fn first(&self, row: i32, fact: fn(&Facts) -> bool) -> Option<i32> {
        let mut at = usize::try_from(row).ok()?;
        loop {
            if !fact(self.facts.get(at)?) {
                return None;
            }
            match self.rows[at][0] {
                2 | 3 | 6 | 7 => return i32::try_from(at).ok(),
                _ => at = self.parts(at).into_iter().find(|part| fact(&self.facts[*part]))?,
            }
        }
    }

    /// The earliest row with the same four columns, if one stands before it.
    pub fn repeats(&self, row: usize) -> Option<usize> {
        let repeated = self.rows.get(row)?;
        self.rows[..row].iter().position(|earlier| earlier == repeated)
    }

    /// A row's formula.
    pub fn formula(&self, row: usize) -> String {
        self.voice.formula(&self.rows, row)
    }

    /// `row 5 (p0[n])`; the number alone if it is no row.
    pub fn text(&self, row: i32) -> String {
        match usize::try_from(row).ok().filter(|row| *row < self.rows.len()) {
            Some(number) => format!("row {row} ({})", self.formula(number)),
            None => format!("row {row}"),
        }
    }

    /// The name of the text that the schema's rows stand in.
    pub fn schema_text(&self) -> &'static str {
        if self.wide {
            "wide.txt"
        } else {
            "schema.txt"
        }
    }

    /// The text and the line of a row.
    pub fn place(&self, row: usize) -> (&'static str, usize) {
        match row.checked_sub(self.schema_rows) {
            None => (self.schema_text(), 4 + row),
            Some(row) => ("proof.txt", 2 + row),
        }
    }
}

/// Which rows there are: `rows are 0 to 8`.
pub fn range_of_rows(count: usize) -> String {
    match count {
        0 => "there is no row".to_string(),
        1 => "the only row is 0".to_string(),
        count => format!("rows are 0 to {}", count - 1),
    }
}
