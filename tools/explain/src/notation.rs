//! Formulas as an explanation writes them: on one line, in `show`'s notation.

use zorambi::Row;
use zorambi_notation::notation::{index as index_text, last_i};
use zorambi_notation::{Names, Notation, Style};

/// Columns of a formula in a sentence; what finds no room stands under its row's number.
const COLUMNS: usize = 72;

/// How formulas and bounds are written: the names of symbols, and whether plain letters are used.
#[derive(Clone, Debug)]
pub struct Voice {
    pub names: Names,
    pub style: Style,
}

/// Plain letters and symbols without names: fit for a table, a log and any terminal.
impl Default for Voice {
    fn default() -> Voice {
        Voice { names: Names::default(), style: Style::Ascii }
    }
}

impl Voice {
    /// The formula of a row in these rows.
    pub fn formula(&self, rows: &[Row], row: usize) -> String {
        let number = i32::try_from(row).unwrap_or(i32::MAX);
        Notation::new(rows, &self.names, self.style).brief(number, COLUMNS)
    }
}

/// A row's columns, or a set's rows.
pub fn columns(row: &[i32]) -> String {
    row.iter().map(i32::to_string).collect::<Vec<_>>().join(" ")
}

/// An index: `n-1`, `i`, `5`.
pub fn index(b: i32, c: i32) -> String {
    index_text(b, c).unwrap_or_else(|| format!("<{b} {c}>"))
}

/// The limit n - c of an iteration.
pub fn limit(c: i64) -> String {
    i32::try_from(c).map_or_else(|_| format!("n-{c}"), last_i)
}
