//! A second implementation of document 01 ("Schema tableaux: formulas, nodes, links
//! and texts") with document 02's changes No. 4 ("Sides in either order"), No. 5 ("Bounds from
//! both sides"), No. 6 ("Links to any node") and No. 9 ("Proof rows written twice"), written from the
//! papers alone, to be run beside another implementation.
//!
//! * [`formula`]: rows, well-formedness, size, depth, outer rows, "lowered by k", "instance at n - c"
//! * [`convert`]: a wide schema written in plain rows (No. 1, "Connectives as designers write them")
//! * [`tableau`]: the check, and the older check, with every refusal in the paper's order
//! * [`model`]: the model check and the value of a formula
//! * [`find`]: the first model at an n that is named (No. 13, "A failing width, shown")
//! * [`text`]: reading and writing of the three texts, lines by number
//! * [`tidy`]: older records without rows written twice (No. 10, "Tidying older records")
//! * [`join`]: one record for two (No. 11, "One record for either fault")
//! * [`grow`]: a tableau that grows row by row (No. 7, "A tableau that grows on screen", and No. 8, "Enquiry and commit")
//! * [`packed`]: the one number that provers get
//! * [`program`]: the check programs, from texts to the four numbers and the line at fault
//! * [`small`]: small schemata one after another (No. 14, "All small schemata")
//!
//! Every public function takes plain slices and counts with any values and does not panic.

#![forbid(unsafe_code)]

pub mod convert;
pub mod find;
pub mod formula;
pub mod grow;
pub mod join;
pub mod model;
pub mod packed;
#[cfg(test)]
mod paper;
pub mod program;
pub mod small;
pub mod tableau;
pub mod text;
pub mod tidy;

/// Formula rows, schema and proof together (and in each text by itself).
pub const MAX_ROWS: usize = 1024;
/// Size of a formula, every occurrence counted.
pub const MAX_SIZE: u64 = 4096;
/// Depth of a formula.
pub const MAX_DEPTH: u64 = 64;
/// Largest distance from 0 of an offset or a limit in a formula row.
pub const MAX_OFFSET: i32 = 9999;
/// Largest symbol.
pub const MAX_SYMBOL: i32 = 255;
/// Largest least value of n, and largest n in a model.
pub const MAX_N: i32 = 9999;
/// Node rows.
pub const MAX_NODES: usize = 1024;
/// Members of all sets of a tableau.
pub const MAX_MEMBERS: usize = 8192;
/// True pairs of a model.
pub const MAX_PAIRS: usize = 4096;
/// Largest distance from 0 of the index in a pair.
pub const MAX_INDEX: i32 = 29_997;
/// Bytes of a text.
pub const MAX_TEXT: usize = 65_536;

/// Numbers in a formula row, a node row of a table, and a pair.
pub const ROW_WIDTH: usize = 4;
pub const NODE_WIDTH: usize = 9;
pub const PAIR_WIDTH: usize = 2;

/// What the check and the model check answer. `answer` 0 is acceptance, else a refusal's number.
#[derive(Clone, Copy, Debug, PartialEq, Eq)]
pub struct Verdict {
    pub answer: u8,
    pub place: i32,
    pub nodes: usize,
    pub links: usize,
}

impl Verdict {
    /// Acceptance: place 0 and the two counts.
    pub fn accepted(nodes: usize, links: usize) -> Verdict {
        Verdict { answer: 0, place: 0, nodes, links }
    }

    /// A refusal: its number, its place, zero counts.
    pub fn refused(refusal: Refusal) -> Verdict {
        Verdict { answer: refusal.answer, place: refusal.place, nodes: 0, links: 0 }
    }
}

/// A refusal's number and place.
#[derive(Clone, Copy, Debug, PartialEq, Eq)]
pub struct Refusal {
    pub answer: u8,
    pub place: i32,
}

/// Shorthand for an error result.
pub(crate) fn refuse<T>(answer: u8, place: i32) -> Result<T, Refusal> {
    Err(Refusal { answer, place })
}

/// True if a table of `length` numbers holds `count` rows of `width` numbers.
pub(crate) fn holds(length: usize, count: usize, width: usize) -> bool {
    count.checked_mul(width).is_some_and(|needed| needed <= length)
}
