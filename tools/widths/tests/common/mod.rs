//! Schemata at widths, and what the other implementation says of them.

// Not every test asks for all of it.
#![allow(dead_code)]

use zorambi::Schema;
use zorambi_generate::schemata::{false_schema, random_schema};
use zorambi_generate::Rng;
use zorambi_reference::find::occurring;
use zorambi_reference::formula::Formulas;
use zorambi_reference::model::value;

/// A well-formed schema at n, by the other implementation.
pub struct Case {
    pub schema: Schema,
    pub n: i32,
    formulas: Formulas,
}

impl Case {
    pub fn new(schema: Schema, n: i32) -> Case {
        let formulas = Formulas::new(schema.rows.as_flattened(), schema.rows.len(), &[], 0).expect("a table");
        Case { schema, n, formulas }
    }

    /// The pairs that occur, ascending, if there are at most so many.
    pub fn pairs(&self, limit: usize) -> Option<Vec<[i32; 2]>> {
        let pairs = occurring(&self.formulas, self.schema.root, i64::from(self.n), limit)?;
        Some(pairs.into_iter().map(|(symbol, index)| [symbol, index as i32]).collect())
    }

    /// Whether the schema is true where exactly these pairs are.
    pub fn holds(&self, is_true: &dyn Fn([i32; 2]) -> bool) -> bool {
        value(&self.formulas, self.schema.root, i64::from(self.n), &|symbol, index| is_true([symbol, index as i32]))
    }
}

/// The last row at n.
pub fn of_rows(rows: &[[i32; 4]], n: i32) -> Case {
    Case::new(Schema { root: rows.len() as i32 - 1, least: 0, rows: rows.to_vec() }, n)
}

/// Small schemata, of those of three rows each `step`th, at the first widths.
pub fn small(step: usize) -> impl Iterator<Item = Case> {
    let of = |rows, step| zorambi::small(rows).expect("1 to 3 rows").step_by(step);
    let schemata = of(1, 1).chain(of(2, 1)).chain(of(3, step));
    schemata.flat_map(|schema| (0..=3).map(move |n| Case::new(schema.clone(), n)))
}

/// Random schemata, true somewhere or false by construction, at widths from their least value on.
pub fn random(seed: u64, count: usize) -> impl Iterator<Item = Case> {
    let mut rng = Rng::new(seed);
    (0..count).flat_map(move |at| {
        let made = if at % 2 == 0 { random_schema(&mut rng) } else { false_schema(&mut rng) };
        let schema = Schema { root: made.root, least: made.least, rows: made.rows() };
        let last = (schema.least + 4).min(9999);
        (schema.least..=last).map(move |n| Case::new(schema.clone(), n)).collect::<Vec<_>>()
    })
}
