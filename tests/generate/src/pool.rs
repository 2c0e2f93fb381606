//! Formulas built up as rows: a growing table in which equal rows are mostly shared.

use super::rng::Rng;
use std::collections::HashMap;
use zorambi_reference::formula::{
    Formulas, Row, AND, BIG_AND, BIG_OR, FALSE, LITERAL, NEGATED, ON_I, ON_N, OR, PLAIN, TRUE,
};
use zorambi_reference::MAX_ROWS;

/// Rows so far. Every builder gives `None` if the row would be ill-formed, over the limits, or one
/// row too many.
#[derive(Clone, Debug)]
pub struct Pool {
    pub formulas: Formulas,
    known: HashMap<Row, i32>,
    rng: Rng,
    /// In how many of 100 cases an equal row is added once more.
    pub duplicates: usize,
}

impl Pool {
    pub fn new(rng: &mut Rng) -> Pool {
        let duplicates = rng.pick(&[0, 0, 0, 3, 10]);
        Pool { formulas: Formulas::default(), known: HashMap::new(), rng: Rng::new(rng.bits()), duplicates }
    }

    /// A pool of these rows; an equal row is found, not added.
    pub fn of_rows(rows: &[Row], rng: &mut Rng) -> Pool {
        let mut pool = Pool::new(rng);
        pool.duplicates = 0;
        for (number, row) in rows.iter().enumerate() {
            pool.formulas.push(*row);
            pool.known.insert(*row, number as i32);
        }
        pool
    }

    pub fn rows(&self) -> Vec<Row> {
        self.formulas.rows().to_vec()
    }

    pub fn len(&self) -> usize {
        self.formulas.len()
    }

    pub fn is_empty(&self) -> bool {
        self.formulas.is_empty()
    }

    /// The row with this number; all numbers in use here are numbers of rows.
    pub fn row(&self, number: i32) -> Row {
        self.formulas.row(number).unwrap_or_default()
    }

    pub fn add(&mut self, row: Row) -> Option<i32> {
        if let Some(number) = self.known.get(&row) {
            if !self.rng.chance(self.duplicates) {
                return Some(*number);
            }
        }
        let number = self.len() as i32;
        if self.len() >= MAX_ROWS {
            return None;
        }
        self.formulas.push(row);
        if !self.formulas.facts(number).is_some_and(|facts| facts.within_limits()) {
            self.formulas.pop();
            return None;
        }
        self.known.insert(row, number);
        Some(number)
    }

    pub fn constant(&mut self, value: bool) -> Option<i32> {
        self.add([if value { TRUE } else { FALSE }, 0, 0, 0])
    }

    pub fn literal(&mut self, positive: bool, symbol: i32, base: i32, offset: i32) -> Option<i32> {
        self.add([if positive { LITERAL } else { NEGATED }, symbol, base, offset])
    }

    pub fn and(&mut self, a: i32, b: i32) -> Option<i32> {
        self.add([AND, a, b, 0])
    }

    pub fn or(&mut self, a: i32, b: i32) -> Option<i32> {
        self.add([OR, a, b, 0])
    }

    pub fn big_and(&mut self, body: i32, b: i32, c: i32) -> Option<i32> {
        self.add([BIG_AND, body, b, c])
    }

    pub fn big_or(&mut self, body: i32, b: i32, c: i32) -> Option<i32> {
        self.add([BIG_OR, body, b, c])
    }

    pub fn iff(&mut self, a: i32, b: i32) -> Option<i32> {
        let (not_a, not_b) = (self.dual(a)?, self.dual(b)?);
        let (left, right) = (self.or(not_a, b)?, self.or(a, not_b)?);
        self.and(left, right)
    }

    pub fn differ(&mut self, a: i32, b: i32) -> Option<i32> {
        let (not_a, not_b) = (self.dual(a)?, self.dual(b)?);
        let (left, right) = (self.or(not_a, not_b)?, self.or(a, b)?);
        self.and(left, right)
    }

    pub fn implies(&mut self, a: i32, b: i32) -> Option<i32> {
        let not_a = self.dual(a)?;
        self.or(not_a, b)
    }

    /// Joins the rows, in random order and shape, by ands or by ors.
    pub fn join(&mut self, kind: i32, rows: &[i32]) -> Option<i32> {
        let mut rows = rows.to_vec();
        if rows.is_empty() {
            return self.constant(kind == AND);
        }
        self.rng.shuffle(&mut rows);
        while rows.len() > 1 {
            let at = self.rng.below(rows.len() - 1);
            let joined = self.add([kind, rows[at], rows[at + 1], 0])?;
            rows[at] = joined;
            rows.remove(at + 1);
        }
        Some(rows[0])
    }

    /// The formula rebuilt with each leaf row changed by `leaf` (literals and iterations are leaves);
    /// ands and ors are exchanged if `swap`.
    fn rebuild(
        &mut self,
        number: i32,
        swap: bool,
        done: &mut HashMap<i32, i32>,
        leaf: &mut dyn FnMut(&mut Pool, Row) -> Option<Row>,
    ) -> Option<i32> {
        if let Some(known) = done.get(&number) {
            return Some(*known);
        }
        let row = self.row(number);
        let built = match row[0] {
            AND | OR => {
                let a = self.rebuild(row[1], swap, done, leaf)?;
                let b = self.rebuild(row[2], swap, done, leaf)?;
                [if swap { AND + OR - row[0] } else { row[0] }, a, b, 0]
            }
            TRUE | FALSE if swap => [TRUE + FALSE - row[0], 0, 0, 0],
            TRUE | FALSE => row,
            _ => leaf(self, row)?,
        };
        let new = self.add(built)?;
        done.insert(number, new);
        Some(new)
    }

    /// The negation, pushed down to the literals.
    pub fn dual(&mut self, number: i32) -> Option<i32> {
        self.rebuild(number, true, &mut HashMap::new(), &mut |pool, [kind, a, b, c]| {
            Some(match kind {
                LITERAL | NEGATED => [LITERAL + NEGATED - kind, a, b, c],
                _ => [BIG_AND + BIG_OR - kind, pool.dual(a)?, b, c],
            })
        })
    }

    /// The instance of a body at n - c.
    pub fn instance(&mut self, body: i32, c: i32) -> Option<i32> {
        self.rebuild(body, false, &mut HashMap::new(), &mut |_, [kind, a, _, d]| Some([kind, a, ON_N, d - c]))
    }

    /// The instance of a body at the index `at` itself.
    pub fn instance_at(&mut self, body: i32, at: i32) -> Option<i32> {
        self.rebuild(body, false, &mut HashMap::new(), &mut |_, [kind, a, _, d]| Some([kind, a, PLAIN, d + at]))
    }

    /// The body with each i + d as i + (d + by).
    pub fn moved(&mut self, body: i32, by: i32) -> Option<i32> {
        self.rebuild(body, false, &mut HashMap::new(), &mut |_, [kind, a, b, d]| Some([kind, a, b, d + by]))
    }

    /// The formula lowered by k.
    pub fn lowered(&mut self, number: i32, k: i32) -> Option<i32> {
        self.rebuild(number, false, &mut HashMap::new(), &mut |_, [kind, a, b, c]| {
            Some(match kind {
                LITERAL | NEGATED if b == ON_N => [kind, a, b, c - k],
                BIG_AND | BIG_OR => [kind, a, b, c + k],
                _ => [kind, a, b, c],
            })
        })
    }

    /// The formula with sides of its ands and ors swapped at random, also inside bodies.
    pub fn swapped(&mut self, number: i32, rng: &mut Rng) -> Option<i32> {
        let [kind, a, b, c] = self.row(number);
        match kind {
            AND | OR => {
                let (a, b) = (self.swapped(a, rng)?, self.swapped(b, rng)?);
                self.add(if rng.chance(50) { [kind, b, a, 0] } else { [kind, a, b, 0] })
            }
            BIG_AND | BIG_OR => {
                let body = self.swapped(a, rng)?;
                self.add([kind, body, b, c])
            }
            _ => self.add([kind, a, b, c]),
        }
    }

    /// The formula with one literal or constant changed.
    pub fn leaf_changed(&mut self, number: i32, rng: &mut Rng) -> Option<i32> {
        let [kind, a, b, c] = self.row(number);
        match kind {
            AND | OR if rng.chance(50) => {
                let a = self.leaf_changed(a, rng)?;
                self.add([kind, a, b, 0])
            }
            AND | OR => {
                let b = self.leaf_changed(b, rng)?;
                self.add([kind, a, b, 0])
            }
            BIG_AND | BIG_OR => {
                let body = self.leaf_changed(a, rng)?;
                self.add([kind, body, b, c])
            }
            LITERAL | NEGATED => match rng.below(4) {
                0 => self.add([LITERAL + NEGATED - kind, a, b, c]),
                1 => self.add([kind, if a == 0 { 1 } else { a - 1 }, b, c]),
                _ => self.add([kind, a, b, c + rng.pick(&[-1, 1])]),
            },
            _ => self.constant(kind == FALSE),
        }
    }

    /// The formula with (p and q) and r as p and (q and r) in one place, or the other way round, or so
    /// with ors. `None` if there is no such place on the way down.
    pub fn regrouped(&mut self, number: i32, rng: &mut Rng) -> Option<i32> {
        let [kind, a, b, c] = self.row(number);
        if kind >= BIG_AND {
            let body = self.regrouped(a, rng)?;
            return self.add([kind, body, b, c]);
        }
        if kind < AND {
            return None;
        }
        let mut ways = [0, 1, 2, 3];
        rng.shuffle(&mut ways);
        ways.into_iter().find_map(|way| match (way, self.row(a), self.row(b)) {
            (0, [kind_a, p, q, _], _) if kind_a == kind => {
                let right = self.add([kind, q, b, 0])?;
                self.add([kind, p, right, 0])
            }
            (1, _, [kind_b, q, r, _]) if kind_b == kind => {
                let left = self.add([kind, a, q, 0])?;
                self.add([kind, left, r, 0])
            }
            (2, ..) => {
                let a = self.regrouped(a, rng)?;
                self.add([kind, a, b, 0])
            }
            (3, ..) => {
                let b = self.regrouped(b, rng)?;
                self.add([kind, a, b, 0])
            }
            _ => None,
        })
    }

    /// A random body of at most `depth` levels over `symbols` symbols from `first` on.
    pub fn random_body(&mut self, rng: &mut Rng, depth: usize, first: i32, symbols: i32) -> Option<i32> {
        if depth <= 1 || rng.chance(30) {
            if rng.chance(4) {
                return self.constant(rng.chance(50));
            }
            let offset = rng.pick(&[0, 0, 0, 0, -1, -1, 1, 2]);
            return self.literal(rng.chance(50), first + rng.range(0, symbols - 1), ON_I, offset);
        }
        let a = self.random_body(rng, depth - 1, first, symbols)?;
        let b = self.random_body(rng, depth - 1, first, symbols)?;
        if rng.chance(50) {
            self.and(a, b)
        } else {
            self.or(a, b)
        }
    }

    /// A random outer formula of at most `depth` levels of ands and ors.
    pub fn random_outer(&mut self, rng: &mut Rng, depth: usize, first: i32, symbols: i32) -> Option<i32> {
        if depth <= 1 || rng.chance(25) {
            let symbol = first + rng.range(0, symbols - 1);
            return match rng.below(10) {
                0 => self.constant(rng.chance(50)),
                1 | 2 => self.literal(rng.chance(50), symbol, PLAIN, rng.range(-1, 3)),
                3..=5 => self.literal(rng.chance(50), symbol, ON_N, rng.range(-2, 2)),
                _ => {
                    let depth = 1 + rng.below(3);
                    let body = self.random_body(rng, depth, first, symbols)?;
                    let (b, c) = (rng.range(-1, 2), rng.range(-1, 2));
                    if rng.chance(50) {
                        self.big_and(body, b, c)
                    } else {
                        self.big_or(body, b, c)
                    }
                }
            };
        }
        let a = self.random_outer(rng, depth - 1, first, symbols)?;
        let b = self.random_outer(rng, depth - 1, first, symbols)?;
        if rng.chance(50) {
            self.and(a, b)
        } else {
            self.or(a, b)
        }
    }
}
