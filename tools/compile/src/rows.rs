//! Formula rows: each written once, parts before what they are part of. Size and depth are looked at as a row is
//! made, of the row itself and of what it comes to as plain rows; the number of rows at the end, over those that the
//! formula needs.

use crate::source::Fault;
use crate::words;
use std::collections::HashMap;
use zorambi::{Row, Schema};

pub const TRUE: i32 = 0;
pub const FALSE: i32 = 1;
pub const LITERAL: i32 = 2;
pub const NEGATED: i32 = 3;
pub const AND: i32 = 4;
pub const OR: i32 = 5;
pub const BIG_AND: i32 = 6;
pub const BIG_OR: i32 = 7;
pub const NOT: i32 = 8;
pub const IMPLIES: i32 = 9;
pub const EQUIVALENT: i32 = 10;
pub const EXCLUSIVE: i32 = 11;

pub const MAX_ROWS: usize = 1024;
pub const MAX_SIZE: u64 = 4096;
pub const MAX_DEPTH: u64 = 64;

/// Size and depth of a formula.
#[derive(Clone, Copy)]
struct Measure {
    size: u64,
    depth: u64,
}

const ONE: Measure = Measure { size: 1, depth: 1 };

impl Measure {
    /// Of a row over these parts.
    fn over(parts: &[Measure]) -> Measure {
        let size = parts.iter().fold(1, |sum: u64, part| sum.saturating_add(part.size));
        Measure { size, depth: 1 + parts.iter().map(|part| part.depth).max().unwrap_or(0) }
    }
}

/// What is known of a row: its measure, and those of the plain row that it comes to and of that row's negation.
#[derive(Clone, Copy)]
struct Facts {
    wide: Measure,
    plain: [Measure; 2],
}

#[derive(Default)]
pub struct Rows {
    rows: Vec<Row>,
    facts: Vec<Facts>,
    /// Where in the source each row was first written.
    places: Vec<usize>,
    numbers: HashMap<Row, i32>,
}

impl Rows {
    /// The number of a row, which stands at that byte of the source.
    pub fn add(&mut self, row: Row, at: usize) -> Result<i32, Fault> {
        if let Some(number) = self.numbers.get(&row) {
            return Ok(*number);
        }
        let facts = self.facts_of(row);
        let told = |words| Fault::new(at, words);
        let [itself, negated] = facts.plain;
        let [size, depth] = [itself.size.max(negated.size), itself.depth.max(negated.depth)];
        match facts.wide {
            wide if wide.size > MAX_SIZE => return Err(told(words::size(wide.size))),
            wide if wide.depth > MAX_DEPTH => return Err(told(words::depth(wide.depth))),
            _ if size > MAX_SIZE => return Err(told(words::plain_size(size))),
            _ if depth > MAX_DEPTH => return Err(told(words::plain_depth(depth))),
            _ => {}
        }
        let number = self.rows.len() as i32;
        self.rows.push(row);
        self.facts.push(facts);
        self.places.push(at);
        self.numbers.insert(row, number);
        Ok(number)
    }

    fn facts_of(&self, [kind, a, b, _]: Row) -> Facts {
        let part = |row: i32| self.facts[row as usize];
        let both = |left: Measure, right: Measure| Measure::over(&[left, right]);
        match kind {
            TRUE | FALSE | LITERAL | NEGATED => Facts { wide: ONE, plain: [ONE, ONE] },
            BIG_AND | BIG_OR => {
                let Facts { wide, plain } = part(a);
                Facts { wide: Measure::over(&[wide]), plain: plain.map(|body| Measure::over(&[body])) }
            }
            NOT => {
                let Facts { wide, plain: [itself, negated] } = part(a);
                Facts { wide: Measure::over(&[wide]), plain: [negated, itself] }
            }
            _ => {
                let (left, right) = (part(a), part(b));
                let [[l, not_l], [r, not_r]] = [left.plain, right.plain];
                let plain = match kind {
                    IMPLIES => [both(not_l, r), both(l, not_r)],
                    EQUIVALENT | EXCLUSIVE => {
                        let same = both(both(l, r), both(not_l, not_r));
                        let differ = both(both(l, not_r), both(not_l, r));
                        if kind == EQUIVALENT {
                            [same, differ]
                        } else {
                            [differ, same]
                        }
                    }
                    _ => [both(l, r), both(not_l, not_r)],
                };
                Facts { wide: both(left.wide, right.wide), plain }
            }
        }
    }

    /// The schema with that row as its root, with the rows that it needs, in the order in which they were made; and
    /// where each of them stands in the source.
    pub fn schema(&self, root: i32, least: i32) -> Result<(Schema, Vec<usize>), Fault> {
        let mut is_needed = vec![false; self.rows.len()];
        is_needed[root as usize] = true;
        for row in (0..self.rows.len()).rev().filter(|row| *row <= root as usize) {
            if is_needed[row] {
                parts(self.rows[row]).for_each(|part| is_needed[part as usize] = true);
            }
        }
        let mut numbers = vec![0; self.rows.len()];
        let (mut rows, mut places) = (Vec::new(), Vec::new());
        for row in (0..self.rows.len()).filter(|row| is_needed[*row]) {
            numbers[row] = rows.len() as i32;
            rows.push(moved(self.rows[row], &numbers));
            places.push(self.places[row]);
        }
        counted(&rows, &places)?;
        Ok((Schema { root: numbers[root as usize], least, rows }, places))
    }
}

/// The rows that a row points to.
fn parts([kind, a, b, _]: Row) -> impl Iterator<Item = i32> {
    let count = match kind {
        TRUE | FALSE | LITERAL | NEGATED => 0,
        BIG_AND | BIG_OR | NOT => 1,
        _ => 2,
    };
    [a, b].into_iter().take(count)
}

/// A row with the new numbers of its parts.
fn moved([kind, a, b, c]: Row, numbers: &[i32]) -> Row {
    let at = |part: i32| numbers[part as usize];
    match parts([kind, a, b, c]).count() {
        0 => [kind, a, b, c],
        1 => [kind, at(a), b, c],
        _ => [kind, at(a), at(b), c],
    }
}

/// How many plain rows a row writes.
fn plain_rows(kind: i32) -> usize {
    match kind {
        NOT => 0,
        EQUIVALENT | EXCLUSIVE => 6,
        _ => 2,
    }
}

/// The rows, and the plain rows that they come to, are not too many; told where they become so.
fn counted(rows: &[Row], places: &[usize]) -> Result<(), Fault> {
    if rows.len() > MAX_ROWS {
        return Err(Fault::new(places[MAX_ROWS], words::rows(rows.len())));
    }
    let all: usize = rows.iter().map(|row| plain_rows(row[0])).sum();
    let mut plain = 0;
    for (row, place) in rows.iter().zip(places) {
        plain += plain_rows(row[0]);
        if plain > MAX_ROWS {
            return Err(Fault::new(*place, words::plain_rows(all)));
        }
    }
    Ok(())
}
