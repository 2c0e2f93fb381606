//! Models: found for a schema, at random, and damaged.

use super::rng::{mix, Rng};
use super::tables::{extreme, other_count, other_number};
use std::collections::BTreeMap;
use zorambi_reference::formula::{index, Formulas, AND, BIG_AND, BIG_OR, LITERAL, NEGATED, OR, TRUE};

/// What the model check is lent.
#[derive(Clone, Debug, PartialEq, Eq)]
pub struct ModelTables {
    pub root: i32,
    pub least: i32,
    pub schema: Vec<i32>,
    pub schema_count: usize,
    pub n: i32,
    pub pairs: Vec<i32>,
    pub pair_count: usize,
}

/// An assignment that is as good as random, defined at every index.
pub fn random_assignment(seed: u64, percent: u64) -> impl Fn(i32, i64) -> bool {
    move |symbol, index| mix(seed ^ mix((symbol as u64) << 40 ^ index as u64)) % 100 < percent
}

/// Looks for true and false pairs that make the row true at n, in some tries of so many steps. The
/// rows are well-formed and within the limits.
pub fn find_model(
    formulas: &Formulas,
    root: i32,
    n: i32,
    rng: &mut Rng,
    tries: usize,
    steps: usize,
) -> Option<BTreeMap<(i32, i64), bool>> {
    for _ in 0..tries {
        let mut search =
            Search { formulas, n: i64::from(n), fixed: BTreeMap::new(), trail: Vec::new(), rng: &mut *rng, steps };
        if search.make_true(root, 0) {
            return Some(search.fixed);
        }
    }
    None
}

struct Search<'a> {
    formulas: &'a Formulas,
    n: i64,
    fixed: BTreeMap<(i32, i64), bool>,
    trail: Vec<(i32, i64)>,
    rng: &'a mut Rng,
    steps: usize,
}

impl Search<'_> {
    fn make_true(&mut self, row: i32, i: i64) -> bool {
        if self.steps == 0 {
            return false;
        }
        self.steps -= 1;
        let [kind, a, b, c] = self.formulas.row(row).unwrap_or_default();
        match kind {
            TRUE => true,
            LITERAL | NEGATED => {
                let pair = (a, index(b, c, self.n, i));
                let value = kind == LITERAL;
                match self.fixed.get(&pair) {
                    Some(fixed) => *fixed == value,
                    None => {
                        self.fixed.insert(pair, value);
                        self.trail.push(pair);
                        true
                    }
                }
            }
            AND => {
                let (first, second) = if self.rng.chance(50) { (a, b) } else { (b, a) };
                self.make_true(first, i) && self.make_true(second, i)
            }
            OR => {
                let (first, second) = if self.rng.chance(50) { (a, b) } else { (b, a) };
                let mark = self.trail.len();
                if self.make_true(first, i) {
                    return true;
                }
                self.undo(mark);
                self.make_true(second, i)
            }
            BIG_AND => (i64::from(b)..=self.n - i64::from(c)).all(|i| self.make_true(a, i)),
            BIG_OR => {
                let width = self.n - i64::from(c) - i64::from(b) + 1;
                for _ in 0..width.clamp(0, 4) {
                    let at = i64::from(b) + (self.rng.bits() % width as u64) as i64;
                    let mark = self.trail.len();
                    if self.make_true(a, at) {
                        return true;
                    }
                    self.undo(mark);
                }
                false
            }
            _ => false,
        }
    }

    fn undo(&mut self, mark: usize) {
        for pair in self.trail.drain(mark..) {
            self.fixed.remove(&pair);
        }
    }
}

/// The true pairs of an assignment as rows.
pub fn pair_rows(fixed: &BTreeMap<(i32, i64), bool>) -> Vec<i32> {
    fixed.iter().filter(|(_, value)| **value).flat_map(|((symbol, index), _)| [*symbol, *index as i32]).collect()
}

/// Random pairs, ascending.
pub fn random_pairs(rng: &mut Rng) -> Vec<i32> {
    let mut pairs = BTreeMap::new();
    for _ in 0..rng.below(12) {
        let index = if rng.chance(90) { rng.range(-3, 8) } else { rng.range(-29_997, 29_997) };
        pairs.insert((rng.range(0, 3), i64::from(index)), true);
    }
    if rng.chance(5) {
        pairs.insert((rng.pick(&[0, 255]), rng.pick(&[-29_997, 29_997])), true);
    }
    pair_rows(&pairs)
}

/// Damages a model in one place.
pub fn damage_model(model: &mut ModelTables, rng: &mut Rng) {
    let length = model.pairs.len();
    match rng.below(16) {
        13 | 14 => {
            // A pair at or past a limit, in its place.
            let pair = match rng.below(3) {
                0 => (rng.pick(&[0, 255]), rng.pick(&[-29_997, 29_997])),
                1 => (rng.pick(&[0, 255]), rng.pick(&[-29_998, 29_998])),
                _ => (rng.pick(&[-1, 255, 256]), 0),
            };
            let mut at = 0;
            while at + 1 < model.pairs.len() && (model.pairs[at], model.pairs[at + 1]) < pair {
                at += 2;
            }
            model.pairs.splice(at..at, [pair.0, pair.1]);
            model.pair_count = model.pairs.len() / 2;
        }
        0 | 1 => {
            let at = rng.below(length);
            if let Some(value) = model.pairs.get_mut(at) {
                *value = other_number(rng, *value);
            }
        }
        2 if length >= 4 => {
            // Two neighbours changed over.
            let at = rng.below(length / 2 - 1) * 2;
            model.pairs.swap(at, at + 2);
            model.pairs.swap(at + 1, at + 3);
        }
        3 if length >= 2 => {
            // A pair twice.
            let at = rng.below(length / 2) * 2;
            let pair = [model.pairs[at], model.pairs[at + 1]];
            model.pairs.splice(at..at, pair);
            model.pair_count = model.pairs.len() / 2;
        }
        4 => {
            let pair = [rng.pick(&[0, 255, 256, -1]), rng.pick(&[-29_997, 29_997, -29_998, 29_998])];
            model.pairs.extend(pair);
            model.pair_count = model.pairs.len() / 2;
        }
        5 => model.n = other_number(rng, model.n),
        6 => model.n = rng.pick(&[model.least.wrapping_sub(1), model.least, 9998, 9999, 10_000]),
        7 => model.root = other_number(rng, model.root),
        8 => model.least = other_number(rng, model.least),
        9 => {
            let at = rng.below(model.schema.len());
            if let Some(value) = model.schema.get_mut(at) {
                *value = other_number(rng, *value);
            }
        }
        10 => model.pair_count = other_count(rng, model.pair_count),
        11 => model.schema_count = other_count(rng, model.schema_count),
        12 => model.pairs.truncate(length.saturating_sub(rng.below(3))),
        _ => {
            model.pairs.extend((0..rng.below(6)).map(|_| extreme(rng)));
            model.schema.extend((0..rng.below(6)).map(|_| extreme(rng)));
        }
    }
}
