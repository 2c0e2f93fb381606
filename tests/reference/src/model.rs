//! The model check, and the value of a formula.

use crate::formula::{index, judge_rows, Formulas, Row, Twice, AND, BIG_AND, BIG_OR, LITERAL, NEGATED, OR, TRUE};
use crate::{
    holds, refuse, Refusal, Verdict, MAX_INDEX, MAX_N, MAX_PAIRS, MAX_ROWS, MAX_SYMBOL, PAIR_WIDTH, ROW_WIDTH,
};

/// The model check: the schema (`root`, `least`, its rows), then the model (`n`, its true pairs).
pub fn check_model(
    root: i32,
    least: i32,
    schema: &[i32],
    schema_count: usize,
    n: i32,
    pairs: &[i32],
    pair_count: usize,
) -> Verdict {
    if !holds(schema.len(), schema_count, ROW_WIDTH) || !holds(pairs.len(), pair_count, PAIR_WIDTH) {
        return Verdict::refused(Refusal { answer: 2, place: -1 });
    }
    if schema_count > MAX_ROWS || pair_count > MAX_PAIRS {
        return Verdict::refused(Refusal { answer: 5, place: -1 });
    }
    let answer = judge_rows(Twice::Allowed, root, least, schema, schema_count, &[], 0).and_then(|formulas| {
        let pairs = judge_pairs(&pairs[..pair_count * PAIR_WIDTH])?;
        if n < least || n > MAX_N {
            return refuse(19, -1);
        }
        // Pairs as single numbers that sort alike; every index that comes up is in a pair's range.
        let keys: Vec<i64> = pairs.iter().map(|(symbol, index)| key(*symbol, i64::from(*index))).collect();
        let is_true = |symbol, index| keys.binary_search(&key(symbol, index)).is_ok();
        if !value(&formulas, root, i64::from(n), &is_true) {
            return refuse(20, -1);
        }
        Ok(())
    });
    match answer {
        Ok(()) => Verdict::accepted(0, 0),
        Err(refusal) => Verdict::refused(refusal),
    }
}

/// One number for a pair. With n at most 9999, and all offsets and limits in range, an index is at
/// most 29,997 away from 0, so that different pairs have different numbers.
fn key(symbol: i32, index: i64) -> i64 {
    i64::from(symbol) * 100_000 + index
}

/// Refusal 18: pairs in range and strictly ascending, by symbol, then by index.
fn judge_pairs(table: &[i32]) -> Result<Vec<(i32, i32)>, Refusal> {
    let mut pairs: Vec<(i32, i32)> = Vec::with_capacity(table.len() / PAIR_WIDTH);
    for (place, row) in table.chunks_exact(PAIR_WIDTH).enumerate() {
        let pair = (row[0], row[1]);
        let in_range = (0..=MAX_SYMBOL).contains(&pair.0) && (-MAX_INDEX..=MAX_INDEX).contains(&pair.1);
        let in_order = pairs.last().is_none_or(|before| *before < pair);
        if !in_range || !in_order {
            return refuse(18, place as i32);
        }
        pairs.push(pair);
    }
    Ok(pairs)
}

/// The value of outer row `row` at n under an assignment of true or false to (symbol, index).
/// False if the row is not well-formed, is over the limits of size and depth, or is not outer.
pub fn value<F: Fn(i32, i64) -> bool>(formulas: &Formulas, row: i32, n: i64, assignment: &F) -> bool {
    let outer = formulas.facts(row).is_some_and(|facts| facts.within_limits() && !facts.on_i);
    outer && Evaluation { rows: formulas.rows(), n, assignment }.formula(row, 0)
}

/// Called with well-formed rows only: every part of such a row is a row.
struct Evaluation<'a, F> {
    rows: &'a [Row],
    n: i64,
    assignment: &'a F,
}

impl<F: Fn(i32, i64) -> bool> Evaluation<'_, F> {
    /// The value of a formula; `i` is the bound index inside an iteration.
    fn formula(&self, row: i32, i: i64) -> bool {
        let [kind, a, b, c] = self.rows[row as usize];
        match kind {
            TRUE => true,
            LITERAL | NEGATED => (self.assignment)(a, index(b, c, self.n, i)) == (kind == LITERAL),
            AND => self.formula(a, i) && self.formula(b, i),
            OR => self.formula(a, i) || self.formula(b, i),
            BIG_AND => self.range(b, c).all(|i| self.formula(a, i)),
            BIG_OR => self.range(b, c).any(|i| self.formula(a, i)),
            _ => false,
        }
    }

    /// i from b up to n - c.
    fn range(&self, b: i32, c: i32) -> std::ops::RangeInclusive<i64> {
        i64::from(b)..=self.n.saturating_sub(i64::from(c))
    }
}
