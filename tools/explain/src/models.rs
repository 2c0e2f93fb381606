//! Models that are refused: 18 a pair out of order or range, 19 n out of range, 20 the schema is false there; and 30, more than 16
//! pairs that occur.

use crate::formulas::MAX_LEAST;
use crate::rows::{Rows, MAX_SYMBOL};
use crate::why::Why;
use std::collections::HashMap;
use zorambi::words::grouped;
use zorambi::{occurring, Schema};

/// The largest index of a pair, and the smallest with a minus.
const MAX_INDEX: i32 = 29_997;
/// The pairs that a search may go through.
const MOST_OCCUR: u64 = 16;

pub fn pair(pairs: &[i32], place: Option<usize>) -> Option<Why> {
    let pairs: &[[i32; 2]] = pairs.as_chunks().0;
    let at = place?;
    let [symbol, index] = *pairs.get(at)?;
    let told = |what: String, mend: &str| Some(Why::new(format!("pair {at} ({symbol} {index}): {what}"), mend));
    if !(0..=MAX_SYMBOL).contains(&symbol) {
        return told(format!("symbol is {symbol}; a symbol is 0 to {MAX_SYMBOL}"), "name a symbol of the schema");
    }
    if !(-MAX_INDEX..=MAX_INDEX).contains(&index) {
        let mend = "leave it out: no literal of a schema names an index beyond that";
        return told(format!("index is {index}; an index is -{MAX_INDEX} to {MAX_INDEX}"), mend);
    }
    let before = at.checked_sub(1)?;
    let [a, b] = pairs[before];
    if [a, b] == [symbol, index] {
        return told(format!("it is pair {before} again"), "list each pair once");
    }
    ([a, b] > [symbol, index]).then(|| {
        let line = format!(
            "pair {at} ({symbol} {index}) comes after pair {before} ({a} {b}); pairs ascend by symbol, then by index"
        );
        Why::new(line, "sort the pairs")
    })
}

pub fn width(least: i32, n: i32) -> Option<Why> {
    let mend = format!("name an n from {least} to {MAX_LEAST}");
    if n < least {
        return Some(Why::new(format!("n is {n}, below the schema's least value, {least}"), mend));
    }
    (n > MAX_LEAST).then(|| {
        Why::new(format!("n is {n}, over {MAX_LEAST}: {} too large", i64::from(n) - i64::from(MAX_LEAST)), mend)
    })
}

/// The library has found the schema well formed.
pub fn wires(schema: &Schema, n: i32) -> Option<Why> {
    let count = occurring(schema, n);
    (count > MOST_OCCUR).then(|| {
        let line = format!("{} pairs occur at n = {n}, {MOST_OCCUR} allowed", grouped(count));
        Why::new(
            line,
            "try a smaller n, or a part of the schema: a pair is a symbol with an index that some literal names",
        )
    })
}

/// What rows are at n under a model: outer ones true or false, the others for each i of a range.
struct Values<'a> {
    rows: &'a Rows,
    n: i64,
    /// The indices at which each symbol is true.
    pairs: HashMap<i32, Vec<i64>>,
    /// The range of i that all iterations lie in.
    first: i64,
    last: i64,
    outer: Vec<Option<bool>>,
    bodies: Vec<Option<Bits>>,
}

/// A bit for each i of the range.
type Bits = Vec<u64>;

impl<'a> Values<'a> {
    fn new(rows: &'a Rows, n: i32, pairs: &[i32]) -> Values<'a> {
        let n = i64::from(n);
        let ranges = rows
            .all()
            .iter()
            .filter(|row| matches!(row[0], 6 | 7))
            .map(|row| (i64::from(row[2]), n - i64::from(row[3])));
        let (first, last) = ranges
            .filter(|(first, last)| first <= last)
            .fold((0, 0), |(low, high), (first, last)| (low.min(first), high.max(last)));
        let mut indices: HashMap<i32, Vec<i64>> = HashMap::new();
        for &[symbol, index] in pairs.as_chunks().0 {
            indices.entry(symbol).or_default().push(index.into());
        }
        Values { rows, n, pairs: indices, first, last, outer: vec![None; rows.len()], bodies: vec![None; rows.len()] }
    }

    fn is_true(&self, symbol: i32, index: i64) -> bool {
        self.indices(symbol).contains(&index)
    }

    fn indices(&self, symbol: i32) -> &[i64] {
        self.pairs.get(&symbol).map_or(&[], |indices| indices)
    }

    fn index(&self, b: i32, c: i32) -> i64 {
        i64::from(c) + if b == 1 { self.n } else { 0 }
    }

    /// The value of an outer row.
    fn value(&mut self, row: i32) -> Option<bool> {
        let number = usize::try_from(row).ok()?;
        if let Some(known) = *self.outer.get(number)? {
            return Some(known);
        }
        let [kind, a, b, c] = self.rows.get(row)?;
        let before = |part: i32| (part < row).then_some(part);
        let value = match kind {
            0 => true,
            1 => false,
            2 => self.is_true(a, self.index(b, c)),
            3 => !self.is_true(a, self.index(b, c)),
            4 => self.value(before(a)?)? & self.value(before(b)?)?,
            5 => self.value(before(a)?)? | self.value(before(b)?)?,
            6 => self.first_i(row, false)?.is_none(),
            7 => self.first_i(row, true)?.is_some(),
            _ => return None,
        };
        self.outer[number] = Some(value);
        Some(value)
    }

    /// The first i of an iteration's range at which its body has this value.
    fn first_i(&mut self, row: i32, value: bool) -> Option<Option<i64>> {
        let [_, body, b, c] = self.rows.get(row)?;
        self.work_out((body < row).then_some(body)?)?;
        let bits = self.bodies.get(usize::try_from(body).ok()?)?.as_ref()?;
        let at = |i: i64| {
            let at = (i - self.first) as usize;
            bits[at / 64] >> (at % 64) & 1 == 1
        };
        Some((i64::from(b)..=self.n - i64::from(c)).find(|i| at(*i) == value))
    }

    /// Works out what a body is for each i of the range.
    fn work_out(&mut self, row: i32) -> Option<()> {
        let number = usize::try_from(row).ok()?;
        if self.bodies.get(number)?.is_some() {
            return Some(());
        }
        let words = ((self.last - self.first) / 64 + 1) as usize;
        let [kind, a, b, c] = self.rows.get(row)?;
        let bits = match kind {
            0 => vec![u64::MAX; words],
            1 => vec![0; words],
            2 | 3 => {
                let mut bits: Bits = vec![if kind == 2 { 0 } else { u64::MAX }; words];
                let places = self.indices(a).iter().map(|index| index - i64::from(c));
                for i in places.filter(|i| (self.first..=self.last).contains(i)) {
                    let at = (i - self.first) as usize;
                    bits[at / 64] ^= 1 << (at % 64);
                }
                bits
            }
            4 | 5 => {
                let both = [a, b].map(|part| (0..row).contains(&part).then_some(part));
                let [x, y] = [both[0]?, both[1]?];
                self.work_out(x)?;
                self.work_out(y)?;
                let (x, y) = (self.bodies[x as usize].as_ref()?, self.bodies[y as usize].as_ref()?);
                x.iter().zip(y).map(|(x, y)| if kind == 4 { x & y } else { x | y }).collect()
            }
            _ => return None,
        };
        self.bodies[number] = Some(bits);
        Some(())
    }
}

/// Which part of the schema is false, and why.
pub fn is_false(rows: &Rows, root: i32, n: i32, pairs: &[i32]) -> Option<Why> {
    let mut values = Values::new(rows, n, pairs);
    if values.value(root)? {
        return None;
    }
    // Down through ands to the first part that is false by itself.
    let mut row = root;
    while let Some([4, a, b, _]) = rows.get(row) {
        row = if values.value(a)? { b } else { a };
    }
    let part = if row == root {
        format!("the root, {}", rows.text(row))
    } else {
        format!("{}, a part of the root", rows.text(row))
    };
    let (because, mend) = why_false(&mut values, row)?;
    let line = format!("at n = {n} {part}, is false: {because}");
    Some(
        Why::new(line, mend)
            .with(format!("the model lists {} as true; every other pair is false", counted_pairs(pairs.len() / 2))),
    )
}

fn counted_pairs(count: usize) -> String {
    zorambi::words::counted(count, "pair")
}

/// Why a row that is no and is false, and what would make it true.
fn why_false(values: &mut Values, row: i32) -> Option<(String, String)> {
    let rows = values.rows;
    let [kind, a, b, c] = rows.get(row)?;
    let index = values.index(b, c);
    let name = rows.voice.names.symbol(a);
    let [first, last] = [i64::from(b), values.n - i64::from(c)];
    Some(match kind {
        2 => (format!("the pair {a} {index} is not in the model"), format!("list {a} {index} ({name} at {index})")),
        3 => (format!("the pair {a} {index} is in the model"), format!("leave {a} {index} ({name} at {index}) out")),
        5 => (
            format!("both its parts are, {} and {}", rows.text(a), rows.text(b)),
            "make one of its parts true".to_string(),
        ),
        6 => {
            let i = values.first_i(row, false)??;
            (
                format!("its body, row {a}, is false at i = {i}, within {first} to {last}"),
                format!("make the body true at every i from {first} to {last}"),
            )
        }
        7 if first > last => (
            format!("its range, {first} to {last}, is empty"),
            format!("take an n from {} on, where its range has an i", i64::from(b) + i64::from(c)),
        ),
        7 => (
            format!("its body, row {a}, is false at every i from {first} to {last}"),
            "make its body true at one of these".to_string(),
        ),
        _ => ("it is false at every n".to_string(), "no model makes it true".to_string()),
    })
}
