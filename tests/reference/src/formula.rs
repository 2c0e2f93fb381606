//! Formula rows: which rows are well-formed, size, depth, outer rows, and the two comparisons. These
//! hold formulas alike that agree after swapping sides of ands and ors; they are made by writing the
//! formulas with their sides in order.

use crate::{holds, refuse, Refusal, MAX_DEPTH, MAX_N, MAX_OFFSET, MAX_SIZE, MAX_SYMBOL, ROW_WIDTH};
use std::cell::RefCell;
use std::collections::{HashMap, HashSet};
use std::hash::{BuildHasherDefault, Hasher};

/// kind a b c
pub type Row = [i32; 4];

pub const TRUE: i32 = 0;
pub const FALSE: i32 = 1;
pub const LITERAL: i32 = 2;
pub const NEGATED: i32 = 3;
pub const AND: i32 = 4;
pub const OR: i32 = 5;
pub const BIG_AND: i32 = 6;
pub const BIG_OR: i32 = 7;

/// What column b of a literal says: c is added to nothing, to n, or to i.
pub const PLAIN: i32 = 0;
pub const ON_N: i32 = 1;
pub const ON_I: i32 = 2;

/// What is known of a well-formed row, computed once from its parts.
#[derive(Clone, Copy, Debug, PartialEq, Eq)]
pub struct Facts {
    /// Each occurrence counted; stays at `u64::MAX` if it would pass it.
    pub size: u64,
    pub depth: u64,
    /// A literal on i stands in the row outside an iteration: the row is not outer.
    pub on_i: bool,
    /// A literal not on i, or an iteration, stands in the row: it is no body.
    pub not_on_i: bool,
    /// A literal on n, or an iteration, stands in the row. Without, lowering changes nothing.
    pub on_n: bool,
}

impl Facts {
    pub fn within_limits(&self) -> bool {
        self.size <= MAX_SIZE && self.depth <= MAX_DEPTH
    }
}

/// The formula rows of a schema and of a proof in one count, with what is known of each row;
/// `None` for a row that is ill-formed or has an ill-formed part.
#[derive(Clone, Debug, Default)]
pub struct Formulas {
    rows: Vec<Row>,
    facts: Vec<Option<Facts>>,
    forms: RefCell<Forms>,
}

impl Formulas {
    /// `None` if a table is shorter than its count says.
    pub fn new(schema: &[i32], schema_count: usize, proof: &[i32], proof_count: usize) -> Option<Formulas> {
        if !holds(schema.len(), schema_count, ROW_WIDTH) || !holds(proof.len(), proof_count, ROW_WIDTH) {
            return None;
        }
        let mut formulas = Formulas::default();
        let schema_rows = schema.chunks_exact(ROW_WIDTH).take(schema_count);
        let proof_rows = proof.chunks_exact(ROW_WIDTH).take(proof_count);
        for row in schema_rows.chain(proof_rows) {
            formulas.push([row[0], row[1], row[2], row[3]]);
        }
        Some(formulas)
    }

    /// Adds the next row; its number is the count before.
    pub fn push(&mut self, row: Row) {
        let facts = self.judge(row);
        self.rows.push(row);
        self.facts.push(facts);
    }

    /// Takes the last row away.
    pub fn pop(&mut self) {
        self.rows.pop();
        self.facts.pop();
        for known in self.forms.get_mut().of_rows.values_mut() {
            known.truncate(self.rows.len());
        }
    }

    /// What would be known of `row` as the next row.
    fn judge(&self, [kind, a, b, c]: Row) -> Option<Facts> {
        let offset = -MAX_OFFSET..=MAX_OFFSET;
        match kind {
            TRUE | FALSE if a == 0 && b == 0 && c == 0 => {
                Some(Facts { size: 1, depth: 1, on_i: false, not_on_i: false, on_n: false })
            }
            LITERAL | NEGATED
                if (0..=MAX_SYMBOL).contains(&a) && (PLAIN..=ON_I).contains(&b) && offset.contains(&c) =>
            {
                Some(Facts { size: 1, depth: 1, on_i: b == ON_I, not_on_i: b != ON_I, on_n: b == ON_N })
            }
            AND | OR if c == 0 => {
                let (left, right) = (self.facts(a)?, self.facts(b)?);
                let on_i = left.on_i || right.on_i;
                let not_on_i = left.not_on_i || right.not_on_i;
                if on_i && not_on_i {
                    return None;
                }
                Some(Facts {
                    size: left.size.saturating_add(right.size).saturating_add(1),
                    depth: left.depth.max(right.depth).saturating_add(1),
                    on_i,
                    not_on_i,
                    on_n: left.on_n || right.on_n,
                })
            }
            BIG_AND | BIG_OR if offset.contains(&b) && offset.contains(&c) => {
                let body = self.facts(a)?;
                if body.not_on_i {
                    return None;
                }
                Some(Facts {
                    size: body.size.saturating_add(1),
                    depth: body.depth.saturating_add(1),
                    on_i: false,
                    not_on_i: true,
                    on_n: true,
                })
            }
            _ => None,
        }
    }

    pub fn len(&self) -> usize {
        self.rows.len()
    }

    pub fn is_empty(&self) -> bool {
        self.rows.is_empty()
    }

    pub fn rows(&self) -> &[Row] {
        &self.rows
    }

    /// The row with this number.
    pub fn row(&self, number: i32) -> Option<Row> {
        self.rows.get(usize::try_from(number).ok()?).copied()
    }

    /// What is known of the row with this number; `None` also if there is no such row.
    pub fn facts(&self, number: i32) -> Option<Facts> {
        self.facts.get(usize::try_from(number).ok()?).copied().flatten()
    }

    /// There is such a row, it is well-formed, and so is all that it points to.
    pub fn well_formed(&self, number: i32) -> bool {
        self.facts(number).is_some()
    }

    pub fn size(&self, number: i32) -> Option<u64> {
        self.facts(number).map(|facts| facts.size)
    }

    pub fn depth(&self, number: i32) -> Option<u64> {
        self.facts(number).map(|facts| facts.depth)
    }

    /// The row is well-formed, and no literal on i stands in it outside an iteration.
    pub fn outer(&self, number: i32) -> bool {
        self.facts(number).is_some_and(|facts| !facts.on_i)
    }

    /// Row `g` is row `f` lowered by `k`, up to the sides of ands and ors. False unless both are
    /// well-formed and within the limits.
    pub fn lowered(&self, f: i32, g: i32, k: i32) -> bool {
        self.agree(f, Change::Lowered(k), g)
    }

    /// Row `g` is the instance of body `f` at n - `c`, up to the sides of ands and ors. False unless
    /// both are well-formed and within the limits.
    pub fn instance(&self, f: i32, g: i32, c: i32) -> bool {
        self.agree(f, Change::Instance(c), g)
    }

    /// Rows `f` and `g` are alike: they agree after swapping the sides of some ands and ors. False
    /// unless both are well-formed and within the limits.
    pub fn alike(&self, f: i32, g: i32) -> bool {
        self.agree(f, Change::Nothing, g)
    }

    /// Each of `rows`, lowered by `k`, stands in `set`, up to the sides of ands and ors.
    pub fn all_lowered(&self, rows: &[i32], set: &[i32], k: i32) -> bool {
        let mut forms: Vec<Option<u32>> = set.iter().map(|row| self.form(*row, Change::Nothing)).collect();
        forms.sort_unstable();
        rows.iter().all(|row| {
            let form = self.form(*row, Change::Lowered(k));
            form.is_some() && forms.binary_search(&form).is_ok()
        })
    }

    fn agree(&self, f: i32, change: Change, g: i32) -> bool {
        let form = self.form(f, change);
        form.is_some() && form == self.form(g, Change::Nothing)
    }

    /// The form of a changed row. `None` unless it is well-formed, within the limits, and can be changed so.
    fn form(&self, number: i32, change: Change) -> Option<u32> {
        let facts = self.facts(number)?;
        if !facts.within_limits() {
            return None;
        }
        let change = match change {
            Change::Lowered(_) if !facts.on_n => Change::Nothing,
            _ => change,
        };
        let mut forms = self.forms.borrow_mut();
        let Forms { numbers, of_rows } = &mut *forms;
        let known = of_rows.entry(change).or_default();
        known.resize(self.rows.len(), None);
        self.find_form(numbers, known, change, number as usize)
    }

    /// The parts of a row within the limits are within the limits and have smaller numbers, and no path
    /// down is longer than 64.
    fn find_form(
        &self,
        numbers: &mut Numbers,
        known: &mut [Option<Option<u32>>],
        change: Change,
        at: usize,
    ) -> Option<u32> {
        if let Some(found) = known[at] {
            return found;
        }
        let [kind, a, b, c] = self.rows[at];
        let mut part = |row: i32| self.find_form(numbers, known, change, row as usize).map(i64::from);
        let form = match kind {
            LITERAL | NEGATED => change.literal(b, c).map(|(b, c)| [kind.into(), a.into(), b.into(), c]),
            AND | OR => match (part(a), part(b)) {
                (Some(a), Some(b)) => Some([kind.into(), a.min(b), a.max(b), 0]),
                _ => None,
            },
            BIG_AND | BIG_OR => match (part(a), change.limit(c)) {
                (Some(body), Some(c)) => Some([kind.into(), body, b.into(), c]),
                _ => None,
            },
            _ => Some([kind.into(), 0, 0, 0]),
        };
        let found = form.map(|form| {
            let next = numbers.len() as u32;
            *numbers.entry(form).or_insert(next)
        });
        known[at] = Some(found);
        found
    }
}

/// A formula written with the sides of each and and or in order: kind a b c as in a row, but a part is
/// the number of its form, and the smaller one is the left side. Each form has one number, so two
/// formulas are alike exactly when their forms have the same number.
type Form = [i64; 4];
type Numbers = HashMap<Form, u32, BuildHasherDefault<Mixer>>;

/// The forms met so far, and those of the rows under each change; `Some(None)` where there is none.
#[derive(Clone, Debug, Default)]
struct Forms {
    numbers: Numbers,
    of_rows: HashMap<Change, Vec<Option<Option<u32>>>>,
}

/// How a formula is written anew before its sides are put in order.
#[derive(Clone, Copy, Debug, PartialEq, Eq, Hash)]
enum Change {
    Nothing,
    /// n + c stands as n + (c - k), the limit n - c as n - (c + k).
    Lowered(i32),
    /// Of a body: i + d stands as n + (d - c).
    Instance(i32),
}

impl Change {
    /// What a literal's index is added to, and its offset.
    fn literal(self, base: i32, offset: i32) -> Option<(i32, i64)> {
        let offset = i64::from(offset);
        match self {
            Change::Lowered(k) if base == ON_N => Some((base, offset - i64::from(k))),
            Change::Instance(c) if base == ON_I => Some((ON_N, offset - i64::from(c))),
            Change::Instance(_) => None,
            _ => Some((base, offset)),
        }
    }

    fn limit(self, c: i32) -> Option<i64> {
        match self {
            Change::Nothing => Some(i64::from(c)),
            Change::Lowered(k) => Some(i64::from(c) + i64::from(k)),
            Change::Instance(_) => None,
        }
    }
}

/// The row with its parts changed.
pub fn with_parts([kind, a, b, c]: Row, mut change: impl FnMut(i32) -> i32) -> Row {
    match kind {
        AND | OR => [kind, change(a), change(b), c],
        BIG_AND | BIG_OR => [kind, change(a), b, c],
        _ => [kind, a, b, c],
    }
}

/// The index of a literal at this n and, inside an iteration, this i.
pub fn index(base: i32, offset: i32, n: i64, i: i64) -> i64 {
    let base = match base {
        ON_N => n,
        ON_I => i,
        _ => 0,
    };
    base.saturating_add(i64::from(offset))
}

/// A quick hash of a form or a row.
#[derive(Clone, Debug, Default)]
struct Mixer(u64);

impl Hasher for Mixer {
    fn write(&mut self, bytes: &[u8]) {
        for chunk in bytes.chunks(8) {
            let mut word = [0; 8];
            word[..chunk.len()].copy_from_slice(chunk);
            self.0 = (self.0.rotate_left(5) ^ u64::from_le_bytes(word)).wrapping_mul(0x517c_c1b7_2722_0a95);
        }
    }

    fn finish(&self) -> u64 {
        self.0 ^ (self.0 >> 32)
    }
}

/// Whether proof rows may be written twice: the check refuses them, the older check and the model check
/// do not.
#[derive(Clone, Copy, Debug, PartialEq, Eq)]
pub enum Twice {
    Refused,
    Allowed,
}

/// What the check and the model check say first of the schema and of all formula rows, once the
/// tables are long enough and the counts allowed: 6, then row by row 7, 8 and, where it is refused, 27 for
/// a proof row whose four columns are those of an earlier schema or proof row, then 6 again.
pub fn judge_rows(
    twice: Twice,
    root: i32,
    least: i32,
    schema: &[i32],
    schema_count: usize,
    proof: &[i32],
    proof_count: usize,
) -> Result<Formulas, Refusal> {
    let root_is_schema_row = usize::try_from(root).is_ok_and(|root| root < schema_count);
    if !root_is_schema_row || !(0..=MAX_N).contains(&least) {
        return refuse(6, -1);
    }
    let Some(formulas) = Formulas::new(schema, schema_count, proof, proof_count) else {
        return refuse(2, -1);
    };
    let room = if twice == Twice::Refused { formulas.len() } else { 0 };
    let mut earlier: HashSet<Row, _> = HashSet::with_capacity_and_hasher(room, BuildHasherDefault::<Mixer>::default());
    for (number, (row, facts)) in formulas.rows.iter().zip(&formulas.facts).enumerate() {
        match facts {
            None => return refuse(7, number as i32),
            Some(facts) if !facts.within_limits() => return refuse(8, number as i32),
            Some(_) => {}
        }
        if twice == Twice::Refused && !earlier.insert(*row) && number >= schema_count {
            return refuse(27, number as i32);
        }
    }
    if !formulas.outer(root) {
        return refuse(6, -1);
    }
    Ok(formulas)
}

// The same for one table of rows, as plain functions.

/// Row `row` of the first `count` rows of `table` is well-formed, with all that it points to.
pub fn well_formed(table: &[i32], count: usize, row: i32) -> bool {
    Formulas::new(table, count, &[], 0).is_some_and(|formulas| formulas.well_formed(row))
}

/// `None` if the row is not well-formed.
pub fn size(table: &[i32], count: usize, row: i32) -> Option<u64> {
    Formulas::new(table, count, &[], 0)?.size(row)
}

/// `None` if the row is not well-formed.
pub fn depth(table: &[i32], count: usize, row: i32) -> Option<u64> {
    Formulas::new(table, count, &[], 0)?.depth(row)
}

/// False if the row is not well-formed.
pub fn outer(table: &[i32], count: usize, row: i32) -> bool {
    Formulas::new(table, count, &[], 0).is_some_and(|formulas| formulas.outer(row))
}

/// Row `g` is row `f` lowered by `k`; false if one is not well-formed or over the limits.
pub fn lowered(table: &[i32], count: usize, f: i32, g: i32, k: i32) -> bool {
    Formulas::new(table, count, &[], 0).is_some_and(|formulas| formulas.lowered(f, g, k))
}

/// Row `g` is the instance of body `f` at n - `c`; false if one is not well-formed or over the limits.
pub fn instance(table: &[i32], count: usize, f: i32, g: i32, c: i32) -> bool {
    Formulas::new(table, count, &[], 0).is_some_and(|formulas| formulas.instance(f, g, c))
}
