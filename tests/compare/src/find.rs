//! The first model at an n that is named (document 02, No. 13).

use crate::calls::{check_model, exact, lent, pack, Seen};
use crate::damage::damage_schema;
use crate::kinds::{Kinds, Run};
use crate::tally::{fits, Tally};
use zorambi::entries;
use zorambi_generate::models::ModelTables;
use zorambi_generate::schemata::{false_schema, random_schema};
use zorambi_generate::tables::extreme;
use zorambi_generate::{Input, Rng};
use zorambi_reference::find::{self, occurring};
use zorambi_reference::formula::{Formulas, Row, AND, BIG_AND, BIG_OR, FALSE, LITERAL, NEGATED, ON_I, ON_N, OR, PLAIN};
use zorambi_reference::{model, packed};

/// What is asked, and how long the lent table is.
#[derive(Clone, Debug)]
pub struct Asked {
    pub root: i32,
    pub least: i32,
    pub schema: Vec<i32>,
    pub schema_count: usize,
    pub n: i32,
    pub length: usize,
}

const FULL: usize = 8192;

impl Asked {
    /// The last row at n.
    fn of_rows(rows: Vec<Row>, least: i32, n: i32) -> Asked {
        let (root, schema_count) = (rows.len() as i32 - 1, rows.len());
        Asked { root, least, schema: rows.concat(), schema_count, n, length: FULL }
    }

    fn formulas(&self) -> Option<Formulas> {
        Formulas::new(&self.schema, self.schema_count, &[], 0)
    }
}

fn of_library(asked: &Asked) -> Seen {
    let Asked { root, least, schema, schema_count, n, length } = asked;
    lent([*length], 0, |[pairs], _, results| {
        entries::find_model(&exact(schema), *schema_count, *root, *least, *n, pairs, results)
    })
}

fn of_reference(asked: &Asked) -> Seen {
    let mut pairs = vec![-3; asked.length];
    let Asked { root, least, schema, schema_count, n, .. } = asked;
    let found = find::find_model(*root, *least, schema, *schema_count, *n, &mut pairs);
    let results = vec![found.n, found.pairs as i32];
    Seen { packed: packed::pack(found.verdict) as u64, results, tables: vec![pairs], ..Seen::default() }
}

/// What both give; an error if they differ.
pub fn of_both(asked: &Asked) -> Result<Seen, String> {
    of_library(asked).agreed(of_reference(asked))
}

/// A model is given, not "none".
pub fn is_given(seen: &Seen) -> bool {
    seen.answer() == 0 && seen.packed >> 13 & 8191 == 1
}

const KINDS: [&str; 23] = [
    "no pair occurs",
    "1 pair",
    "15 pairs",
    "16 pairs",
    "17 pairs, 30",
    "an empty range",
    "true under the first assignment",
    "true only under the last assignment",
    "true under none",
    "n the least value",
    "n below the least value, 19",
    "n = 9,999",
    "n = 10,000, 19",
    "table one number short, 2 at 0",
    "schema too short, 2 at -1",
    "too many rows, 5",
    "root or least value, 6",
    "an ill-formed row, 7",
    "a row too large, 8",
    "a root that is not outer, 6",
    "more than 17 pairs, 30",
    "a model, checked",
    "tried one by one",
];

struct Comparison<'a> {
    tally: &'a mut Tally,
    kinds: Kinds,
}

impl Comparison<'_> {
    fn put(&mut self, what: &str, asked: &Asked) -> Option<Seen> {
        let seen = of_both(asked);
        self.tally.test(what, seen.clone().map(|_| ()));
        let seen = seen.ok()?;
        self.count(asked, &seen);
        if seen.answer() == 0 {
            self.try_all(what, asked, &seen);
        }
        if is_given(&seen) {
            self.check(what, asked, &seen);
        }
        Some(seen)
    }

    fn count(&mut self, asked: &Asked, seen: &Seen) {
        let Asked { root, least, n, length, .. } = *asked;
        let early = usize::try_from(root).is_ok_and(|root| root < asked.schema_count) && (0..=9999).contains(&least);
        let kinds = &mut self.kinds;
        match (seen.answer(), seen.place()) {
            (2, 0) => kinds.count_if(length == FULL - 1, "table one number short, 2 at 0"),
            (2, _) => kinds.count("schema too short, 2 at -1"),
            (5, _) => kinds.count("too many rows, 5"),
            (6, _) => kinds.count(if early { "a root that is not outer, 6" } else { "root or least value, 6" }),
            (7, _) => kinds.count("an ill-formed row, 7"),
            (8, _) => kinds.count("a row too large, 8"),
            (19, _) => {
                kinds.count_if(n < least, "n below the least value, 19");
                kinds.count_if(n == 10_000, "n = 10,000, 19");
            }
            _ => {
                let Some(formulas) = asked.formulas() else { return };
                let pairs = occurring(&formulas, root, i64::from(n), 17).map(|pairs| pairs.len());
                let of_pairs =
                    [(0, "no pair occurs"), (1, "1 pair"), (15, "15 pairs"), (16, "16 pairs"), (17, "17 pairs, 30")];
                for (count, kind) in of_pairs {
                    kinds.count_if(pairs == Some(count), kind);
                }
                kinds.count_if(pairs.is_none(), "more than 17 pairs, 30");
                if seen.answer() > 0 {
                    return;
                }
                kinds.count_if(has_empty_range(&formulas, root, n), "an empty range");
                kinds.count_if(n == least, "n the least value");
                kinds.count_if(n == 9999, "n = 9,999");
                let (given, listed) = (is_given(seen), seen.results[1] as usize);
                kinds.count_if(!given, "true under none");
                kinds.count_if(given && listed == 0, "true under the first assignment");
                let last = given && listed > 0 && pairs == Some(listed);
                kinds.count_if(last, "true only under the last assignment");
            }
        }
    }

    /// Few pairs: the first of all assignments, evaluated one by one.
    fn try_all(&mut self, what: &str, asked: &Asked, seen: &Seen) {
        let Some(formulas) = asked.formulas() else { return };
        let n = i64::from(asked.n);
        let Some(pairs) = occurring(&formulas, asked.root, n, 8) else { return };
        let is_true = |assignment: u32, pair: usize| assignment >> (pairs.len() - 1 - pair) & 1 == 1;
        let first = (0..1 << pairs.len()).find(|assignment| {
            model::value(&formulas, asked.root, n, &|symbol, index| {
                pairs.binary_search(&(symbol, index)).is_ok_and(|pair| is_true(*assignment, pair))
            })
        });
        let expected: Option<Vec<i32>> = first.map(|assignment| {
            let listed = (0..pairs.len()).filter(|pair| is_true(assignment, *pair));
            listed.flat_map(|pair| [pairs[pair].0, pairs[pair].1 as i32]).collect()
        });
        let found = is_given(seen).then(|| seen.tables[0][..2 * seen.results[1] as usize].to_vec());
        let why = || format!("given {found:?}, the first of all is {expected:?}");
        self.tally.test(what, fits(found == expected, why));
        self.kinds.count("tried one by one");
    }

    /// A model that is given passes the model check.
    fn check(&mut self, what: &str, asked: &Asked, seen: &Seen) {
        let pair_count = seen.results[1] as usize;
        let model = ModelTables {
            root: asked.root,
            least: asked.least,
            schema: asked.schema.clone(),
            schema_count: asked.schema_count,
            n: seen.results[0],
            pairs: seen.tables[0][..2 * pair_count].to_vec(),
            pair_count,
        };
        let packed = check_model(&model);
        let why = || format!("the model check answers {}", packed >> 39);
        self.tally.test(what, fits(packed == pack(0, 0, 0), why));
        self.tally.compare(&format!("{what}, its model"), &Input::Model(model));
        self.kinds.count("a model, checked");
    }
}

/// An iteration that the root reaches has no value of i.
fn has_empty_range(formulas: &Formulas, root: i32, n: i32) -> bool {
    let mut left = vec![root];
    let mut seen = vec![false; formulas.len()];
    while let Some(row) = left.pop() {
        if std::mem::replace(&mut seen[row as usize], true) {
            continue;
        }
        match formulas.row(row).unwrap_or_default() {
            [AND | OR, a, b, _] => left.extend([a, b]),
            [BIG_AND | BIG_OR, _, b, c] if b > n - c => return true,
            _ => {}
        }
    }
    false
}

pub fn test(tally: &mut Tally, run: &Run) {
    let mut comparison = Comparison { tally, kinds: Kinds::new("a model at n", &KINDS) };
    comparison.by_hand();
    comparison.refusals();
    let rng = &mut Rng::new(run.seed);
    for count in [0, 1, 2, 5, 8, 15, 16, 17] {
        for shape in [Shape::Any, Shape::Last, Shape::None] {
            for n in [0, 3, 9999] {
                comparison.put(&format!("{count} pairs at n = {n}"), &of_pairs(rng, count, shape, n));
            }
        }
    }
    for number in 0..run.count / 10 {
        let what = format!("model at n, seed {} case {number}", run.seed);
        comparison.put(&what, &any(rng));
    }
    let Comparison { tally, kinds } = comparison;
    kinds.close(tally);
}

impl Comparison<'_> {
    /// Models worked out by hand, at n = 3: listed pairs, or none.
    fn by_hand(&mut self) {
        const P: [Row; 2] = [[LITERAL, 0, ON_I, 0], [NEGATED, 0, ON_I, 0]];
        let some_p = vec![P[0], [BIG_OR, 0, 1, 0]];
        let no_p = vec![P[1], [BIG_AND, 0, 1, 0]];
        let all_p = vec![P[0], [BIG_AND, 0, 1, 0]];
        let some_and_no_p = vec![P[0], P[1], [BIG_OR, 0, 1, 0], [BIG_AND, 1, 1, 0], [AND, 2, 3, 0]];
        let cases = [
            ("true", vec![[0, 0, 0, 0]], Some(vec![])),
            ("false", vec![[1, 0, 0, 0]], None),
            ("p_n", vec![[LITERAL, 0, ON_N, 0]], Some(vec![0, 3])),
            ("not p_n", vec![[NEGATED, 0, ON_N, 0]], Some(vec![])),
            ("some p", some_p, Some(vec![0, 3])),
            ("no p", no_p, Some(vec![])),
            ("all p", all_p, Some(vec![0, 1, 0, 2, 0, 3])),
            ("some p and no p", some_and_no_p, None),
            ("some p of none", vec![P[0], [BIG_OR, 0, 4, 0]], None),
            ("p_n or q_0", vec![[LITERAL, 1, PLAIN, 0], [LITERAL, 0, ON_N, 0], [OR, 0, 1, 0]], Some(vec![1, 0])),
        ];
        for (name, rows, expected) in cases {
            let seen = self.put(name, &Asked::of_rows(rows, 0, 3)).unwrap_or_default();
            let given = is_given(&seen).then(|| seen.tables[0][..2 * seen.results[1] as usize].to_vec());
            let why = || format!("{given:?}, expected {expected:?}");
            self.tally.test(name, fits(seen.answer() == 0 && given == expected, why));
        }
    }

    /// Each refusal by itself and each two of them: the earlier one in the paper's order comes.
    fn refusals(&mut self) {
        const ORDER: [(u64, i64); 9] =
            [(2, 0), (2, -1), (5, -1), (6, -1), (7, 2), (8, 15), (6, -1), (19, -1), (30, -1)];
        for (first, expected) in ORDER.into_iter().enumerate() {
            for (second, later) in ORDER.into_iter().enumerate().skip(first) {
                let what = format!("refusals {expected:?} and {later:?}");
                let seen = self.put(&what, &faulty(|fault| fault == first || fault == second)).unwrap_or_default();
                self.tally.test_answer(&what, &seen, expected);
            }
        }
        // Lengths and counts of all sizes.
        for length in [0, 1, 4096, FULL - 1, FULL, FULL + 1, 9216] {
            for count in [0, 1, 3, 4, 1024, 1025, 1 << 32, 1 << 62, usize::MAX] {
                let asked = Asked { schema_count: count, length, ..faulty(|_| false) };
                self.put(&format!("length {length}, count {count}"), &asked);
            }
        }
        for number in [i32::MIN, -1, 0, 1, 2, 3, 9998, 9999, 10_000, i32::MAX] {
            let right = faulty(|_| false);
            self.put(&format!("root {number}"), &Asked { root: number, ..right.clone() });
            self.put(&format!("least value {number}"), &Asked { least: number, ..right.clone() });
            self.put(&format!("n = {number}"), &Asked { n: number, ..right });
        }
    }
}

/// All p from 1 up to n = 3, with these of the nine refusals.
fn faulty(fault: impl Fn(usize) -> bool) -> Asked {
    let mut rows: Vec<Row> = vec![[LITERAL, 0, ON_I, 0], [BIG_AND, 0, 1, 0]];
    rows.push(if fault(4) { [12, 0, 0, 0] } else { [FALSE, 0, 0, 0] });
    rows.push([FALSE, 0, 0, 0]);
    if fault(5) {
        // Row 15 has size 8,191.
        rows.extend((3..15).map(|row| [OR, row, row, 0]));
    }
    if fault(8) {
        rows[1] = [BIG_AND, 0, -13, 0];
    }
    if fault(2) {
        rows.resize(1025, [FALSE, 0, 0, 0]);
    }
    let mut schema = rows.concat();
    if fault(1) {
        schema.pop();
    }
    Asked {
        root: if fault(6) { 0 } else { 1 },
        least: if fault(3) { 10_000 } else { 3 },
        schema,
        schema_count: rows.len(),
        n: if fault(7) { 2 } else { 3 },
        length: if fault(0) { FULL - 1 } else { FULL },
    }
}

/// What a schema of given pairs looks like: anything, true under the last assignment only, or under none.
#[derive(Clone, Copy, PartialEq, Eq)]
enum Shape {
    Any,
    Last,
    None,
}

/// Rows as they are added, and the pairs of their literals.
struct Builder<'a> {
    rows: Vec<Row>,
    pairs: Vec<(i32, i32)>,
    rng: &'a mut Rng,
    shape: Shape,
    n: i32,
}

impl Builder<'_> {
    fn row(&mut self, row: Row) -> i32 {
        self.rows.push(row);
        self.rows.len() as i32 - 1
    }

    fn any_sign(&mut self) -> i32 {
        if self.shape == Shape::Any && self.rng.chance(40) {
            NEGATED
        } else {
            LITERAL
        }
    }

    /// And or or, big or not: `kind` is that of the and.
    fn any_join(&mut self, kind: i32) -> i32 {
        kind + i32::from(self.shape == Shape::Any && self.rng.chance(50))
    }

    /// All of the rows, in any order and shape.
    fn join(&mut self, mut rows: Vec<i32>) -> i32 {
        self.rng.shuffle(&mut rows);
        while rows.len() > 1 {
            let at = self.rng.below(rows.len() - 1);
            let kind = self.any_join(AND);
            rows[at] = self.row([kind, rows[at], rows[at + 1], 0]);
            rows.remove(at + 1);
        }
        rows[0]
    }

    /// A literal of a new symbol, outside of iterations.
    fn literal(&mut self, symbol: i32) -> i32 {
        let (kind, offset) = (self.any_sign(), self.rng.range(-3, 3));
        let base = self.rng.pick(&[PLAIN, ON_N]);
        self.pairs.push((symbol, offset + if base == ON_N { self.n } else { 0 }));
        self.row([kind, symbol, base, offset])
    }

    /// An iteration over `width` values whose body has `literals` literals of new symbols from `first` on; one of them
    /// once more, `apart` further on.
    fn iteration(&mut self, first: i32, literals: i32, width: i32, apart: i32) -> i32 {
        let b = self.rng.range(-3, 3);
        let c = self.n - b - width + 1;
        let mut parts = Vec::new();
        for symbol in first..first + literals {
            let further = if symbol == first { apart } else { 0 };
            let (kind, offset) = (self.any_sign(), self.rng.range(-3, 3));
            parts.push(self.row([kind, symbol, ON_I, offset]));
            if further > 0 {
                let kind = self.any_sign();
                parts.push(self.row([kind, symbol, ON_I, offset + further]));
            }
            self.pairs.extend((0..width + further).map(|at| (symbol, b + offset + at)));
        }
        let body = self.join(parts);
        let kind = self.any_join(BIG_AND);
        self.row([kind, body, b, c])
    }

    /// Three literals of pairs that occur, or fewer: a clause.
    fn clause(&mut self) -> Option<i32> {
        let near: Vec<(i32, i32)> = self.pairs.iter().copied().filter(|(_, index)| index.abs() <= 9999).collect();
        let mut parts = Vec::new();
        for _ in 0..3.min(near.len()) {
            let ((symbol, index), kind) = (self.rng.pick(&near), self.rng.range(LITERAL, NEGATED));
            parts.push(self.row([kind, symbol, PLAIN, index]));
        }
        parts.into_iter().reduce(|clause, literal| self.row([OR, clause, literal, 0]))
    }
}

/// A schema in which `count` pairs occur at n.
fn of_pairs(rng: &mut Rng, count: i32, shape: Shape, n: i32) -> Asked {
    let first = if rng.chance(90) { 0 } else { 255 - count };
    let mut b = Builder { rows: Vec::new(), pairs: Vec::new(), rng, shape, n };
    let (mut parts, mut left, mut symbol) = (Vec::new(), count, first);
    while left > 0 {
        if b.rng.chance(40) {
            parts.push(b.literal(symbol));
            (left, symbol) = (left - 1, symbol + 1);
            continue;
        }
        let width = b.rng.range(1, left);
        let literals = b.rng.range(1, left / width);
        let apart = b.rng.range(0, (left - width * literals).min(width));
        parts.push(b.iteration(symbol, literals, width, apart));
        (left, symbol) = (left - width * literals - apart, symbol + literals);
    }
    // True, and a big and that is true: without values of i, or without literals.
    let truth = b.row([0, 0, 0, 0]);
    if count == 0 || b.rng.chance(40) {
        parts.push(truth);
    }
    if b.rng.chance(30) {
        let body = b.row([LITERAL, 99, ON_I, 0]);
        parts.push(b.row([BIG_AND, body, 1, n]));
    }
    if b.rng.chance(20) {
        parts.push(b.row([BIG_AND, truth, -9999, -9999]));
    }
    let mut root = b.join(parts);
    if shape == Shape::Any && b.rng.chance(50) {
        let clauses: Vec<i32> = (0..b.rng.below(40)).filter_map(|_| b.clause()).collect();
        for clause in clauses {
            root = b.row([AND, root, clause, 0]);
            if b.rows.len() > 900 || b.rng.chance(2) {
                break;
            }
        }
    }
    if shape == Shape::None {
        let near: Vec<(i32, i32)> = b.pairs.iter().copied().filter(|(_, index)| index.abs() <= 9999).collect();
        let no = match near[..] {
            [] => b.row([FALSE, 0, 0, 0]),
            _ => {
                let (symbol, index) = b.rng.pick(&near);
                b.row([NEGATED, symbol, PLAIN, index])
            }
        };
        b.row([AND, root, no, 0]);
    }
    let rows = if shape == Shape::None { b.rows } else { with_root(b.rows, root) };
    let least = rng.pick(&[0, n, n / 2]);
    Asked::of_rows(rows, least, n)
}

/// The rows up to the root, which so is the last.
fn with_root(mut rows: Vec<Row>, root: i32) -> Vec<Row> {
    rows.truncate(root as usize + 1);
    rows
}

/// Any case: schemata of few pairs, at random or false by construction, mostly whole.
fn any(rng: &mut Rng) -> Asked {
    let mut asked = match rng.below(10) {
        0..=5 => {
            let count = rng.pick(&[0, 1, 2, 3, 4, 5, 6, 8, 10, 12, 14, 15, 16, 16, 17, 18]);
            let n = if rng.chance(90) { rng.range(0, 20) } else { rng.range(0, 9999) };
            let shape = rng.pick(&[Shape::Any, Shape::Any, Shape::Any, Shape::Last, Shape::None]);
            of_pairs(rng, count, shape, n)
        }
        sort => {
            let schema = if sort < 8 { random_schema(rng) } else { false_schema(rng) };
            let (rows, n) = (schema.rows(), schema.least.saturating_add(rng.range(0, 4)));
            Asked { root: schema.root, ..Asked::of_rows(rows, schema.least, n) }
        }
    };
    if rng.chance(20) {
        damage(rng, &mut asked);
    }
    asked
}

fn damage(rng: &mut Rng, asked: &mut Asked) {
    let Asked { root, least, schema, schema_count, n, length } = asked;
    match rng.below(10) {
        0 => *n = rng.pick(&[*least - 1, *least, 9999, 10_000]),
        1 => *n = extreme(rng),
        sort => damage_schema(sort - 2, rng, [root, least], (schema, schema_count), (length, FULL)),
    }
}

/// The largest and slowest; each has an answer.
pub fn heavy(tally: &mut Tally) {
    for (name, asked) in worst() {
        let seen = of_both(&asked);
        tally.test(name, seen.and_then(|seen| fits(seen.answer() == 0, || "refused".to_string())));
    }
}

/// Schemata that take long, all of them with an answer.
pub fn worst() -> Vec<(&'static str, Asked)> {
    vec![
        ("16 values of a body over 1 pair, own rows", largest_body(0, 16, 508)),
        ("8 values of a body over 9 pairs, own rows", largest_body(8, 8, 492)),
        ("16 values of a body, shared rows", shared_body(16)),
        ("29,998 values of a body without literals, and 16 pairs", without_literals()),
        ("29,998 values of a body without literals, 500 times", ranges_without_literals()),
        ("8 values of a body over 2 pairs, 290 times", many_ranges()),
        ("320 clauses over 16 pairs", clauses(320)),
        ("60 clauses over 16 pairs", clauses(60)),
        ("all of 16 pairs", all_of_sixteen()),
    ]
}

fn balanced(rows: &mut Vec<Row>, kind: i32, mut level: Vec<i32>) -> i32 {
    while level.len() > 1 {
        level = level
            .chunks(2)
            .map(|pair| match *pair {
                [a, b] => {
                    rows.push([kind, a, b, 0]);
                    rows.len() as i32 - 1
                }
                _ => pair[0],
            })
            .collect();
    }
    level[0]
}

/// An or over `width` values of i of an and whose last part is false; each other part is a row of its own of size 7
/// over p_i to p_(i + apart).
fn largest_body(apart: i32, width: i32, parts: usize) -> Asked {
    let mut rows: Vec<Row> = Vec::new();
    for offset in 0..=apart {
        rows.extend([[LITERAL, 0, ON_I, offset], [NEGATED, 0, ON_I, offset]]);
    }
    let ors: Vec<i32> = (0..2 * (apart + 1))
        .map(|row| {
            rows.push([OR, row, (row + 3) % (2 * (apart + 1)), 0]);
            rows.len() as i32 - 1
        })
        .collect();
    let mut leaves = Vec::new();
    for at in 0..parts {
        leaves.push(rows.len() as i32);
        rows.push([AND, ors[at % ors.len()], ors[(at + 1) % ors.len()], 0]);
    }
    leaves.push(rows.len() as i32);
    rows.push([FALSE, 0, 0, 0]);
    let body = balanced(&mut rows, AND, leaves);
    rows.push([BIG_OR, body, 1, 9999 - width]);
    Asked::of_rows(rows, 0, 9999)
}

/// The same of shared rows, of which each is both parts of the next.
fn shared_body(width: i32) -> Asked {
    let mut rows = vec![[LITERAL, 0, ON_I, 0], [NEGATED, 0, ON_I, 0], [AND, 0, 1, 0]];
    rows.extend((2..12).map(|row| [OR, row, row, 0]));
    rows.push([BIG_OR, 12, 1, 9999 - width]);
    Asked::of_rows(rows, 0, 9999)
}

/// All that n = 9999 allows of a body without literals, and 16 pairs that contradict each other.
fn without_literals() -> Asked {
    let mut rows = vec![[0, 0, 0, 0]];
    rows.extend((0..10).map(|row| [AND, row, row, 0]));
    rows.extend([[BIG_AND, 10, -9999, -9999], [LITERAL, 0, ON_I, 0], [BIG_AND, 12, 1, 9983]]);
    rows.extend([[NEGATED, 0, PLAIN, 16], [AND, 13, 14, 0], [AND, 11, 15, 0]]);
    Asked::of_rows(rows, 0, 9999)
}

fn ranges_without_literals() -> Asked {
    let mut rows = vec![[FALSE, 0, 0, 0], [OR, 0, 0, 0], [AND, 1, 0, 0]];
    rows.extend((0..500).map(|_| [BIG_OR, 2, -9999, -9999]));
    balanced(&mut rows, OR, (3..503).collect());
    Asked::of_rows(rows, 0, 9999)
}

/// Ranges over the same 16 pairs, each with p_i or q_i and not p_i.
fn many_ranges() -> Asked {
    let mut rows = vec![[LITERAL, 0, ON_I, 0], [LITERAL, 1, ON_I, 0], [NEGATED, 0, ON_I, 0], [NEGATED, 1, ON_I, 0]];
    rows.extend([[OR, 0, 1, 0], [OR, 2, 3, 0], [AND, 4, 5, 0], [AND, 2, 3, 0], [OR, 6, 7, 0]]);
    let first = rows.len() as i32;
    rows.extend((0..290).map(|at| [BIG_AND, if at % 2 == 0 { 6 } else { 8 }, 1, 9991]));
    let root = balanced(&mut rows, AND, (first..first + 290).collect());
    rows.extend([[LITERAL, 0, PLAIN, 8], [LITERAL, 1, PLAIN, 8]]);
    rows.extend([[AND, root + 1, root + 2, 0], [AND, root, root + 3, 0]]);
    Asked::of_rows(rows, 0, 9999)
}

/// Clauses of three literals of 16 pairs.
fn clauses(count: i32) -> Asked {
    let mut rows: Vec<Row> = (0..32).map(|at| [LITERAL + at % 2, at / 2 % 4, PLAIN, at / 8]).collect();
    let rng = &mut Rng::new(7);
    let mut all = Vec::new();
    for _ in 0..count {
        let [a, b, c] = [(); 3].map(|()| rng.below(32) as i32);
        rows.push([OR, a, b, 0]);
        rows.push([OR, rows.len() as i32 - 1, c, 0]);
        all.push(rows.len() as i32 - 1);
    }
    balanced(&mut rows, AND, all);
    Asked::of_rows(rows, 0, 9999)
}

fn all_of_sixteen() -> Asked {
    let mut rows = vec![[LITERAL, 0, ON_I, 0]];
    rows.extend((0..11).map(|row| [AND, row, row, 0]));
    rows.push([BIG_AND, 11, 1, 9983]);
    Asked::of_rows(rows, 0, 9999)
}
