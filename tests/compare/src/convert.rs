//! Wide connectives written in plain rows (document 02, No. 1).

use crate::calls::{check_model, exact, lent, of_library as library_on, pack, Seen};
use crate::damage::damage_schema;
use crate::kinds::{Kinds, Run};
use crate::tally::{fits, Tally};
use zorambi::entries;
use zorambi_generate::models::{random_assignment, random_pairs, ModelTables};
use zorambi_generate::tables::Tables;
use zorambi_generate::{Input, Rng};
use zorambi_reference::convert::{self, plain_rows, wide_value, EQUIVALENT, EXCLUSIVE, IMPLIES, NOT};
use zorambi_reference::formula::{
    Facts, Formulas, Row, AND, BIG_AND, BIG_OR, FALSE, LITERAL, NEGATED, ON_I, ON_N, OR, PLAIN, TRUE,
};
use zorambi_reference::model;

/// What is to be converted, and how long the lent table is.
#[derive(Clone, Debug)]
pub struct Asked {
    pub root: i32,
    pub least: i32,
    pub wide: Vec<i32>,
    pub wide_count: usize,
    pub length: usize,
}

const FULL: usize = 4096;

impl Asked {
    fn of_rows(rows: &[Row], root: i32, least: i32) -> Asked {
        Asked { root, least, wide: rows.concat(), wide_count: rows.len(), length: FULL }
    }

    /// The last row as the root.
    fn of_last(rows: &[Row]) -> Asked {
        Asked::of_rows(rows, rows.len() as i32 - 1, 0)
    }

    fn rows(&self) -> Vec<Row> {
        rows_of(&self.wide, self.wide_count)
    }
}

fn rows_of(table: &[i32], count: usize) -> Vec<Row> {
    table.chunks_exact(4).take(count).map(|row| [row[0], row[1], row[2], row[3]]).collect()
}

fn of_library(asked: &Asked) -> Seen {
    let Asked { root, least, wide, wide_count, length } = asked;
    lent([*length], 0, |[plain], _, results| entries::convert(&exact(wide), *wide_count, *root, *least, plain, results))
}

fn of_reference(asked: &Asked) -> Seen {
    let mut plain = vec![-3; asked.length];
    let Asked { root, least, wide, wide_count, .. } = asked;
    let found = convert::convert(*root, *least, wide, *wide_count, &mut plain);
    let results = vec![found.root, found.least, found.rows as i32];
    Seen { packed: pack(found.answer, found.place, 0), results, tables: vec![plain], ..Seen::default() }
}

/// What both give; an error if they differ.
pub fn of_both(asked: &Asked) -> Result<Seen, String> {
    of_library(asked).agreed(of_reference(asked))
}

const KINDS: [&str; 19] = [
    "table one number short, 2 at 0",
    "wide table too short, 2 at -1",
    "too many wide rows, 5",
    "root or least value, 6",
    "an ill-formed row, 7",
    "a wide row too large, 8",
    "a root that is not outer, 6",
    "too many plain rows alone, 23",
    "a plain row too large alone, 23",
    "a plain row too deep alone, 23",
    "1,024 plain rows",
    "a plain row of size 4,096",
    "a plain row of depth 64",
    "a chain of nots",
    "a root of kind 8",
    "a wide connective as a body",
    "equivalences in one another, whose size doubles",
    "true under an assignment, as the wide root",
    "false under an assignment, as the wide root",
];

struct Comparison<'a> {
    tally: &'a mut Tally,
    kinds: Kinds,
    rng: Rng,
}

impl Comparison<'_> {
    fn put(&mut self, what: &str, asked: &Asked) -> Option<Seen> {
        let seen = of_both(asked);
        self.tally.test(what, seen.clone().map(|_| ()));
        let seen = seen.ok()?;
        self.count(asked, &seen);
        if seen.answer() == 0 {
            self.try_values(what, asked, &seen);
        }
        Some(seen)
    }

    fn expect(&mut self, what: &str, asked: &Asked, expected: (u64, i64)) {
        let seen = self.put(what, asked).unwrap_or_default();
        self.tally.test_answer(what, &seen, expected);
    }

    fn count(&mut self, asked: &Asked, seen: &Seen) {
        let early = usize::try_from(asked.root).is_ok_and(|root| root < asked.wide_count);
        let early = early && (0..=9999).contains(&asked.least);
        let kinds = &mut self.kinds;
        match (seen.answer(), seen.place()) {
            (2, 0) => kinds.count_if(asked.length == FULL - 1, "table one number short, 2 at 0"),
            (2, _) => kinds.count("wide table too short, 2 at -1"),
            (5, _) => kinds.count("too many wide rows, 5"),
            (6, _) => kinds.count(if early { "a root that is not outer, 6" } else { "root or least value, 6" }),
            (7, _) => kinds.count("an ill-formed row, 7"),
            (8, _) => kinds.count("a wide row too large, 8"),
            (23, _) => {
                let plain = plain_rows(&asked.rows());
                let formulas = Formulas::new(&plain.concat(), plain.len(), &[], 0).unwrap_or_default();
                let any = |holds: fn(Facts) -> bool| {
                    (0..plain.len() as i32).any(|row| formulas.facts(row).is_some_and(holds))
                };
                let (many, large, deep) = (plain.len() > 1024, any(|f| f.size > 4096), any(|f| f.depth > 64));
                kinds.count_if(many && !large && !deep, "too many plain rows alone, 23");
                kinds.count_if(!many && large && !deep, "a plain row too large alone, 23");
                kinds.count_if(!many && !large && deep, "a plain row too deep alone, 23");
            }
            _ => {
                let rows = asked.rows();
                let kind = |row: i32| rows[row as usize][0];
                let has = |holds: &dyn Fn(&Row) -> bool| rows.iter().any(holds);
                let formulas = Formulas::new(&seen.tables[0], seen.results[2] as usize, &[], 0).unwrap_or_default();
                let facts: Vec<Facts> = (0..seen.results[2]).filter_map(|row| formulas.facts(row)).collect();
                kinds.count_if(facts.len() == 1024, "1,024 plain rows");
                kinds.count_if(facts.iter().any(|facts| facts.size == 4096), "a plain row of size 4,096");
                kinds.count_if(facts.iter().any(|facts| facts.depth == 64), "a plain row of depth 64");
                kinds.count_if(has(&|row| row[0] == NOT && kind(row[1]) == NOT), "a chain of nots");
                kinds.count_if(kind(asked.root) == NOT, "a root of kind 8");
                let over_wide = |row: &Row| (BIG_AND..=BIG_OR).contains(&row[0]) && kind(row[1]) >= NOT;
                kinds.count_if(has(&over_wide), "a wide connective as a body");
                let doubles =
                    |row: &Row| row[0] >= EQUIVALENT && (kind(row[1]) >= EQUIVALENT || kind(row[2]) >= EQUIVALENT);
                kinds.count_if(has(&doubles), "equivalences in one another, whose size doubles");
            }
        }
    }

    /// The plain root beside the wide one under assignments at random, as the other implementation evaluates both and
    /// as the model check does the plain one. No check refuses the plain rows.
    fn try_values(&mut self, what: &str, asked: &Asked, seen: &Seen) {
        let wide = asked.rows();
        let [root, least, count] = [seen.results[0], seen.results[1], seen.results[2]];
        let plain = seen.tables[0][..4 * count as usize].to_vec();
        let schema_count = count as usize;
        let tables = Tables {
            root,
            least,
            schema: plain.clone(),
            schema_count,
            proof: vec![],
            proof_count: 0,
            nodes: vec![],
            node_count: 0,
            members: vec![],
            member_count: 0,
        };
        // No node is all that is wrong.
        let input = Input::Check(tables);
        let packed = library_on(&input).map(|seen| seen.packed);
        self.tally.test(what, fits(packed == Some(pack(10, -1, 0)), || format!("the check answers {packed:x?}")));
        self.tally.compare(&format!("{what}, its plain rows"), &input);

        let Some(formulas) = Formulas::new(&plain, schema_count, &[], 0) else { return };
        let last = (asked.least + 3).min(9999);
        let widest =
            wide.iter().filter(|row| (BIG_AND..=BIG_OR).contains(&row[0])).map(|[_, _, b, c]| last - b - c + 1);
        let work = formulas.size(root).unwrap_or(0) * widest.max().unwrap_or(1).max(1) as u64;
        if work > 100_000 {
            return;
        }
        for n in asked.least..=last {
            let rng = &mut self.rng;
            let percent = rng.pick(&[10, 50, 50, 90]);
            let assignment = random_assignment(rng.bits(), percent);
            let of_wide = wide_value(&wide, asked.root, i64::from(n), 0, &assignment);
            let of_plain = model::value(&formulas, root, i64::from(n), &assignment);
            let why = || format!("at n = {n} the wide root is {of_wide}, the plain one {of_plain}");
            self.tally.test(what, fits(of_wide == of_plain, why));

            let pairs = random_pairs(rng);
            let is_true = |symbol: i32, index: i64| {
                pairs.chunks_exact(2).any(|pair| (pair[0], i64::from(pair[1])) == (symbol, index))
            };
            let of_wide = wide_value(&wide, asked.root, i64::from(n), 0, &is_true);
            let (schema, pair_count) = (plain.clone(), pairs.len() / 2);
            let model = ModelTables { root, least, schema, schema_count, n, pairs, pair_count };
            let packed = check_model(&model);
            let expected = if of_wide { pack(0, 0, 0) } else { pack(20, -1, 0) };
            let why = || format!("at n = {n} the wide root is {of_wide}, the model check answers {}", packed >> 39);
            self.tally.test(what, fits(packed == expected, why));
            self.tally.compare(&format!("{what}, a model of its plain rows"), &Input::Model(model));
            self.kinds.count(if of_wide {
                "true under an assignment, as the wide root"
            } else {
                "false under an assignment, as the wide root"
            });
        }
    }
}

pub fn test(tally: &mut Tally, run: &Run) {
    let kinds = Kinds::new("wide connectives", &KINDS);
    let mut comparison = Comparison { tally, kinds, rng: Rng::new(run.seed) };
    comparison.by_hand();
    comparison.limits();
    comparison.refusals();
    let rng = &mut Rng::new(!run.seed);
    for number in 0..run.count / 10 {
        let what = format!("wide connectives, seed {} case {number}", run.seed);
        comparison.put(&what, &any(rng));
    }
    let Comparison { tally, kinds, .. } = comparison;
    kinds.close(tally);
}

const P: Row = [LITERAL, 0, ON_N, 0];
const Q: Row = [LITERAL, 1, ON_N, 0];
const NOT_P: Row = [NEGATED, 0, ON_N, 0];
const NOT_Q: Row = [NEGATED, 1, ON_N, 0];

impl Comparison<'_> {
    /// Plain rows worked out by hand.
    fn by_hand(&mut self) {
        let sides = vec![P, NOT_P, Q, NOT_Q];
        let same = vec![[4, 0, 2, 0], [4, 1, 3, 0], [5, 4, 5, 0]];
        let other = vec![[4, 0, 3, 0], [4, 1, 2, 0], [5, 4, 5, 0]];
        let same_later = vec![[4, 0, 2, 0], [4, 1, 3, 0], [5, 7, 8, 0]];
        let other_later = vec![[4, 0, 3, 0], [4, 1, 2, 0], [5, 7, 8, 0]];
        let cases = [
            ("p and q", [AND, 0, 1, 0], 4, vec![[AND, 0, 2, 0], [OR, 1, 3, 0]]),
            ("p implies q", [IMPLIES, 0, 1, 0], 4, vec![[OR, 1, 2, 0], [AND, 0, 3, 0]]),
            ("p equivalent to q", [EQUIVALENT, 0, 1, 0], 6, [same, other_later].concat()),
            ("p exclusive or q", [EXCLUSIVE, 0, 1, 0], 6, [other, same_later].concat()),
            ("not p", [NOT, 0, 0, 0], 1, vec![]),
            ("not q", [NOT, 1, 0, 0], 3, vec![]),
        ];
        for (name, row, root, rows) in cases {
            let seen = self.put(name, &Asked::of_last(&[P, Q, row])).unwrap_or_default();
            let expected = [sides.clone(), rows].concat();
            let found = seen.tables.first().map(|table| rows_of(table, seen.results[2] as usize));
            let same = seen.results == [root, 0, expected.len() as i32] && found.as_ref() == Some(&expected);
            let why = || format!("{:?} {found:?}, expected root {root} {expected:?}", seen.results);
            self.tally.test(name, fits(same, why));
        }
    }

    /// At the limits of plain rows, and one more.
    fn limits(&mut self) {
        let literals = |count: usize| Asked::of_last(&vec![P; count]);
        self.expect("512 literals", &literals(512), (0, 0));
        self.expect("513 literals", &literals(513), (23, -1));
        let equivalences = |count: usize| {
            let mut rows = vec![P, Q];
            rows.resize(count + 2, [EQUIVALENT, 0, 1, 0]);
            Asked::of_last(&rows)
        };
        self.expect("170 equivalences", &equivalences(170), (0, 0));
        self.expect("171 equivalences", &equivalences(171), (23, -1));
        // Sizes 1, 7, 31, 127, 511, 2,047, then 4,095 as a body and 4,096 with its iteration; 4,097 with one literal more.
        for kind in [EQUIVALENT, EXCLUSIVE] {
            let mut rows = vec![[LITERAL, 0, ON_I, 0]];
            rows.extend((0..5).map(|row| [kind, row, row, 0]));
            rows.extend([[AND, 5, 5, 0], [BIG_OR, 6, 1, 0], [NOT, 7, 0, 0]]);
            self.expect("size 4,096", &Asked::of_last(&rows), (0, 0));
            rows.push([OR, 6, 0, 0]);
            self.expect("size 4,097", &Asked::of_rows(&rows, 8, 0), (23, -1));
            rows[9] = [kind, 5, 5, 0];
            self.expect("size 8,191", &Asked::of_rows(&rows, 8, 0), (23, -1));
        }
        // An equivalence has depth 3.
        for kind in [EQUIVALENT, EXCLUSIVE] {
            let mut rows = vec![P, [kind, 0, 0, 0]];
            rows.extend((1..62).map(|row| [IMPLIES, row, 0, 0]));
            self.expect("depth 64", &Asked::of_last(&rows), (0, 0));
            rows.push([OR, 62, 0, 0]);
            self.expect("depth 65", &Asked::of_last(&rows), (23, -1));
            // As deep in the wide table, but two nots less in the plain one.
            rows[62] = [NOT, 61, 0, 0];
            rows[63] = [NOT, 62, 0, 0];
            self.expect("depth 64 with nots", &Asked::of_last(&rows), (0, 0));
        }
        let mut nots = vec![P];
        nots.extend((0..63).map(|row| [NOT, row, 0, 0]));
        self.expect("63 nots", &Asked::of_last(&nots), (0, 0));
        nots.push([NOT, 63, 0, 0]);
        self.expect("64 nots", &Asked::of_last(&nots), (8, 64));
    }

    /// Each refusal by itself and each two of them: the earlier one in the paper's order comes.
    fn refusals(&mut self) {
        const ORDER: [(u64, i64); 8] = [(2, 0), (2, -1), (5, -1), (6, -1), (7, 3), (8, 16), (6, -1), (23, -1)];
        for (first, expected) in ORDER.into_iter().enumerate() {
            for (second, later) in ORDER.into_iter().enumerate().skip(first) {
                let what = format!("refusals {expected:?} and {later:?} of wide rows");
                self.expect(&what, &faulty(|fault| fault == first || fault == second), expected);
            }
        }
        for length in [0, 1, FULL - 1, FULL, FULL + 1, 9216] {
            for count in [0, 1, 3, 4, 1024, 1025, 1 << 32, 1 << 62, usize::MAX] {
                let asked = Asked { wide_count: count, length, ..faulty(|_| false) };
                self.put(&format!("plain table of {length}, {count} wide rows"), &asked);
            }
        }
        for number in [i32::MIN, -1, 0, 1, 2, 3, 4, 9999, 10_000, i32::MAX] {
            let right = faulty(|_| false);
            self.put(&format!("wide root {number}"), &Asked { root: number, ..right.clone() });
            self.put(&format!("wide least value {number}"), &Asked { least: number, ..right });
        }
        // One row of each kind with each column otherwise.
        for kind in -1..14 {
            for [a, b, c] in [[0, 0, 0], [1, 2, 0], [2, 2, 0], [0, 2, 0], [2, 0, 1], [1, 0, -1], [-1, 0, 0], [4, 1, 0]]
            {
                let rows = [[LITERAL, 0, ON_I, 0], P, Q, [BIG_AND, 0, 0, 0], [kind, a, b, c]];
                self.put(&format!("wide row {:?}", rows[4]), &Asked::of_rows(&rows, 1, 0));
            }
        }
    }
}

/// A wide schema with these of the eight refusals.
fn faulty(fault: impl Fn(usize) -> bool) -> Asked {
    let mut rows: Vec<Row> = vec![[LITERAL, 0, ON_I, 0], [BIG_AND, 0, 1, 0], [NOT, 1, 0, 0]];
    rows.push(if fault(4) { [NOT, 1, 0, 1] } else { [FALSE, 0, 0, 0] });
    rows.push([FALSE, 0, 0, 0]);
    if fault(5) {
        // Row 16 has size 8,191.
        rows.extend((4..16).map(|row| [IMPLIES, row, row, 0]));
    }
    if fault(7) {
        rows.resize(600, [TRUE, 0, 0, 0]);
    }
    if fault(2) {
        rows.resize(1025, [FALSE, 0, 0, 0]);
    }
    let mut wide = rows.concat();
    if fault(1) {
        wide.pop();
    }
    Asked {
        root: if fault(6) { 0 } else { 2 },
        least: if fault(3) { -1 } else { 3 },
        wide,
        wide_count: rows.len(),
        length: if fault(0) { FULL - 1 } else { FULL },
    }
}

/// Wide rows as they are added, each with its size and depth as a wide and as a plain row, so that few are too large.
struct Builder {
    rows: Vec<Row>,
    facts: Vec<[u64; 3]>,
    bodies: Vec<i32>,
    outers: Vec<i32>,
}

impl Builder {
    /// Adds a row unless it would be too large; the sorts of row it is.
    fn add(&mut self, row: Row, body: bool, outer: bool) {
        let part = |row: i32| self.facts[row as usize];
        let [kind, a, b, _] = row;
        let [size, depth, plain] = match kind {
            TRUE..=NEGATED => [1, 1, 1],
            NOT => [part(a)[0] + 1, part(a)[1] + 1, part(a)[2]],
            BIG_AND | BIG_OR => part(a).map(|fact| fact + 1),
            _ => {
                let (left, right) = (part(a), part(b));
                let plain = if kind < EQUIVALENT { 1 } else { 2 } * (left[2] + right[2]) + 1;
                [left[0] + right[0] + 1, left[1].max(right[1]) + 1, plain]
            }
        };
        if size > 4096 || depth > 60 || plain > 3900 {
            return;
        }
        let number = self.rows.len() as i32;
        self.rows.push(row);
        self.facts.push([size, depth, plain]);
        self.bodies.extend(body.then_some(number));
        self.outers.extend(outer.then_some(number));
    }
}

/// One of the rows, mostly one of the last.
fn recent(rng: &mut Rng, rows: &[i32]) -> i32 {
    let last = if rng.chance(70) { rows.len().min(4) } else { rows.len() };
    rows[rows.len() - 1 - rng.below(last)]
}

/// Any case: wide rows at random, mostly well-formed and whole.
fn any(rng: &mut Rng) -> Asked {
    let mut b = Builder { rows: vec![], facts: vec![], bodies: vec![], outers: vec![] };
    b.add([LITERAL, 0, ON_I, 0], true, false);
    b.add([LITERAL, 1, ON_N, 0], false, true);
    let steps = rng.pick(&[3, 6, 12, 12, 25, 25, 60, 200]);
    let mostly = rng.pick(&[AND, NOT, IMPLIES, EQUIVALENT, EXCLUSIVE]);
    for _ in 0..steps {
        let (symbol, offset, sign) = (rng.range(0, 2), rng.range(-2, 2), rng.range(LITERAL, NEGATED));
        let in_body = rng.chance(50);
        let parts = if in_body { &b.bodies } else { &b.outers };
        let (left, right) = (recent(rng, parts), recent(rng, parts));
        match rng.below(12) {
            0 => b.add([rng.range(TRUE, FALSE), 0, 0, 0], true, true),
            1 => b.add([sign, symbol, ON_I, offset], true, false),
            2 => {
                let base = rng.pick(&[PLAIN, ON_N]);
                b.add([sign, symbol, base, offset], false, true);
            }
            3 | 4 => {
                let body = recent(rng, &b.bodies);
                b.add([rng.range(BIG_AND, BIG_OR), body, rng.range(-1, 2), rng.range(-1, 2)], false, true);
            }
            5 => b.add([NOT, left, 0, 0], in_body, !in_body),
            _ => {
                let kind = if rng.chance(40) { mostly } else { rng.pick(&[AND, OR, IMPLIES, EQUIVALENT, EXCLUSIVE]) };
                let row = if kind == NOT { [NOT, left, 0, 0] } else { [kind, left, right, 0] };
                b.add(row, in_body, !in_body);
            }
        }
    }
    let root = if rng.chance(97) { recent(rng, &b.outers) } else { recent(rng, &b.bodies) };
    let mut asked = Asked::of_rows(&b.rows, root, rng.range(0, 4));
    if rng.chance(20) {
        damage(rng, &mut asked);
    }
    asked
}

fn damage(rng: &mut Rng, asked: &mut Asked) {
    let Asked { root, least, wide, wide_count, length } = asked;
    damage_schema(rng.below(8), rng, [root, least], (wide, wide_count), (length, FULL));
}

/// The largest and slowest, accepted or refused with 23.
pub fn heavy(tally: &mut Tally) {
    for (name, asked) in worst() {
        let seen = of_both(&asked);
        let judge = |seen: Seen| match seen.answer() {
            0 | 23 => Ok(()),
            answer => Err(format!("refused with {answer}")),
        };
        tally.test(name, seen.and_then(judge));
    }
}

/// Wide tables that take long.
pub fn worst() -> Vec<(&'static str, Asked)> {
    let with_nots = |rows: Vec<Row>| {
        let mut rows = rows;
        let from = rows.len() as i32;
        rows.extend((from..1024).map(|row| [NOT, if (row - from) % 50 == 0 { 0 } else { row - 1 }, 0, 0]));
        Asked::of_last(&rows)
    };
    let mut equivalences = vec![P, Q];
    equivalences.extend((0..170).map(|at| [EQUIVALENT + at % 2, at % 2, 1, 0]));
    let mut implications = vec![P, Q];
    implications.extend((2..512).map(|row| [IMPLIES, if row % 50 == 0 { 0 } else { row - 1 }, row % 2, 0]));
    let mut doubling = vec![P];
    doubling.extend((0..5).map(|row| [EXCLUSIVE, row, row, 0]));
    doubling.push([AND, 5, 5, 0]);
    let first: Vec<Row> = doubling.clone();
    while doubling.len() + first.len() <= 190 {
        let from = doubling.len() as i32;
        let moved = |row: &Row| if row[0] >= AND { [row[0], row[1] + from, row[2] + from, 0] } else { *row };
        doubling.extend(first.iter().map(moved));
    }
    let mut nots = vec![P];
    nots.extend((1..1024).map(|row| [NOT, if row % 63 == 0 { 0 } else { row - 1 }, 0, 0]));
    vec![
        ("170 equivalences and exclusive ors, 852 nots", with_nots(equivalences)),
        ("510 implications, 512 nots", with_nots(implications)),
        ("equivalences of size 4,095", Asked::of_last(&doubling)),
        ("1,023 nots in chains of 63", Asked::of_last(&nots)),
        (
            "1,022 equivalences, too many plain rows",
            Asked::of_last(&[vec![P, Q], vec![[EQUIVALENT, 0, 1, 0]; 1022]].concat()),
        ),
    ]
}
