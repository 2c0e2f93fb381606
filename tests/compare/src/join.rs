//! Two records joined (document 02, No. 11).

use crate::calls::{exactly, lent, of_library as library_on, pack, Seen};
use crate::heavy::{self, Part};
use crate::kinds::{Kinds, Run};
use crate::records;
use crate::tally::{fits, Tally};
use crate::tidy::{self, faulty, one_by_one, paper};
use std::collections::BTreeMap;
use std::fs;
use zorambi::entries;
use zorambi_generate::tables::{Tables, Tree, TreeNode};
use zorambi_generate::{case, Input, Rng};
use zorambi_reference::formula::{depth, size, with_parts, Row, AND, BIG_AND, FALSE, LITERAL, NEGATED, ON_N, OR, TRUE};
use zorambi_reference::join;

/// The result tables: schema, proof, nodes, members.
pub type Out = [Vec<i32>; 4];

pub const FULL: [usize; 4] = [4096, 4096, 9216, 8192];

/// The library's entry. Results: root, least, schema rows, proof rows, nodes, members.
pub fn of_entry([a, b]: [&Tables; 2], [schema, proof, nodes, members]: [&mut [i32]; 4], results: &mut [i32; 6]) -> u64 {
    entries::join(
        &a.schema,
        a.schema_count,
        &a.proof,
        a.proof_count,
        a.root,
        a.least,
        &a.nodes,
        a.node_count,
        &a.members,
        a.member_count,
        &b.schema,
        b.schema_count,
        &b.proof,
        b.proof_count,
        b.root,
        b.least,
        &b.nodes,
        b.node_count,
        &b.members,
        b.member_count,
        schema,
        proof,
        nodes,
        members,
        results,
    )
}

/// The other implementation's.
pub fn of_other([a, b]: [&Tables; 2], [schema, proof, nodes, members]: &mut Out) -> join::Joined {
    join::join(&a.record(), &b.record(), schema, proof, nodes, members)
}

fn of_library(pair: [&Tables; 2], lengths: [usize; 4]) -> Seen {
    let [a, b] = pair.map(exactly);
    lent(lengths, 0, |tables, _, results| of_entry([&a, &b], tables, results))
}

fn of_reference(pair: [&Tables; 2], lengths: [usize; 4]) -> Seen {
    let mut lent = lengths.map(|length| vec![-3; length]);
    let found = of_other(pair, &mut lent);
    let counts = [found.schema_rows, found.proof_rows, found.nodes, found.members].map(|count| count as i32);
    let results = [&[found.root, found.least], &counts[..]].concat();
    Seen { packed: pack(found.answer, found.place, 0), results, tables: lent.to_vec(), ..Seen::default() }
}

/// What both give into tables of these lengths; an error if they differ.
fn into_tables(pair: [&Tables; 2], lengths: [usize; 4]) -> Result<Seen, String> {
    of_library(pair, lengths).agreed(of_reference(pair, lengths))
}

/// The same into tables of the full sizes.
pub fn of_both(pair: [&Tables; 2]) -> Result<Seen, String> {
    into_tables(pair, FULL)
}

/// The record that was given.
fn joined(seen: &Seen) -> Tables {
    let [root, least, ..] = seen.results[..] else { panic!("no results") };
    let [schema_count, proof_count, node_count, member_count] = [2, 3, 4, 5].map(|at| seen.results[at] as usize);
    let table = |at: usize, numbers: usize| seen.tables[at][..numbers].to_vec();
    Tables {
        root,
        least,
        schema: table(0, 4 * schema_count),
        schema_count,
        proof: table(1, 4 * proof_count),
        proof_count,
        nodes: table(2, 9 * node_count),
        node_count,
        members: table(3, member_count),
        member_count,
    }
}

/// The join before it is tidied: rows and nodes of both, in their places.
fn untidied(a: &Tree, b: &Tree) -> Tree {
    let root = a.schema_count + b.schema_count;
    let proof_rows = a.rows.len() - a.schema_count;
    let [of_a, of_b] = [(a, 0, root + 1), (b, a.schema_count, root + 1 + proof_rows)].map(|(tree, schema, proof)| {
        move |row: i32| match row as usize {
            _ if row < 0 => row,
            at if at < tree.schema_count => row + schema as i32,
            at => (at - tree.schema_count + proof) as i32,
        }
    });
    let schema = a.rows[..a.schema_count].iter().map(|row| with_parts(*row, of_a));
    let schema = schema.chain(b.rows[..b.schema_count].iter().map(|row| with_parts(*row, of_b)));
    let or = [OR, of_a(a.root), of_b(b.root), 0];
    let proof = a.rows[a.schema_count..].iter().map(|row| with_parts(*row, of_a));
    let proof = proof.chain(b.rows[b.schema_count..].iter().map(|row| with_parts(*row, of_b)));
    let rows = schema.chain([or]).chain(proof).collect();
    let mut nodes = vec![TreeNode { fields: [-1, 1, root as i32, -1, -1, -1, 0], set: vec![root as i32] }];
    for tree in [a, b] {
        let further = nodes.len() as i32;
        for TreeNode { fields: [up, rule, on, with, other, to, by], set } in &tree.nodes {
            let row = |row: i32| if std::ptr::eq(tree, a) { of_a(row) } else { of_b(row) };
            let up = if *up < 0 { 0 } else { up + further };
            let to = if *to < 0 { -1 } else { to + further };
            let fields = [up, *rule, row(*on), row(*with), row(*other), to, *by];
            nodes.push(TreeNode { fields, set: set.iter().map(|member| row(*member)).collect() });
        }
    }
    Tree { root: root as i32, least: a.least, rows, schema_count: root + 1, nodes }
}

const KINDS: [&str; 44] = [
    "accepted",
    "accepted, rows folded away",
    "accepted, no row folded away",
    "a first's row that is a second's schema row",
    "a second's row that is a first's schema row",
    "a second's row that is a first's proof row",
    "a row equal only after renumbering",
    "a set sorted anew",
    "links in both",
    "a shipped record",
    "a record with itself",
    "least values differ, 28",
    "1,024 rows, more before tidying",
    "1,025 rows, more before tidying, 29",
    "1,024 nodes",
    "1,025 nodes, 29",
    "8,192 members",
    "8,193 members, 29",
    "size 4,096",
    "size 4,097, 29",
    "depth 64",
    "depth 65, 29",
    "over every limit, 29",
    "least values differ and over a limit, 28",
    "schema table one number short, 2 at 0",
    "proof table one number short, 2 at 0",
    "nodes table one number short, 2 at 0",
    "members table one number short, 2 at 0",
    "a faulty first",
    "a faulty second",
    "both faulty",
    "faulty, and least values differ",
    "refused, 2",
    "refused, 5",
    "refused, 6",
    "refused, 7",
    "refused, 8",
    "refused, 9",
    "refused, 10",
    "refused, 11",
    "refused, 12",
    "refused, 13 to 16",
    "refused, 17",
    "refused, 27",
];

/// Where the kinds of short tables begin, and of refusals by their number.
const SHORT: usize = 24;
const REFUSED: usize = 32;

fn refused_kind(answer: u64) -> &'static str {
    let at = match answer {
        2 => 0,
        5..=12 => answer as usize - 4,
        13..=16 => 9,
        17 => 10,
        _ => 11,
    };
    KINDS[REFUSED + at]
}

struct Comparison<'a> {
    tally: &'a mut Tally,
    kinds: Kinds,
}

impl Comparison<'_> {
    /// One join: both implementations, and what follows from the check of each record and from 02.
    fn put(&mut self, what: &str, pair: [&Tables; 2]) -> Option<Seen> {
        let seen = of_both(pair);
        self.tally.test(what, seen.clone().map(|_| ()));
        let seen = seen.ok()?;
        let [a, b] = pair.map(|t| library_on(&Input::Check(t.clone())));
        let [a, b] = [a?, b?];
        let leasts = pair[0].least == pair[1].least;
        let faulty = [&a, &b].map(|check| check.answer() > 0);
        if faulty != [false; 2] {
            let first = if faulty[0] { &a } else { &b };
            self.tally.test(
                what,
                fits(seen.packed == first.packed, || format!("not {:#x} but {:#x}", first.packed, seen.packed)),
            );
            let kind = ["a faulty second", "a faulty first", "both faulty"];
            self.kinds.count(kind[usize::from(faulty[0]) + usize::from(faulty[0] && faulty[1])]);
            self.kinds.count_if(!leasts, "faulty, and least values differ");
            self.kinds.count(refused_kind(first.answer()));
        } else if !leasts {
            self.tally.test(what, fits(seen.packed == pack(28, -1, 0), || format!("not 28 but {:#x}", seen.packed)));
            self.kinds.count("least values differ, 28");
        } else {
            self.judge(what, pair, [&a, &b], &seen);
        }
        Some(seen)
    }

    /// Two accepted records of one least value: the join is what tidying by other means makes of both, or it passes a
    /// limit.
    fn judge(&mut self, what: &str, pair: [&Tables; 2], checks: [&Seen; 2], seen: &Seen) {
        let [a, b] = pair;
        let [tree_a, tree_b] = pair.map(Tables::tree);
        let before = untidied(&tree_a, &tree_b);
        let mut tidied = before.clone();
        tidied.fold_repeats();
        let expected = tidied.tables();
        let of_root = |of: fn(&[i32], usize, i32) -> Option<u64>| {
            pair.map(|t| of(&t.schema, t.schema_count, t.root).unwrap_or_default())
        };
        let [sizes, depths] = [of_root(size), of_root(depth)];
        let within = expected.schema_count + expected.proof_count <= 1024
            && a.node_count + b.node_count < 1024
            && a.member_count + b.member_count < 8192
            && sizes[0] + sizes[1] < 4096
            && depths[0].max(depths[1]) < 64;
        if !within {
            self.tally.test(what, fits(seen.packed == pack(29, -1, 0), || format!("not 29 but {:#x}", seen.packed)));
            return;
        }
        let found = (seen.answer() == 0).then(|| joined(seen));
        self.tally.test(what, fits(found.as_ref() == Some(&expected), || "not as tidied by other means".to_string()));
        let Some(found) = found else { return };
        // The check accepts it, with the nodes of both and one more, and the links of both; and it is tidy.
        let input = Input::Check(found.clone());
        let nodes = 1 + a.node_count + b.node_count;
        let links = (checks[0].links() + checks[1].links()) as usize;
        let packed = library_on(&input).map(|seen| seen.packed);
        self.tally.test(
            what,
            fits(packed == Some(pack(0, 0, nodes * 8192 + links)), || format!("the check of it answers {packed:x?}")),
        );
        self.tally.compare(&format!("{what}, joined"), &input);
        let again = tidy::of_both(&found).map(|seen| seen.tables[0][..found.proof.len()] == found.proof);
        self.tally.test(what, again.and_then(|same| fits(same, || "tidying changes it".to_string())));
        self.count(&before, [a, b], &found);
        self.kinds.count_if(checks.iter().all(|check| check.links() > 0), "links in both");
    }

    /// Counts what tidying does in a join.
    fn count(&mut self, before: &Tree, [a, b]: [&Tables; 2], found: &Tables) {
        let kinds = &mut self.kinds;
        kinds.count("accepted");
        let gone = a.proof_count + b.proof_count - found.proof_count;
        kinds.count(if gone > 0 { "accepted, rows folded away" } else { "accepted, no row folded away" });
        let (schema, proof) = before.rows.split_at(before.schema_count);
        let (of_a, of_b) = proof.split_at(a.proof_count);
        let shared = |rows: &[Row], others: &[Row]| rows.iter().any(|row| others.contains(row));
        kinds.count_if(shared(of_a, &schema[a.schema_count..]), "a first's row that is a second's schema row");
        kinds.count_if(shared(of_b, &schema[..a.schema_count]), "a second's row that is a first's schema row");
        kinds.count_if(shared(of_b, of_a), "a second's row that is a first's proof row");
        if proof.len() > 200 {
            return;
        }
        let repeats = proof.iter().enumerate().filter(|(at, row)| schema.contains(row) || proof[..*at].contains(row));
        kinds.count_if(repeats.count() < gone, "a row equal only after renumbering");
        let falls = |node: &TreeNode| node.set.windows(2).any(|pair| pair[0] > pair[1]);
        kinds.count_if(one_by_one(before.clone()).nodes.iter().any(falls), "a set sorted anew");
    }

    /// The same with the answer that is expected and its kind, if it has one.
    fn expect(&mut self, what: &str, pair: [&Tables; 2], expected: (u64, i64), kind: Option<&'static str>) {
        let seen = self.put(what, pair).unwrap_or_default();
        self.tally.test_answer(what, &seen, expected);
        if let Some(kind) = kind {
            self.kinds.count(kind);
        }
    }

    /// Each result table one number short, empty, or longer.
    fn short(&mut self, pair: [&Tables; 2]) {
        for at in 0..4 {
            for length in [0, FULL[at] - 1, FULL[at] + 1] {
                let mut lengths = FULL;
                lengths[at] = length;
                let seen = into_tables(pair, lengths);
                let is_short = |seen: Seen| {
                    fits(length > FULL[at] || seen.packed == pack(2, 0, 0), || {
                        format!("{:#x}, not 2 at 0", seen.packed)
                    })
                };
                self.tally.test(&format!("joining into {lengths:?} numbers"), seen.and_then(is_short));
                self.kinds.count_if(length + 1 == FULL[at], KINDS[SHORT + at]);
            }
        }
    }
}

pub fn test(tally: &mut Tally, run: &Run) {
    let mut comparison = Comparison { tally, kinds: Kinds::new("joining", &KINDS) };
    comparison.by_hand();
    comparison.refusals();
    comparison.limits();
    let rng = &mut Rng::new(run.seed);
    comparison.shipped(run, rng);
    comparison.generated(run, rng);
    let Comparison { tally, kinds } = comparison;
    kinds.close(tally);
}

/// False, closed at once, with further rows.
fn no(least: i32, schema: &[Row], proof: &[Row]) -> Tree {
    let rows = [&[[FALSE, 0, 0, 0]], schema, proof].concat();
    let nodes = vec![TreeNode { fields: [-1, 5, 0, -1, -1, -1, 0], set: vec![0] }];
    Tree { root: 0, least, rows, schema_count: 1 + schema.len(), nodes }
}

/// p and not p, which clash.
fn clash() -> Tree {
    let rows = vec![[LITERAL, 0, ON_N, 0], [NEGATED, 0, ON_N, 0], [AND, 0, 1, 0]];
    let nodes = vec![
        TreeNode { fields: [-1, 0, 2, -1, -1, -1, 0], set: vec![2] },
        TreeNode { fields: [0, 6, 0, 1, -1, -1, 0], set: vec![0, 1] },
    ];
    Tree { root: 2, least: 0, rows, schema_count: 3, nodes }
}

/// An and of false with ors of parts, closed after one step. Part k up to 10 has size 2 ^ (k + 1) - 1, part 11 is an
/// iteration of size 2.
fn large(parts: &[i32]) -> Tree {
    let mut rows = vec![[FALSE, 0, 0, 0], [TRUE, 0, 0, 0]];
    rows.extend((1..11).map(|row| [OR, row, row, 0]));
    rows.push([BIG_AND, 1, 0, 0]);
    let mut row = 1 + parts[0];
    for part in &parts[1..] {
        rows.push([OR, row, 1 + part, 0]);
        row = rows.len() as i32 - 1;
    }
    rows.push([AND, 0, row, 0]);
    let root = rows.len() as i32 - 1;
    let nodes = vec![
        TreeNode { fields: [-1, 0, root, -1, -1, -1, 0], set: vec![root] },
        TreeNode { fields: [0, 5, 0, -1, -1, -1, 0], set: vec![0] },
    ];
    Tree { root, least: 0, schema_count: rows.len(), rows, nodes }
}

/// Literals on n with offsets from this one on.
fn literals(from: i32, count: i32) -> Vec<Row> {
    (from..from + count).map(|offset| [LITERAL, 0, ON_N, offset]).collect()
}

impl Comparison<'_> {
    /// Joins worked out by hand.
    fn by_hand(&mut self) {
        // False or the record: its rows are one on, and the or is row 6.
        let set = |fields: [i32; 7], set: &[i32]| TreeNode { fields, set: set.to_vec() };
        let first = Tree {
            root: 6,
            least: 1,
            rows: vec![
                [1, 0, 0, 0],
                [2, 0, 2, 0],
                [3, 0, 2, 0],
                [7, 1, 2, 0],
                [6, 2, 2, 0],
                [4, 3, 4, 0],
                [5, 0, 5, 0],
                [7, 1, 2, 1],
                [2, 0, 1, 0],
                [6, 2, 2, 1],
                [3, 0, 1, 0],
            ],
            schema_count: 7,
            nodes: vec![
                set([-1, 1, 6, -1, -1, -1, 0], &[6]),
                set([0, 5, 0, -1, -1, -1, 0], &[0]),
                set([0, 0, 5, -1, -1, -1, 0], &[5]),
                set([2, 2, -1, -1, -1, -1, 0], &[3, 4]),
                set([3, 7, 3, -1, -1, -1, 0], &[3, 4]),
                set([3, 3, 4, 9, 10, -1, 0], &[3, 4]),
                set([5, 4, 3, 7, 8, -1, 0], &[3, 9, 10]),
                set([6, 8, -1, -1, -1, 3, 1], &[7, 9]),
                set([6, 6, 8, 10, -1, -1, 0], &[8, 10]),
            ],
        };
        // False with p, not p, both, and false or both; then p and not p. All are schema rows of the join, the last the or.
        let proof = [[LITERAL, 0, ON_N, 0], [NEGATED, 0, ON_N, 0], [AND, 1, 2, 0], [OR, 0, 3, 0]];
        let second = Tree {
            root: 4,
            least: 0,
            rows: vec![[1, 0, 0, 0], [2, 0, 1, 0], [3, 0, 1, 0], [4, 1, 2, 0], [5, 0, 3, 0]],
            schema_count: 5,
            nodes: vec![
                set([-1, 1, 4, -1, -1, -1, 0], &[4]),
                set([0, 5, 0, -1, -1, -1, 0], &[0]),
                set([0, 0, 3, -1, -1, -1, 0], &[3]),
                set([2, 6, 1, 2, -1, -1, 0], &[1, 2]),
            ],
        };
        // The other way round the or is of row 2 and false, row 3, and the first's true stays a row of its own.
        let third = Tree {
            root: 4,
            least: 0,
            rows: vec![[2, 0, 1, 0], [3, 0, 1, 0], [4, 0, 1, 0], [1, 0, 0, 0], [5, 2, 3, 0], [5, 3, 2, 0]],
            schema_count: 5,
            nodes: vec![
                set([-1, 1, 4, -1, -1, -1, 0], &[4]),
                set([0, 0, 2, -1, -1, -1, 0], &[2]),
                set([1, 6, 0, 1, -1, -1, 0], &[0, 1]),
                set([0, 5, 3, -1, -1, -1, 0], &[3]),
            ],
        };
        let cases = [
            ("false or the record", no(1, &[], &[]), paper(), first),
            ("false or what clashes", no(0, &[], &proof), clash(), second),
            ("what clashes or false", clash(), no(0, &[], &proof), third),
        ];
        for (name, a, b, expected) in cases {
            let seen = self.put(&format!("joining, {name}"), [&a.tables(), &b.tables()]);
            let found = seen.map(|seen| joined(&seen));
            let why = || format!("{:?}, expected {expected:?}", found.as_ref().map(Tables::tree));
            self.tally.test(name, fits(found.as_ref() == Some(&expected.tables()), why));
        }
        let record = paper().tables();
        self.expect("joining, the record or itself", [&record, &record], (0, 0), Some("a record with itself"));
        self.short([&record, &record]);
    }

    /// Faulty records on either side and on both.
    fn refusals(&mut self) {
        let good = paper().tables();
        let other = no(2, &[], &[]).tables();
        let mut cases = faulty();
        // The check's own refusal: schema row 0 and proof row 5 again, as rows 9 and 10.
        for row in [0, 5] {
            let mut tree = paper();
            tree.rows.push(tree.rows[row]);
            cases.push(((27, 9), tree.tables()));
        }
        // A table that is one number shorter than its count says.
        for at in 0..4 {
            let mut t = good.clone();
            [&mut t.schema, &mut t.proof, &mut t.nodes, &mut t.members][at].pop();
            cases.push(((2, -1), t));
        }
        for count in [usize::MAX, usize::MAX / 4 + 1, 1 << 62] {
            cases.push(((2, -1), Tables { proof_count: count, ..good.clone() }));
            cases.push(((2, -1), Tables { member_count: count, ..good.clone() }));
        }
        for (at, (expected, t)) in cases.iter().enumerate() {
            let what = format!("joining what the check refuses with {expected:?}");
            self.expect(&what, [t, &good], *expected, None);
            self.expect(&what, [&good, t], *expected, None);
            self.expect(&what, [&other, t], *expected, None);
            let next = &cases[(at + 1) % cases.len()].1;
            self.expect(&what, [t, next], *expected, None);
            self.expect(&what, [t, t], *expected, None);
        }
        // Result tables come first.
        let [a, b] = [&cases[1].1, &cases[4].1];
        [[a, &good], [&good, a], [a, b], [&good, &other]].into_iter().for_each(|pair| self.short(pair));
    }

    /// Joins at the limits, and just over.
    fn limits(&mut self) {
        // Three schema rows, and rows that both have.
        let rows = |from: i32, count: i32| no(0, &[], &literals(from, count));
        let [half, tables] = [rows(0, 1000), rows(0, 1021)].map(|tree| tree.tables());
        let at = Some("1,024 rows, more before tidying");
        let over = Some("1,025 rows, more before tidying, 29");
        self.expect("1,021 rows that both have", [&tables, &tables], (0, 0), at);
        self.expect("1,000 rows and 1,000", [&half, &rows(21, 1000).tables()], (0, 0), at);
        self.expect("1,000 rows and 1,000", [&half, &rows(22, 1000).tables()], (29, -1), over);
        self.expect("1,021 rows and another", [&tables, &rows(1021, 1).tables()], (29, -1), over);
        self.expect("1,021 rows and another", [&rows(1021, 1).tables(), &tables], (29, -1), over);
        self.expect("1,021 rows and one of them", [&rows(1020, 1).tables(), &tables], (0, 0), at);
        self.short([&half, &rows(22, 1000).tables()]);
        // Schema rows alone, which stay although they repeat.
        let schema = |count: usize| no(0, &vec![[TRUE, 0, 0, 0]; count - 1], &[]).tables();
        for (first, second) in [(1022, 1), (1, 1022), (500, 523)] {
            self.expect("1,024 schema rows", [&schema(first), &schema(second)], (0, 0), None);
            self.expect("1,025 schema rows", [&schema(first + 1), &schema(second)], (29, -1), None);
        }
        self.expect("2,049 schema rows", [&schema(1024), &schema(1024)], (29, -1), None);
        let differs = Tables { least: 1, ..schema(1024) };
        let both = Some("least values differ and over a limit, 28");
        self.expect("2,049 schema rows, least values", [&schema(1024), &differs], (28, -1), both);
        // Proof rows that are the other's schema rows.
        let [as_schema, as_proof] = [no(0, &literals(0, 1021), &[]), no(0, &[], &literals(0, 1021))];
        for pair in [[&as_schema, &as_proof], [&as_proof, &as_schema]] {
            self.expect("1,021 schema rows of the other", pair.map(Tree::tables).each_ref(), (0, 0), at);
        }

        let [nodes_511, nodes_512] = [heavy::splits(511, 1), heavy::splits(512, 2)];
        self.expect("511 nodes and 512", [&nodes_511, &nodes_512], (0, 0), Some("1,024 nodes"));
        self.expect("512 nodes and 511", [&nodes_512, &nodes_511], (0, 0), Some("1,024 nodes"));
        self.expect("512 nodes and 512", [&nodes_512, &nodes_512], (29, -1), Some("1,025 nodes, 29"));
        let [members_4095, members_4096, few_nodes] =
            [heavy::splits(455, 9), heavy::splits(512, 8), heavy::splits(256, 16)];
        self.expect("4,096 members and 4,095", [&members_4096, &members_4095], (0, 0), Some("8,192 members"));
        self.expect("4,095 members and 4,096", [&members_4095, &few_nodes], (0, 0), Some("8,192 members"));
        self.expect("4,096 members and 4,096", [&members_4096, &few_nodes], (29, -1), Some("8,193 members, 29"));

        let whole = large(&[10]).tables();
        for (parts, expected, kind) in [
            (&[9, 8, 7, 6, 5, 4, 3, 2, 1][..], (0, 0), None),
            (&[9, 8, 7, 6, 5, 4, 3, 2, 11, 0], (0, 0), Some("size 4,096")),
            (&[9, 8, 7, 6, 5, 4, 3, 2, 1, 0], (29, -1), Some("size 4,097, 29")),
        ] {
            let part = large(parts).tables();
            self.expect("sizes of the or", [&whole, &part], expected, kind);
            self.expect("sizes of the or", [&part, &whole], expected, kind);
        }
        let small = no(0, &[], &[]).tables();
        for (parts, expected, kind) in [(62, (0, 0), "depth 64"), (63, (29, -1), "depth 65, 29")] {
            let deep = large(&vec![0; parts]).tables();
            self.expect("depths of the or", [&deep, &small], expected, Some(kind));
            self.expect("depths of the or", [&small, &deep], expected, Some(kind));
        }
        let (_, largest) = heavy::tableaux().swap_remove(0);
        self.expect("two of the largest records", [&largest, &largest], (29, -1), Some("over every limit, 29"));
        self.short([&largest, &largest]);
    }

    /// Each shipped record with the one before and with one at random.
    fn shipped(&mut self, run: &Run, rng: &mut Rng) {
        let file = |folder: &std::path::Path, name: &str| fs::read(folder.join(name)).unwrap_or_default();
        let found: Vec<_> = records::folders(run.records)
            .into_iter()
            .map(|folder| (records::tables(&file(&folder, "schema.txt"), &file(&folder, "proof.txt")), folder))
            .collect();
        for (at, (second, folder)) in found.iter().enumerate() {
            let others: Vec<usize> = (0..found.len()).filter(|other| found[*other].0.least == second.least).collect();
            for other in [at.saturating_sub(1), rng.pick(&others), rng.pick(&others)] {
                let (first, other) = &found[other];
                self.put(&format!("joining {} and {}", other.display(), folder.display()), [first, second]);
                self.kinds.count("a shipped record");
            }
        }
    }

    /// Generated records: each accepted one with an earlier one of its least value and with one of any other, each
    /// faulty one with accepted and faulty ones.
    fn generated(&mut self, run: &Run, rng: &mut Rng) {
        let mut accepted: BTreeMap<i32, Vec<Tables>> = BTreeMap::from([(1, vec![paper().tables()])]);
        let mut faulty = faulty().swap_remove(0).1;
        for number in 0..run.count / 10 {
            let Input::Check(t) = case(run.seed.rotate_left(32), number).input else { continue };
            let what = format!("joining, seed {} case {number}", run.seed);
            let leasts: Vec<i32> = accepted.keys().copied().collect();
            let any = &accepted[&rng.pick(&leasts)];
            let any = &any[rng.below(any.len())];
            if zorambi_generate::run(&Input::Check(t.clone())).answer() > 0 {
                let pair = if rng.chance(50) { [&t, any] } else { [any, &t] };
                self.put(&what, pair);
                if rng.chance(25) {
                    self.put(&what, [&t, &faulty]);
                }
                faulty = t;
                continue;
            }
            if rng.chance(30) {
                self.put(&what, [&t, any]);
            }
            if let Some(same) = accepted.get(&t.least) {
                let other = &same[rng.below(same.len())];
                let pair = if rng.chance(50) { [&t, other] } else { [other, &t] };
                self.put(&what, pair);
            }
            if rng.chance(10) {
                self.put(&what, [&t, &t]);
            }
            let kept = accepted.entry(t.least).or_default();
            if kept.len() < 30 {
                kept.push(t);
            } else {
                let at = rng.below(kept.len());
                kept[at] = t;
            }
        }
    }
}

/// The largest and slowest.
pub fn heavy(tally: &mut Tally) {
    for (name, pair) in worst() {
        let seen = of_both(pair.each_ref());
        let over = name.starts_with("over");
        let judge = |seen: &Seen| {
            let expected = if over { 29 } else { 0 };
            fits(seen.answer() == expected, || format!("answer {}, expected {expected}", seen.answer()))
        };
        tally.test(name, seen.clone().and_then(|seen| judge(&seen)));
        if let Some(seen) = seen.ok().filter(|seen| seen.answer() == 0) {
            tally.compare(name, &Input::Check(joined(&seen)));
        }
    }
}

/// Records that take long to join. One that passes a limit says so.
pub fn worst() -> Vec<(&'static str, [Tables; 2])> {
    let rows = no(0, &[], &literals(0, 1021)).tables();
    let (_, largest) = heavy::tableaux().swap_remove(0);
    vec![
        ("1,021 proof rows that both have", [rows.clone(), rows]),
        ("1,020 proof rows, equal after renumbering", [chains(0).tables(), chains(1).tables()]),
        ("968 nodes, 8,192 members", [heavy::splits(512, 8), heavy::splits(455, 9)]),
        ("480 links of 8 small rows", [heavy::links(6, 240, Part::None), heavy::links(6, 240, Part::None)]),
        ("over each limit: the largest record twice", [largest.clone(), largest]),
    ]
}

/// False, and chains of 50 ands over two literals, as many as there is room for; `more` schema rows before them.
fn chains(more: usize) -> Tree {
    let schema = vec![[TRUE, 0, 0, 0]; more];
    let start = 1 + more as i32;
    let mut proof: Vec<Row> = Vec::new();
    for at in 0..1020 {
        let row = start + at;
        proof.push(if at % 51 == 0 { [LITERAL, 1, ON_N, at] } else { [AND, row - 1, start, 0] });
    }
    no(0, &schema, &proof)
}
