//! Older records tidied (document 02, No. 10).

use crate::calls::{exactly, lent, of_library as library_on, pack, Seen};
use crate::heavy;
use crate::kinds::{Kinds, Run};
use crate::paper::{PROOF, SCHEMA};
use crate::records;
use crate::tally::{fits, Tally};
use std::fs;
use zorambi::entries;
use zorambi_generate::tables::{Tables, Tree, TreeNode};
use zorambi_generate::{case, Input, Rng};
use zorambi_reference::formula::{with_parts, Row, AND, BIG_AND, BIG_OR, FALSE, LITERAL, ON_I, ON_N, OR};
use zorambi_reference::tidy;

/// The library's entry. Results: rows, nodes, members.
pub fn tidy(t: &Tables, proof: &mut [i32], nodes: &mut [i32], members: &mut [i32], results: &mut [i32; 3]) -> u64 {
    entries::tidy(
        &t.schema,
        t.schema_count,
        &t.proof,
        t.proof_count,
        t.root,
        t.least,
        &t.nodes,
        t.node_count,
        &t.members,
        t.member_count,
        proof,
        nodes,
        members,
        results,
    )
}

const FULL: [usize; 3] = [4096, 9216, 8192];

fn of_library(t: &Tables, lengths: [usize; 3]) -> Seen {
    lent(lengths, 0, |[proof, nodes, members], _, results| tidy(&exactly(t), proof, nodes, members, results))
}

fn of_reference(t: &Tables, lengths: [usize; 3]) -> Seen {
    let mut lent = lengths.map(|length| vec![-3; length]);
    let [proof, nodes, members] = &mut lent;
    let found = tidy::tidy(&t.record(), proof, nodes, members);
    let results = [found.rows, found.nodes, found.members].map(|count| count as i32).to_vec();
    Seen { packed: pack(found.answer, found.place, 0), results, tables: lent.to_vec(), ..Seen::default() }
}

/// What both give into tables of these lengths; an error if they differ.
fn into_tables(t: &Tables, lengths: [usize; 3]) -> Result<Seen, String> {
    of_library(t, lengths).agreed(of_reference(t, lengths))
}

/// The same into tables of the full sizes.
pub fn of_both(t: &Tables) -> Result<Seen, String> {
    into_tables(t, FULL)
}

/// The record whose proof was given.
fn tidied(t: &Tables, seen: &Seen) -> Tables {
    let [rows, node_count, member_count] = [0, 1, 2].map(|at| seen.results[at] as usize);
    Tables {
        proof: seen.tables[0][..4 * rows].to_vec(),
        proof_count: rows,
        nodes: seen.tables[1][..9 * node_count].to_vec(),
        node_count,
        members: seen.tables[2][..member_count].to_vec(),
        member_count,
        schema: t.schema.clone(),
        ..*t
    }
}

const KINDS: [&str; 27] = [
    "accepted, nothing to do",
    "accepted, rows folded away",
    "a row folded into a schema row",
    "a row equal only after renumbering",
    "double members removed",
    "a set sorted anew",
    "refused by the present check with 27",
    "copies spread over a tableau, as before after tidying",
    "rows table one number short, 2 at 0",
    "nodes table one number short, 2 at 0",
    "members table one number short, 2 at 0",
    "refused, 2",
    "refused, 5",
    "refused, 6",
    "refused, 7",
    "refused, 8",
    "refused, 9",
    "refused, 10",
    "refused, 11",
    "refused, 12",
    "refused, 13",
    "refused, 14",
    "refused, 15",
    "refused, 16",
    "refused, 17",
    "a refused record with rows written twice",
    "a shipped record",
];

/// Where the kinds of short tables begin, and of refusals by their number, 2, 5 and on.
const SHORT: usize = 8;
const REFUSED: usize = 11;

struct Comparison<'a> {
    tally: &'a mut Tally,
    kinds: Kinds,
}

impl Comparison<'_> {
    fn put(&mut self, what: &str, t: &Tables) -> Option<Tables> {
        let seen = of_both(t);
        self.tally.test(what, seen.clone().map(|_| ()));
        let seen = seen.ok()?;
        let [check, older] = [Input::Check(t.clone()), Input::CheckOlder(t.clone())].map(|input| library_on(&input));
        let [check, older] = [check?, older?];
        if seen.answer() > 0 {
            // The older check's number and place.
            let why = || format!("{:#x}, and the older check {:#x}", seen.packed, older.packed);
            self.tally.test(what, fits(seen.packed == older.packed, why));
            let at = if seen.answer() == 2 { 0 } else { seen.answer() as usize - 4 };
            self.kinds.count(KINDS[REFUSED + at]);
            self.kinds.count_if(check.answer() == 27, "a refused record with rows written twice");
            return None;
        }
        let tidied = tidied(t, &seen);
        self.judge(what, t, &tidied, older.packed);
        self.kinds.count_if(check.answer() == 27, "refused by the present check with 27");
        self.count(what, t, &tidied);
        Some(tidied)
    }

    /// A tidied record is accepted by the present check, with the nodes and links of before; tidying it again changes
    /// nothing.
    fn judge(&mut self, what: &str, t: &Tables, tidied: &Tables, older: u64) {
        let input = Input::Check(tidied.clone());
        let packed = library_on(&input).map(|seen| seen.packed);
        let why = || format!("the check of it answers {packed:x?}, the older check {older:x} before");
        self.tally.test(what, fits(packed == Some(older), why));
        self.tally.compare(&format!("{what}, tidied"), &input);
        let again = of_both(tidied).map(|seen| self::tidied(t, &seen) == *tidied);
        self.tally.test(what, again.and_then(|same| fits(same, || "tidying again changes it".to_string())));
    }

    /// Counts what tidying does; where there are few rows, they are also taken out one by one.
    fn count(&mut self, what: &str, t: &Tables, tidied: &Tables) {
        let kinds = &mut self.kinds;
        let gone = t.proof_count - tidied.proof_count;
        kinds.count(if gone > 0 { "accepted, rows folded away" } else { "accepted, nothing to do" });
        let rows = t.tree().rows;
        let as_written = (t.schema_count..rows.len()).filter(|row| rows[..*row].contains(&rows[*row])).count();
        kinds.count_if(as_written < gone, "a row equal only after renumbering");
        let in_schema = rows[t.schema_count..].iter().any(|row| rows[..t.schema_count].contains(row));
        kinds.count_if(in_schema, "a row folded into a schema row");
        kinds.count_if(tidied.member_count < t.member_count, "double members removed");
        if t.proof_count > 400 {
            return;
        }
        let mut tree = one_by_one(t.tree());
        let falls = |node: &TreeNode| node.set.windows(2).any(|pair| pair[0] > pair[1]);
        kinds.count_if(tree.nodes.iter().any(falls), "a set sorted anew");
        for node in &mut tree.nodes {
            node.set.sort_unstable();
            node.set.dedup();
        }
        let same = tree.tables() == tidied.tree().tables();
        self.tally.test(what, fits(same, || "not as with rows taken out one by one".to_string()));
    }

    /// The record, which has no row twice, with copies of rows spread over it: after tidying it is as before.
    fn spread(&mut self, what: &str, t: &Tables, rng: &mut Rng) {
        let mut tree = t.tree();
        for _ in 0..rng.below(4) {
            unfold_twice(&mut tree, rng);
        }
        let Some(spread) = spread(&tree, rng) else { return };
        let found = self.put(&format!("{what}, spread"), &spread.tables());
        self.tally.test(what, fits(found == Some(tree.tables()), || "not as before the copies".to_string()));
        self.kinds.count("copies spread over a tableau, as before after tidying");
    }
}

/// The first proof row that stands earlier is taken out, until there is none; sets are as they come.
pub(crate) fn one_by_one(mut tree: Tree) -> Tree {
    let repeat = |tree: &Tree| {
        (tree.schema_count..tree.rows.len()).find_map(|row| {
            let first = tree.rows[..row].iter().position(|earlier| *earlier == tree.rows[row])?;
            Some((row, first as i32))
        })
    };
    while let Some((row, first)) = repeat(&tree) {
        tree.rows.remove(row);
        let row = row as i32;
        let renumbered = |number: i32| if number == row { first } else { number - i32::from(number > row) };
        tree.rows.iter_mut().for_each(|row| *row = with_parts(*row, renumbered));
        for node in &mut tree.nodes {
            node.fields[2..5].iter_mut().chain(&mut node.set).for_each(|row| *row = renumbered(*row));
        }
    }
    tree
}

/// Some iteration of ands is unfolded once more before it is unfolded, so that copies of the same rows can meet in a set.
fn unfold_twice(tree: &mut Tree, rng: &mut Rng) {
    let unfolded: Vec<usize> = (0..tree.nodes.len()).filter(|node| tree.nodes[*node].fields[1] == 3).collect();
    if unfolded.is_empty() {
        return;
    }
    let at = rng.pick(&unfolded);
    let first = at as i32;
    tree.nodes.insert(at, tree.nodes[at].clone());
    for node in &mut tree.nodes[at + 1..] {
        node.fields[0] += i32::from(node.fields[0] >= first);
        // What was linked to here is linked to the first of both, whose set is as it was.
        node.fields[5] += i32::from(node.fields[5] > first);
    }
    let TreeNode { fields, set } = &mut tree.nodes[at + 1];
    fields[0] = first;
    set.extend([fields[3], fields[4]]);
    set.sort_unstable();
    set.dedup();
}

/// The tableau with copies of its rows among the proof's, used in place of them here and there. `None` if it becomes too
/// large.
fn spread(tree: &Tree, rng: &mut Rng) -> Option<Tree> {
    let (mut rows, mut copies) = spread_rows(tree, rng);
    // The old row of each new one.
    let mut old = vec![0; rows.len()];
    for (row, numbers) in copies.iter_mut().enumerate() {
        numbers.sort_unstable();
        numbers.iter().for_each(|number| old[*number as usize] = row as i32);
    }
    let mut nodes: Vec<TreeNode> = Vec::new();
    let mut children = vec![0; tree.nodes.len()];
    for node in &tree.nodes {
        let mut fields = node.fields;
        let allowed = match usize::try_from(fields[0]) {
            Err(_) => vec![tree.root],
            Ok(up) => {
                children[up] += 1;
                let parent = &nodes[up];
                [given(&rows, &parent.fields, children[up]), parent.set.clone()].concat()
            }
        };
        let mut set = Vec::new();
        for row in &node.set {
            let of_row: Vec<i32> = allowed.iter().copied().filter(|new| old[*new as usize] == *row).collect();
            let sure = rng.pick(&of_row);
            set.extend(of_row.into_iter().filter(|new| *new == sure || rng.chance(50)));
        }
        set.sort_unstable();
        set.dedup();
        let in_set = |rng: &mut Rng, row: i32| {
            let of_row: Vec<i32> = set.iter().copied().filter(|new| old[*new as usize] == row).collect();
            rng.pick(&of_row)
        };
        if fields[2] >= 0 {
            fields[2] = in_set(rng, fields[2]);
        }
        if fields[1] == 6 {
            fields[3] = in_set(rng, fields[3]);
        } else if fields[3] >= 0 {
            fields[3] = rng.pick(&copies[fields[3] as usize]);
            fields[4] = rng.pick(&copies[fields[4] as usize]);
        }
        nodes.push(TreeNode { fields, set });
    }
    let members: usize = nodes.iter().map(|node| node.set.len()).sum();
    rows.truncate(1025);
    let fits = rows.len() <= 1024 && members <= 8192;
    fits.then_some(Tree { rows, nodes, ..tree.clone() })
}

/// The rows with copies of rows that are there after them; and the numbers of each. Parts of ands and ors are any of
/// their copies, a body is its first. A schema row that stands earlier in the schema is not copied: the copy would be
/// folded into the earlier one.
fn spread_rows(tree: &Tree, rng: &mut Rng) -> (Vec<Row>, Vec<Vec<i32>>) {
    let mut rows = tree.rows[..tree.schema_count].to_vec();
    let mut copies: Vec<Vec<i32>> = (0..tree.schema_count as i32).map(|row| vec![row]).collect();
    let percent = rng.pick(&[5, 20, 50]);
    let copy = |row: Row, copies: &[Vec<i32>], rng: &mut Rng| match row[0] {
        AND | OR => with_parts(row, |part| rng.pick(&copies[part as usize])),
        _ => with_parts(row, |body| copies[body as usize][0]),
    };
    for number in tree.schema_count..=tree.rows.len() {
        while rng.chance(percent) {
            let of = rng.below(copies.len());
            if of < tree.schema_count && tree.rows[..of].contains(&tree.rows[of]) {
                continue;
            }
            let row = copy(tree.rows[of], &copies, rng);
            copies[of].push(rows.len() as i32);
            rows.push(row);
        }
        if let Some(row) = tree.rows.get(number) {
            let row = copy(*row, &copies, rng);
            copies.push(vec![rows.len() as i32]);
            rows.push(row);
        }
    }
    (rows, copies)
}

/// What a node's rule gives its first or second child.
fn given(rows: &[Row], fields: &[i32; 7], child: usize) -> Vec<i32> {
    let [_, rule, on, with, other, ..] = *fields;
    match (rule, child) {
        (0, _) => rows[on as usize][1..3].to_vec(),
        (1, child) => vec![rows[on as usize][child]],
        (3, _) => vec![with, other],
        (4, 1) => vec![with],
        (4, _) => vec![other],
        _ => vec![],
    }
}

pub fn test(tally: &mut Tally, run: &Run) {
    let mut comparison = Comparison { tally, kinds: Kinds::new("tidying", &KINDS) };
    comparison.by_hand();
    comparison.refusals();
    let rng = &mut Rng::new(run.seed);
    for folder in records::folders(run.records) {
        let file = |name: &str| fs::read(folder.join(name)).unwrap_or_default();
        let t = records::tables(&file("schema.txt"), &file("proof.txt"));
        let what = format!("tidying {}", folder.display());
        comparison.put(&what, &t);
        comparison.kinds.count("a shipped record");
        if file("expected").starts_with(b"0 ") && !folder.join("older").is_file() {
            comparison.spread(&what, &t, rng);
        }
    }
    for number in 0..run.count / 10 {
        let Input::Check(t) = case(!run.seed, number).input else { continue };
        let what = format!("tidying, seed {} case {number}", run.seed);
        comparison.put(&what, &t);
        if zorambi_generate::run(&Input::Check(t.clone())).answer() == 0 {
            comparison.spread(&what, &t, rng);
        }
    }
    let Comparison { tally, kinds } = comparison;
    kinds.close(tally);
}

/// The paper's record.
pub(crate) fn paper() -> Tree {
    records::tables(SCHEMA.as_bytes(), PROOF.as_bytes()).tree()
}

/// The paper's record with each refusal of the older check: the answer and its place.
pub(crate) fn faulty() -> Vec<((u64, i64), Tables)> {
    let with = |change: &dyn Fn(&mut Tree)| {
        let mut tree = paper();
        change(&mut tree);
        tree.tables()
    };
    let mut cases = vec![
        ((6, -1), with(&|tree| tree.least = -1)),
        ((7, 8), with(&|tree| tree.rows[8][0] = 8)),
        ((8, 20), with(&|tree| tree.rows.extend((8..20).map(|row| [AND, row, row, 0])))),
        ((6, -1), with(&|tree| tree.root = 0)),
        ((9, 1), with(&|tree| tree.nodes[1].set.reverse())),
        ((10, 2), with(&|tree| tree.nodes[2].fields[0] = 2)),
        ((11, 6), with(&|tree| tree.nodes[6].set = vec![5, 6, 8])),
        ((12, 6), with(&|tree| tree.nodes[6].fields.swap(2, 3))),
        ((13, 5), with(&|tree| tree.nodes[5].fields[5] = 6)),
        ((14, 5), with(&|tree| tree.nodes[5].fields[6] = 2)),
        ((15, 4), with(&|tree| tree.nodes[4].fields[4] = 8)),
        ((16, 5), with(&|tree| tree.nodes[5].set = vec![5])),
        ((17, 4), with(&|tree| tree.nodes.truncate(6))),
    ];
    let mut short = paper().tables();
    short.members.pop();
    cases.push(((2, -1), short));
    let mut many = paper().tables();
    many.proof.resize(4 * 1020, 0);
    many.proof_count = 1020;
    cases.push(((5, -1), many));
    cases
}

impl Comparison<'_> {
    /// The paper's record with rows again, which after tidying is the record; worked out by hand. Its proof rows are 5
    /// to 8.
    fn by_hand(&mut self) {
        // Row 9 is row 6 again, and nodes 4 and 6 use it: there a set is sorted anew.
        let mut first = paper();
        first.rows.push([LITERAL, 0, ON_N, 0]);
        first.nodes[4].fields[4] = 9;
        first.nodes[6] = TreeNode { fields: [4, 6, 9, 8, -1, -1, 0], set: vec![8, 9] };
        // Row 5 is schema row 2 again, so that the others are one on.
        let mut second = paper();
        second.insert_row(5, [BIG_OR, 0, 2, 0], false);
        // Rows 9 and 10 are rows 6 and 8 again, 11 and 12 are 6 and 8 in two ways; both stay as one row.
        let mut third = paper();
        third.rows.extend([third.rows[6], third.rows[8], [AND, 6, 8, 0], [AND, 9, 10, 0]]);
        let mut rest = paper();
        rest.rows.push([AND, 6, 8, 0]);
        // Row 9 is row 7 again. Node 3 is unfolded with it, and once more with row 7: both stand in the sets below.
        let mut fourth = paper();
        fourth.rows.push(fourth.rows[7]);
        let node = TreeNode { fields: [3, 3, 3, 7, 8, -1, 0], set: vec![2, 3, 8, 9] };
        fourth.nodes[3].fields[3] = 9;
        fourth.nodes.insert(4, node);
        fourth.nodes[5] = TreeNode { fields: [4, 4, 2, 5, 6, -1, 0], set: vec![2, 7, 8, 9] };
        fourth.nodes[6] = TreeNode { fields: [5, 8, -1, -1, -1, 1, 1], set: vec![5, 7, 9] };
        fourth.nodes[7].fields[0] = 5;
        let mut twice = fourth.clone();
        twice.rows.pop();
        twice.nodes[3].fields[3] = 7;
        twice.nodes[4].set = vec![2, 3, 7, 8];
        twice.nodes[5].set = vec![2, 7, 8];
        twice.nodes[6].set = vec![5, 7];
        let cases = [
            ("the record itself", paper(), paper()),
            ("row 6 again", first, paper()),
            ("schema row 2 again", second, paper()),
            ("rows equal after renumbering", third, rest),
            ("members that become equal", fourth, twice),
        ];
        for (name, tree, expected) in cases {
            let found = self.put(&format!("tidying, {name}"), &tree.tables());
            let why = || format!("{:?}, expected {expected:?}", found.as_ref().map(Tables::tree));
            self.tally.test(name, fits(found.as_ref() == Some(&expected.tables()), why));
        }
    }

    /// Each refusal of the older check, and with a row again besides; result tables too short.
    fn refusals(&mut self) {
        let mut cases = faulty();
        let again: Vec<_> = cases
            .iter()
            .map(|(expected, t)| {
                let mut t = t.clone();
                t.proof.extend([LITERAL, 0, ON_N, 0]);
                t.proof_count += 1;
                (*expected, t)
            })
            .collect();
        cases.extend(again);
        for (expected, t) in cases {
            let what = format!("tidying what the older check refuses with {expected:?}");
            self.put(&what, &t);
            self.tally.test_answer(&what, &of_library(&t, FULL), expected);
            // Result tables come first.
            self.short(&t);
        }
        self.short(&paper().tables());
    }

    /// Each result table one number short, empty, or longer.
    fn short(&mut self, t: &Tables) {
        for at in 0..3 {
            for length in [0, FULL[at] - 1, FULL[at] + 1] {
                let mut lengths = FULL;
                lengths[at] = length;
                let what = format!("tidying into {lengths:?} numbers");
                let seen = into_tables(t, lengths);
                let expected = length > FULL[at] || seen.as_ref().is_ok_and(|seen| seen.packed == pack(2, 0, 0));
                let judge = |_| fits(expected, || "not refused with 2 at 0".to_string());
                self.tally.test(&what, seen.and_then(judge));
                self.kinds.count_if(length + 1 == FULL[at], KINDS[SHORT + at]);
            }
        }
    }
}

/// The largest and slowest, all accepted by the older check.
pub fn heavy(tally: &mut Tally) {
    for (name, tables) in worst() {
        let seen = of_both(&tables);
        let judge = |seen: Seen| fits(seen.answer() == 0, || format!("refused with {}", seen.answer()));
        tally.test(name, seen.and_then(judge));
    }
}

/// Records that take long.
pub fn worst() -> Vec<(&'static str, Tables)> {
    let mut records = vec![
        ("1,023 rows that are one", one_row()),
        ("1,022 rows in two ways", two_ways()),
        ("89 unfoldings with copies in the sets", copies_in_sets()),
    ];
    records.extend(heavy::none_twice());
    records
}

/// A root of false with further rows, and one node.
fn closed_at_once(rows: Vec<Row>) -> Tables {
    let set = vec![0];
    let nodes = vec![TreeNode { fields: [-1, 5, 0, -1, -1, -1, 0], set }];
    Tree { root: 0, least: 0, rows, schema_count: 1, nodes }.tables()
}

fn one_row() -> Tables {
    let mut rows = vec![[FALSE, 0, 0, 0]];
    rows.resize(1024, [LITERAL, 0, ON_N, 0]);
    closed_at_once(rows)
}

/// Chains of 50 ands, each written twice: with row 1, and with row 2, which is the same.
fn two_ways() -> Tables {
    let mut rows = vec![[FALSE, 0, 0, 0], [LITERAL, 0, ON_N, 0], [LITERAL, 0, ON_N, 0]];
    for at in 0..510 {
        let row = rows.len() as i32;
        for way in [1, 2] {
            rows.push(if at % 50 == 0 { [LITERAL, 1, ON_N, at] } else { [AND, row + way - 3, way, 0] });
        }
    }
    closed_at_once(rows)
}

/// An iteration unfolded again and again, each time with rows of its own, which stay in the sets below.
fn copies_in_sets() -> Tables {
    let mut rows = vec![[FALSE, 0, 0, 0], [LITERAL, 0, ON_I, 0], [BIG_AND, 1, 0, 0], [AND, 0, 2, 0]];
    let mut nodes = vec![TreeNode { fields: [-1, 0, 3, -1, -1, -1, 0], set: vec![3] }];
    let mut set = vec![0, 2];
    for at in 0..89 {
        let with = rows.len() as i32;
        rows.extend([[BIG_AND, 1, 0, 1], [LITERAL, 0, ON_N, 0]]);
        nodes.push(TreeNode { fields: [at, 3, 2, with, with + 1, -1, 0], set: set.clone() });
        set.extend([with, with + 1]);
    }
    nodes.push(TreeNode { fields: [89, 5, 0, -1, -1, -1, 0], set: vec![0] });
    Tree { root: 3, least: 0, rows, schema_count: 4, nodes }.tables()
}
