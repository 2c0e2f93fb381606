//! All small schemata (document 02, No. 14): the list of each length, tables that are not on it, and what the check and the
//! model check say of each schema with tiny tableaux and models.

use crate::calls::{exact, lent, pack, Seen};
use crate::kinds::{Kinds, Run};
use crate::tally::{fits, Tally};
use zorambi::entries;
use zorambi_generate::models::ModelTables;
use zorambi_generate::pool::Pool;
use zorambi_generate::prover::grow;
use zorambi_generate::schemata::Schema;
use zorambi_generate::tables::{Tree, TreeNode};
use zorambi_generate::{run as answer_of, Input, Rng};
use zorambi_reference::find::find_model;
use zorambi_reference::formula::{Row, AND, BIG_AND, BIG_OR, FALSE, LITERAL, NEGATED, ON_I, ON_N, OR, PLAIN, TRUE};
use zorambi_reference::{small, Verdict};

/// How many tables there are of each length.
const COUNTS: [usize; 3] = [14, 340, 10_384];

/// The library on a table, with a result table of this length.
pub fn of_library(table: &[i32], rows: usize, length: usize) -> Seen {
    lent([length], 0, |[next], _, _: &mut [i32; 0]| entries::next_small(&exact(table), rows, next))
}

fn of_reference(table: &[i32], rows: usize, length: usize) -> Seen {
    let mut next = vec![-3; length];
    let verdict = small::next_small(table, rows, &mut next);
    let packed = pack(verdict.answer, verdict.place, verdict.nodes * 8192 + verdict.links);
    Seen { packed, tables: vec![next], ..Seen::default() }
}

const GIVEN: u64 = (8192 + 1) * 8192;
const LAST: u64 = 8192 * 8192;

/// The table that comes next, if one is given.
pub fn given(seen: &Seen, rows: usize) -> Option<Vec<i32>> {
    (seen.packed == GIVEN).then(|| seen.tables[0][..4 * rows].to_vec())
}

const KINDS: [&str; 34] = [
    "tables of 1 row",
    "tables of 2 rows",
    "tables of 3 rows",
    "the last table",
    "a longer table or result table",
    "no row, 31",
    "4 rows or more, 31",
    "a number changed, on the list",
    "a number changed, 31",
    "no such kind, 31",
    "true or false with another column, 31",
    "another symbol, 31",
    "a base that is none, 31",
    "an offset beyond 1, 31",
    "an and or an or with c, 31",
    "a part that is no earlier row, 31",
    "sides that mix n and i, 31",
    "a body that is none, 31",
    "an iteration not from 0, 31",
    "an iteration with another c, 31",
    "a last row that is not outer, 31",
    "numbers beyond 5 digits, 31",
    "given table one number short, 2",
    "result table one number short, 2",
    "short and not on the list, 2",
    "rows beyond any table, 2",
    "a schema with a tableau of one node",
    "a schema with its root taken apart",
    "a schema that no model makes true, with a grown tableau",
    "a schema with an accepted tableau",
    "a schema with an accepted tableau that has links",
    "a schema with an accepted model",
    "a schema with a model that is none",
    "a schema at an n below its least value",
];

struct Comparison<'a> {
    tally: &'a mut Tally,
    kinds: Kinds,
}

impl Comparison<'_> {
    /// One call put to both.
    fn put(&mut self, what: &str, table: &[i32], rows: usize, length: usize) -> Seen {
        let ours = of_library(table, rows, length);
        let difference = ours.difference(&of_reference(table, rows, length));
        self.tally.test(what, difference.map_or(Ok(()), |why| Err(format!("{table:?} {rows}: {why}"))));
        ours
    }

    /// The same with the answer that is expected, and its kind.
    fn expect(&mut self, table: &[i32], [rows, length]: [usize; 2], expected: u64, kind: &'static str) {
        let seen = self.put(kind, table, rows, length);
        let why = || format!("{table:?} {rows}: {:#x}, expected {expected:#x}", seen.packed);
        self.tally.test(kind, fits(seen.packed == expected, why));
        self.kinds.count(kind);
    }

    /// Goes through all tables of a length by calls from the first on, and compares them with the list that the other
    /// implementation makes.
    fn walk(&mut self, rows: usize) {
        let listed = small::all(rows);
        let count = COUNTS[rows - 1];
        self.tally.test("small tables", fits(listed.len() == count, || format!("{} of {rows} rows", listed.len())));
        let mut table = vec![0; 4 * rows];
        for (at, expected) in listed.iter().enumerate() {
            let what = format!("small table {at} of {rows} rows");
            self.tally.test(&what, fits(table == *expected, || format!("{table:?}, expected {expected:?}")));
            self.kinds.count(KINDS[rows - 1]);
            let seen = self.put(&what, expected, rows, 4 * rows + at % 3);
            let is_last = at + 1 == count;
            let wanted = if is_last { LAST } else { GIVEN };
            self.tally.test(&what, fits(seen.packed == wanted, || format!("{:#x}", seen.packed)));
            match given(&seen, rows) {
                Some(next) => table = next,
                None => break,
            }
            self.kinds.count_if(at % 3 > 0, "a longer table or result table");
        }
        let last = listed.last().cloned().unwrap_or_default();
        self.expect(&last, [rows, 4 * rows], LAST, "the last table");
        self.expect(&[&last[..], &[5; 3]].concat(), [rows, 4 * rows + 1], LAST, "the last table");
    }

    /// Each number of a listed table changed to each of some others.
    fn changed(&mut self, table: &[i32], at: usize, others: &[i32]) {
        let rows = table.len() / 4;
        for other in others {
            let mut table = table.to_vec();
            if table[at] == *other {
                continue;
            }
            table[at] = *other;
            let on_list = small::all(rows).binary_search(&table).is_ok();
            let seen = self.put("a small table with another number", &table, rows, 4 * rows);
            let fit = (seen.packed == pack(31, -1, 0)) != on_list;
            self.tally
                .test("a small table with another number", fits(fit, || format!("{table:?}: {:#x}", seen.packed)));
            self.kinds.count(if on_list { "a number changed, on the list" } else { "a number changed, 31" });
        }
    }

    /// Tables with one fault each, by hand.
    fn faults(&mut self) {
        let p = [LITERAL, 0, ON_N, 0];
        let on_i = [NEGATED, 0, ON_I, 1];
        let yes = [TRUE, 0, 0, 0];
        let faults: [(&str, &[&[Row]]); 13] = [
            ("no such kind, 31", &[&[[8, 0, 0, 0]], &[[-1, 0, 0, 0]], &[[9, 0, 0, 0], p], &[yes, [11, 0, 0, 0]]]),
            (
                "true or false with another column, 31",
                &[&[[TRUE, 1, 0, 0]], &[[FALSE, 0, 1, 0]], &[[TRUE, 0, 0, -1]], &[p, [FALSE, 0, 0, 1], p]],
            ),
            (
                "another symbol, 31",
                &[&[[LITERAL, 1, ON_N, 0]], &[[NEGATED, -1, PLAIN, 0]], &[[LITERAL, 255, ON_I, 0], p]],
            ),
            ("a base that is none, 31", &[&[[LITERAL, 0, 3, 0]], &[[NEGATED, 0, -1, 0]], &[p, [LITERAL, 0, 4, 1]]]),
            (
                "an offset beyond 1, 31",
                &[
                    &[[LITERAL, 0, ON_N, 2]],
                    &[[NEGATED, 0, PLAIN, -2]],
                    &[[LITERAL, 0, ON_I, 2], p],
                    &[p, p, [2, 0, 0, 9]],
                ],
            ),
            ("an and or an or with c, 31", &[&[p, [AND, 0, 0, 1]], &[p, p, [OR, 0, 1, -1]], &[p, [OR, 0, 0, 1], p]]),
            (
                "a part that is no earlier row, 31",
                &[
                    &[[AND, 0, 0, 0]],
                    &[[BIG_OR, 0, 0, 0]],
                    &[p, [AND, 0, 1, 0]],
                    &[p, [OR, 1, 0, 0]],
                    &[p, [OR, 0, -1, 0]],
                    &[yes, [BIG_AND, 1, 0, 0]],
                    &[yes, [BIG_AND, -1, 0, 0]],
                    &[p, [AND, 2, 0, 0], p],
                    &[p, p, [AND, 0, 3, 0]],
                ],
            ),
            (
                "sides that mix n and i, 31",
                &[
                    &[p, on_i, [AND, 0, 1, 0]],
                    &[on_i, [2, 0, 0, 0], [OR, 0, 1, 0]],
                    &[on_i, [7, 0, 0, 0], [4, 1, 0, 0]],
                ],
            ),
            (
                "a body that is none, 31",
                &[&[p, [BIG_AND, 0, 0, 0]], &[[2, 0, 0, 0], [BIG_OR, 0, 0, 1]], &[on_i, [6, 0, 0, 0], [7, 1, 0, 0]]],
            ),
            (
                "an iteration not from 0, 31",
                &[&[on_i, [BIG_AND, 0, 1, 0]], &[yes, [BIG_OR, 0, -1, 1]], &[on_i, [6, 0, 2, 0], p]],
            ),
            (
                "an iteration with another c, 31",
                &[&[on_i, [BIG_AND, 0, 0, 2]], &[yes, [BIG_OR, 0, 0, -1]], &[yes, [7, 0, 0, 9], p]],
            ),
            (
                "a last row that is not outer, 31",
                &[&[on_i], &[yes, on_i], &[p, p, [2, 0, 2, 0]], &[on_i, [AND, 0, 0, 0]], &[on_i, yes, [OR, 1, 0, 0]]],
            ),
            (
                "numbers beyond 5 digits, 31",
                &[
                    &[[LITERAL, 0, ON_N, i32::MAX]],
                    &[[NEGATED, 0, PLAIN, i32::MIN]],
                    &[[i32::MIN, 0, 0, 0]],
                    &[yes, [AND, i32::MAX, 0, 0]],
                    &[yes, [BIG_AND, i32::MIN, 0, 0]],
                    &[yes, [BIG_OR, 0, 0, 65_536]],
                    &[[LITERAL, 0x1_0000, ON_N, 0]],
                    &[[256, 0, 0, 0]],
                ],
            ),
        ];
        for (kind, tables) in faults {
            for table in tables {
                let rows = table.len();
                let numbers = table.concat();
                self.expect(&numbers, [rows, 4 * rows], pack(31, -1, 0), kind);
                self.expect(&numbers, [rows, 4 * rows + 5], pack(31, -1, 0), kind);
            }
        }
    }

    /// Numbers of rows that are not 1 to 3, and tables too short by one.
    fn lengths(&mut self) {
        let numbers = [0; 64];
        for length in [0, 1, 4, 12] {
            self.expect(&numbers, [0, length], pack(31, -1, 0), "no row, 31");
            self.expect(&[], [0, length], pack(31, -1, 0), "no row, 31");
        }
        for rows in [4, 5, 16] {
            self.expect(&numbers, [rows, 64], pack(31, -1, 0), "4 rows or more, 31");
            self.expect(&numbers[..4 * rows], [rows, 4 * rows], pack(31, -1, 0), "4 rows or more, 31");
        }
        for rows in 1..=5 {
            let (full, short) = (4 * rows, 4 * rows - 1);
            self.expect(&numbers[..short], [rows, full], pack(2, -1, 0), "given table one number short, 2");
            self.expect(&numbers[..full], [rows, short], pack(2, -1, 0), "result table one number short, 2");
            self.expect(&[9; 20][..full], [rows, short], pack(2, -1, 0), "short and not on the list, 2");
            self.expect(&[9; 20][..short], [rows, short], pack(2, -1, 0), "short and not on the list, 2");
            self.expect(&[], [rows, 0], pack(2, -1, 0), "given table one number short, 2");
        }
        for rows in [17, 1 << 30, 1 << 62, (1 << 62) + 1, (1 << 62) + 3, usize::MAX / 4, usize::MAX - 3, usize::MAX] {
            self.expect(&numbers, [rows, 64], pack(2, -1, 0), "rows beyond any table, 2");
        }
    }

    /// A small schema with tiny tableaux and models, put to the check and the model check.
    fn schema(&mut self, table: &[i32], at: usize, rng: &mut Rng) {
        let rows: Vec<Row> = table.chunks_exact(4).map(|row| [row[0], row[1], row[2], row[3]]).collect();
        let what = format!("small schema {rows:?}");
        self.tableau(&what, one_node(&rows, at), "a schema with a tableau of one node");
        self.tableau(&what, taken_apart(&rows, at), "a schema with its root taken apart");
        let root = rows.len() as i32 - 1;
        let mut is_false = true;
        for n in 0..3 {
            let mut pairs = vec![0; 8192];
            let found = find_model(root, 0, table, rows.len(), n, &mut pairs);
            is_false &= found.verdict == Verdict::accepted(0, 0);
            pairs.truncate(2 * found.pairs);
            self.model(&what, table, n, 0, pairs);
        }
        // Some pairs at random, and n below the least value.
        let pairs: Vec<i32> = (-2..4).filter(|_| rng.chance(50)).flat_map(|index| [0, index]).collect();
        let n = rng.range(0, 3);
        self.model(&what, table, n, 0, pairs.clone());
        if at.is_multiple_of(8) {
            self.model(&what, table, n, n + 1, pairs);
            self.kinds.count("a schema at an n below its least value");
        }
        // Schemata of one and two rows are always all put, so that there is enough of each kind.
        let times = if rows.len() < 3 { 4 } else { 1 };
        for _ in 0..if is_false { times } else { 0 } {
            let pool = Pool::of_rows(&rows, rng);
            let least = if rng.chance(70) { 0 } else { rng.range(0, 3) };
            let grown = grow(&Schema { pool, root, least, inert: vec![], family: "small" }, rng);
            self.tableau(&what, grown.tree, "a schema that no model makes true, with a grown tableau");
        }
    }

    fn tableau(&mut self, what: &str, tree: Tree, kind: &'static str) {
        let input = Input::Check(tree.tables());
        self.tally.compare(what, &input);
        self.kinds.count(kind);
        if answer_of(&input).answer() == 0 {
            self.kinds.count("a schema with an accepted tableau");
            let links = tree.nodes.iter().any(|node| node.fields[1] == 8);
            self.kinds.count_if(links, "a schema with an accepted tableau that has links");
        }
    }

    fn model(&mut self, what: &str, table: &[i32], n: i32, least: i32, pairs: Vec<i32>) {
        let schema_count = table.len() / 4;
        let root = schema_count as i32 - 1;
        let pair_count = pairs.len() / 2;
        let model = ModelTables { root, least, schema: table.to_vec(), schema_count, n, pairs, pair_count };
        let input = Input::Model(model);
        self.tally.compare(what, &input);
        let accepted = answer_of(&input).answer() == 0;
        self.kinds.count(if accepted {
            "a schema with an accepted model"
        } else {
            "a schema with a model that is none"
        });
    }
}

/// One node, with each rule by turns.
fn one_node(rows: &[Row], at: usize) -> Tree {
    let root = rows.len() as i32 - 1;
    let rule = at as i32 % 9;
    let fields = match rule {
        2 => [-1, 2, -1, -1, -1, -1, 0],
        3 | 4 => [-1, rule, root, root, 0, -1, 0],
        6 => [-1, 6, root, root, -1, -1, 0],
        8 => [-1, 8, -1, -1, -1, 0, 1],
        _ => [-1, rule, root, -1, -1, -1, 0],
    };
    let nodes = vec![TreeNode { fields, set: vec![root] }];
    Tree { root, least: at as i32 % 3, rows: rows.to_vec(), schema_count: rows.len(), nodes }
}

/// The root's rule, and children that are closed at once, rightly or not: by false, by a clash, or by a void range.
fn taken_apart(rows: &[Row], at: usize) -> Tree {
    let root = rows.len() as i32 - 1;
    let [kind, a, b, c] = rows[rows.len() - 1];
    let mut rows = rows.to_vec();
    let schema_count = rows.len();
    let next = root + 1;
    // The rule, and the sets of its children. An iteration is unfolded with rows of its own.
    let (fields, children) = match kind {
        AND => ([-1, 0, root, -1, -1, -1, 0], vec![vec![a, b]]),
        OR => ([-1, 1, root, -1, -1, -1, 0], vec![vec![a], vec![b]]),
        BIG_AND | BIG_OR => {
            rows.push([kind, a, b, c + 1]);
            let instance = match rows[a as usize] {
                [LITERAL | NEGATED, symbol, ON_I, offset] => {
                    rows.push([rows[a as usize][0], symbol, ON_N, offset - c]);
                    next + 1
                }
                _ => a,
            };
            let fields = [-1, kind - 3, root, next, instance, -1, 0];
            let children = if kind == BIG_AND { vec![vec![next, instance]] } else { vec![vec![next], vec![instance]] };
            (fields, children)
        }
        _ => ([-1, 2, -1, -1, -1, -1, 0], vec![vec![root], vec![root]]),
    };
    let mut nodes = vec![TreeNode { fields, set: vec![root] }];
    for mut set in children {
        set.sort_unstable();
        set.dedup();
        let of_kind = |kind: i32| set.iter().copied().find(|row| rows[*row as usize][0] == kind);
        let closing = match (of_kind(FALSE), of_kind(LITERAL), of_kind(NEGATED), of_kind(BIG_OR)) {
            (Some(no), ..) => [0, 5, no, -1, -1, -1, 0],
            (_, Some(yes), Some(no), _) => [0, 6, yes, no, -1, -1, 0],
            (.., Some(range)) => [0, 7, range, -1, -1, -1, 0],
            _ => [0, 5, set[0], -1, -1, -1, 0],
        };
        nodes.push(TreeNode { fields: closing, set });
    }
    Tree { root, least: at as i32 / 9 % 3, rows, schema_count, nodes }
}

/// Short runs put fewer schemata of three rows to the checks: one of so many.
pub fn test(tally: &mut Tally, run: &Run) {
    let mut comparison = Comparison { tally, kinds: Kinds::new("small schemata", &KINDS) };
    comparison.lengths();
    comparison.faults();
    let rng = &mut Rng::new(run.seed);
    let every = (10_000 / run.count.max(1) as usize).max(1);
    let others = [-2, -1, 0, 1, 2, 3, 4, 5, 6, 7, 8, i32::MIN, i32::MAX];
    for rows in 1..=3 {
        comparison.walk(rows);
        for (at, table) in small::all(rows).iter().enumerate() {
            if rows < 3 {
                (0..table.len()).for_each(|place| comparison.changed(table, place, &others));
            }
            if rows < 3 || at % every == run.seed as usize % every {
                comparison.changed(table, rng.below(table.len()), &[rng.pick(&others)]);
                comparison.schema(table, at, rng);
            }
        }
    }
    let Comparison { tally, kinds } = comparison;
    kinds.close(tally);
}

/// All calls from the first table of three rows on.
pub fn heavy(tally: &mut Tally) {
    let (count, last) = walked(3);
    tally.test("all tables of three rows", fits(count == COUNTS[2], || format!("{count} of them")));
    tally.test("the last one", fits(small::all(3).last() == Some(&last), || format!("{last:?}")));
}

/// How many tables the library gives from the first on, itself among them, and the last one.
pub fn walked(rows: usize) -> (usize, Vec<i32>) {
    let mut table = vec![0; 4 * rows];
    let mut next = table.clone();
    for count in 1..=COUNTS[rows - 1] {
        if entries::next_small(&table, rows, &mut next) != GIVEN {
            return (count, table);
        }
        std::mem::swap(&mut table, &mut next);
    }
    (0, table)
}
