//! Rows written twice, in the proof and in the schema, and rows that differ in little. Each case is right but
//! for what its kind says; without it the tableau is accepted and no proof row is written twice.

use super::cases::{Aim, Case, Input, TWICE};
use super::prover::grow;
use super::ranges::{walk, Shape};
use super::rng::Rng;
use super::schemata::false_schema;
use super::sharp::closed_tree;
use super::tables::{Tables, Tree, TreeNode};
use zorambi_reference::formula::{
    Formulas, Row, AND, BIG_AND, BIG_OR, FALSE, LITERAL, NEGATED, ON_I, ON_N, OR, PLAIN, TRUE,
};
use zorambi_reference::{MAX_MEMBERS, MAX_OFFSET, MAX_ROWS, MAX_SYMBOL};

/// Answer and place of the check, and of the older check.
type Answers = [(u8, i32); 2];
type Made = Option<(Tables, Answers)>;

struct Kind {
    name: &'static str,
    /// Of the check, and of the older check.
    answers: [u8; 2],
    /// `None` where the tableau has no room for it.
    make: fn(Tree, &mut Rng) -> Made,
}

const fn kind(name: &'static str, answers: [u8; 2], make: fn(Tree, &mut Rng) -> Made) -> Kind {
    Kind { name, answers, make }
}

const EDGE_AGAIN: &str = "edges, a row again";
const EDGE_ONCE: &str = "edges, no row again";
const EDGE_ILL_FORMED: &str = "edges, ill-formed";

/// Every kind with the answers of the check and of the older check.
pub fn kinds() -> impl Iterator<Item = (&'static str, [u8; 2])> {
    let edges = [(EDGE_AGAIN, [27, 0]), (EDGE_ONCE, [0, 0]), (EDGE_ILL_FORMED, [7, 7])];
    KINDS.iter().map(|kind| (kind.name, kind.answers)).chain(edges)
}

const NOT_OUTER: (u8, i32) = (6, -1);

const KINDS: [Kind; 44] = [
    // Rows again.
    kind("a schema row again", [27, 0], |mut tree, rng| {
        let row = rng.below(tree.schema_count);
        let at = again(&mut tree, rng, row);
        first(tree, at)
    }),
    kind("a proof row again", [27, 0], |mut tree, rng| {
        let row = some_proof_row(&tree, rng)?;
        let at = again(&mut tree, rng, row);
        first(tree, at)
    }),
    kind("the row before again", [27, 0], |mut tree, rng| {
        let at = rng.range(tree.schema_count as i32, tree.rows.len() as i32) as usize;
        tree.insert_row(at, tree.rows[at - 1], false);
        first(tree, at)
    }),
    kind("the first row again as the last", [27, 0], |mut tree, _| {
        let at = tree.rows.len();
        tree.rows.push(tree.rows[0]);
        first(tree, at)
    }),
    kind("one row many times", [27, 0], |mut tree, rng| {
        let row = rng.below(tree.rows.len());
        let at = again(&mut tree, rng, row);
        for _ in 0..rng.range(1, 40) {
            let copy = rng.range(at as i32 + 1, tree.rows.len() as i32) as usize;
            tree.insert_row(copy, tree.rows[at], false);
        }
        first(tree, at)
    }),
    kind("two rows again", [27, 0], |mut tree, rng| {
        let row = rng.below(tree.rows.len());
        let at = again(&mut tree, rng, row);
        let row = rng.below(at);
        let copy = rng.range(at as i32 + 1, tree.rows.len() as i32) as usize;
        tree.insert_row(copy, tree.rows[row], false);
        first(tree, at)
    }),
    kind("the first proof row is a schema row", [27, 0], |mut tree, rng| {
        let at = tree.schema_count;
        tree.insert_row(at, tree.rows[rng.below(at)], false);
        first(tree, at)
    }),
    kind("a row again as the last of 1,024", [27, 0], |mut tree, rng| {
        fill(&mut tree, rng, MAX_ROWS - 1);
        tree.rows.push(tree.rows[rng.below(MAX_ROWS - 1)]);
        first(tree, MAX_ROWS - 1)
    }),
    kind("grown, equal rows in use", [27, 0], |_, rng| {
        let mut schema = false_schema(rng);
        schema.pool.duplicates = rng.pick(&[10, 50, 100]);
        let grown = grow(&schema, rng);
        let tables = grown.tree.tables();
        let at = tables.first_repeat()?;
        (grown.closed && grown.tree.nodes.len() < 300).then_some((tables, [(27, at as i32), (0, 0)]))
    }),
    kind("a schema row again in the schema and in the proof", [27, 0], |mut tree, rng| {
        let row = rng.below(tree.schema_count);
        again_in_schema(&mut tree, rng, row);
        let at = again(&mut tree, rng, row);
        first(tree, at)
    }),
    kind("rows of one key, one again", [27, 0], |mut tree, rng| {
        let from = one_key(&mut tree, rng);
        let row = from + rng.below(tree.rows.len() - from);
        let at = again(&mut tree, rng, row);
        first(tree, at)
    }),
    // No proof row again.
    kind("schema rows again in the schema", [0, 0], |mut tree, rng| {
        for _ in 0..rng.range(1, 6) {
            let row = rng.below(tree.schema_count);
            again_in_schema(&mut tree, rng, row);
        }
        accepted(tree)
    }),
    kind("another kind", [0, 0], |tree, rng| but_for(tree, rng, 0)),
    kind("another a", [0, 0], |tree, rng| but_for(tree, rng, 1)),
    kind("another b", [0, 0], |tree, rng| but_for(tree, rng, 2)),
    kind("another c", [0, 0], |tree, rng| but_for(tree, rng, 3)),
    kind("the sides swapped", [0, 0], |mut tree, rng| {
        let wanted = |row: &Row| [AND, OR].contains(&row[0]) && row[1] != row[2];
        let rows: Vec<Row> = tree.rows.iter().copied().filter(wanted).collect();
        let [kind, a, b, c] = *rows.get(rng.below(rows.len()))?;
        tree.rows.push([kind, b, a, c]);
        accepted(tree)
    }),
    kind("the same formula by other rows", [0, 0], |mut tree, rng| {
        // A part that stands in the schema, written there once more at its end.
        let wanted = |row: &Row| row[0] >= AND && row[1] < tree.schema_count as i32;
        let numbers: Vec<usize> = (0..tree.rows.len()).filter(|row| wanted(&tree.rows[*row])).collect();
        let number = *numbers.get(rng.below(numbers.len()))?;
        let part = tree.schema_count;
        tree.insert_row(part, tree.rows[tree.rows[number][1] as usize], true);
        let [kind, _, b, c] = tree.rows[number + usize::from(number >= part)];
        tree.rows.push([kind, part as i32, b, c]);
        accepted(tree)
    }),
    kind("1,024 rows, none again", [0, 0], |mut tree, rng| {
        fill(&mut tree, rng, MAX_ROWS);
        accepted(tree)
    }),
    kind("rows of one key, none again", [0, 0], |mut tree, rng| {
        one_key(&mut tree, rng);
        accepted(tree)
    }),
    kind("a row again past the proof's count", [0, 0], |tree, rng| {
        let mut tables = tree.tables();
        tables.proof.extend(tree.rows[rng.below(tree.rows.len())]);
        Some((tables, [(0, 0); 2]))
    }),
    kind("a proof row past the schema's count", [0, 0], |tree, rng| {
        let mut tables = tree.tables();
        tables.schema.extend(tree.rows[some_proof_row(&tree, rng)?]);
        Some((tables, [(0, 0); 2]))
    }),
    // Beside 7 and 8.
    kind("a row again, then an ill-formed one", [27, 7], |mut tree, rng| {
        let at = some_again(&mut tree, rng);
        tree.rows.push(ill_formed(rng, tree.rows.len()));
        let last = tree.rows.len() - 1;
        answered(tree, [(27, at), (7, last)])
    }),
    kind("an ill-formed row, then one again", [7, 7], |mut tree, rng| {
        let at = tree.rows.len();
        tree.rows.push(ill_formed(rng, at));
        tree.rows.push(tree.rows[rng.below(at)]);
        answered(tree, [(7, at); 2])
    }),
    kind("an ill-formed row twice", [7, 7], |mut tree, rng| {
        let at = tree.rows.len();
        tree.rows.push(ill_formed(rng, at));
        tree.rows.push(tree.rows[at]);
        answered(tree, [(7, at); 2])
    }),
    kind("an ill-formed schema row, and one again", [7, 7], |mut tree, rng| {
        let at = tree.schema_count;
        let row = ill_formed(rng, at);
        tree.insert_row(at, row, true);
        tree.rows.push(tree.rows[rng.below(at)]);
        answered(tree, [(7, at); 2])
    }),
    kind("a row again, then a large one", [27, 8], |mut tree, rng| {
        let at = some_again(&mut tree, rng);
        let large = too_large(&mut tree, rng);
        answered(tree, [(27, at), (8, large)])
    }),
    kind("a large row, then one again", [8, 8], |mut tree, rng| {
        let large = too_large(&mut tree, rng);
        tree.rows.push(tree.rows[rng.below(large)]);
        answered(tree, [(8, large); 2])
    }),
    kind("a large row twice", [8, 8], |mut tree, rng| {
        let large = too_large(&mut tree, rng);
        tree.rows.push(tree.rows[large]);
        answered(tree, [(8, large); 2])
    }),
    kind("a row again, then a large and an ill-formed one", [27, 8], |mut tree, rng| {
        let at = some_again(&mut tree, rng);
        let large = too_large(&mut tree, rng);
        tree.rows.push(ill_formed(rng, tree.rows.len()));
        answered(tree, [(27, at), (8, large)])
    }),
    // Beside 6.
    kind("a row again, root not outer", [27, 6], |mut tree, rng| {
        root_on_i(&mut tree);
        let at = some_again(&mut tree, rng);
        Some((tree.tables(), [(27, at as i32), NOT_OUTER]))
    }),
    kind("a schema row again in the schema, root not outer", [6, 6], |mut tree, rng| {
        root_on_i(&mut tree);
        let row = rng.below(tree.schema_count);
        again_in_schema(&mut tree, rng, row);
        Some((tree.tables(), [NOT_OUTER; 2]))
    }),
    kind("a row again, root no schema row", [6, 6], |mut tree, rng| {
        some_again(&mut tree, rng);
        tree.root = rng.pick(&[-1, tree.schema_count as i32, tree.rows.len() as i32, i32::MIN, i32::MAX]);
        Some((tree.tables(), [(6, -1); 2]))
    }),
    kind("a row again, least out of range", [6, 6], |mut tree, rng| {
        some_again(&mut tree, rng);
        tree.least = rng.pick(&[-1, 10_000, i32::MIN, i32::MAX]);
        Some((tree.tables(), [(6, -1); 2]))
    }),
    // Beside 5 and 2.
    kind("a row again, too many rows", [5, 5], |mut tree, rng| {
        some_again(&mut tree, rng);
        let count = MAX_ROWS + 1 + rng.below(3);
        fill(&mut tree, rng, count);
        Some((tree.tables(), [(5, -1); 2]))
    }),
    kind("a row again as row 1,025", [5, 5], |mut tree, rng| {
        fill(&mut tree, rng, MAX_ROWS);
        tree.rows.push(tree.rows[rng.below(MAX_ROWS)]);
        Some((tree.tables(), [(5, -1); 2]))
    }),
    kind("a row again, too many members", [5, 5], |mut tree, rng| {
        some_again(&mut tree, rng);
        let mut tables = tree.tables();
        tables.member_count = MAX_MEMBERS + 1;
        tables.members.resize(MAX_MEMBERS + 1, 0);
        Some((tables, [(5, -1); 2]))
    }),
    kind("a row again, a table too short", [2, 2], |mut tree, rng| {
        some_again(&mut tree, rng);
        let mut tables = tree.tables();
        let Tables { schema, proof, nodes, members, .. } = &mut tables;
        let table = rng.pick(&[0, 1, 1, 2, 3]);
        let table = [schema, proof, nodes, members].into_iter().nth(table)?;
        table.truncate(table.len() - 1 - rng.below(table.len().min(4)));
        Some((tables, [(2, -1); 2]))
    }),
    kind("a row again, its own columns missing", [2, 2], |mut tree, rng| {
        let row = rng.below(tree.rows.len());
        tree.rows.push(tree.rows[row]);
        let mut tables = tree.tables();
        tables.proof.truncate(tables.proof.len() - rng.range(1, 4) as usize);
        Some((tables, [(2, -1); 2]))
    }),
    // Beside what comes after.
    kind("a row again, no node", [27, 10], |mut tree, rng| {
        let at = some_again(&mut tree, rng);
        tree.nodes.clear();
        Some((tree.tables(), [(27, at as i32), (10, -1)]))
    }),
    kind("a row again, a set out of order", [27, 9], |mut tree, rng| {
        let at = some_again(&mut tree, rng);
        let node = rng.below(tree.nodes.len());
        let set = &mut tree.nodes[node].set;
        set.push(*set.last()?);
        answered(tree, [(27, at), (9, node)])
    }),
    kind("a row again in a set", [27, 11], |mut tree, _| {
        // The row itself stands in the set; its equal may not take its place.
        let row = *tree.nodes.get(1)?.set.last()?;
        let at = tree.rows.len();
        tree.rows.push(tree.rows[row as usize]);
        let set = &mut tree.nodes[1].set;
        set.pop();
        set.push(at as i32);
        answered(tree, [(27, at), (11, 1)])
    }),
    kind("a row again, a wrong up", [27, 10], |mut tree, rng| {
        let at = some_again(&mut tree, rng);
        let last = tree.nodes.len() - 1;
        tree.nodes[last].fields[0] = rng.pick(&[last as i32, last as i32 + 1, -2, i32::MAX]);
        answered(tree, [(27, at), (10, last)])
    }),
    kind("a row again, a wrong rule", [27, 12], |mut tree, rng| {
        let at = some_again(&mut tree, rng);
        // The last node has no children.
        let last = tree.nodes.len() - 1;
        tree.nodes[last].fields[1] = rng.pick(&[-1, 9, i32::MIN, i32::MAX]);
        answered(tree, [(27, at), (12, last)])
    }),
];

/// A case of any kind but the edges.
pub fn twice_tables(rng: &mut Rng) -> (Tables, Aim) {
    let Kind { name, make, .. } = &KINDS[rng.below(KINDS.len())];
    loop {
        if let Some((tables, answers)) = right_tree(rng).and_then(|tree| make(tree, rng)) {
            return (tables, aim(name, answers));
        }
    }
}

fn aim(kind: &'static str, [present, older]: Answers) -> Aim {
    Aim { kinds: vec![kind], node: older.1, expected: Some(older), present: Some(present) }
}

/// An accepted tableau without a proof row written twice, with room for more rows.
fn right_tree(rng: &mut Rng) -> Option<Tree> {
    let mut tree = match rng.below(10) {
        0..=2 => closed_tree(rng),
        3..=7 => walk(rng, Shape::Open)?.tree,
        _ => paper(),
    };
    tree.fold_repeats();
    (tree.rows.len() < 900).then_some(tree)
}

// ---------------------------------------------------------------------------------------------
// What comes of a tree

/// The row `at` is the first that is written twice; all else is right.
fn first(tree: Tree, at: usize) -> Made {
    let fits = tree.tables().first_repeat() == Some(at);
    fits.then(|| answered(tree, [(27, at), (0, 0)]))?
}

/// All is right.
fn accepted(tree: Tree) -> Made {
    let tables = tree.tables();
    let fits = tables.first_repeat().is_none() && tree.rows.len() <= MAX_ROWS;
    fits.then_some((tables, [(0, 0); 2]))
}

fn answered(tree: Tree, answers: [(u8, usize); 2]) -> Made {
    let answers = answers.map(|(answer, place)| (answer, place as i32));
    (tree.rows.len() <= MAX_ROWS).then(|| (tree.tables(), answers))
}

// ---------------------------------------------------------------------------------------------
// Rows

fn some_proof_row(tree: &Tree, rng: &mut Rng) -> Option<usize> {
    let count = tree.rows.len() - tree.schema_count;
    (count > 0).then(|| tree.schema_count + rng.below(count))
}

/// Puts a row once more somewhere after it into the proof; gives where.
fn again(tree: &mut Tree, rng: &mut Rng, row: usize) -> usize {
    let (first, last) = (tree.schema_count.max(row + 1), tree.rows.len());
    let any = first + rng.below(last - first + 1);
    let at = rng.pick(&[first, last, any, any]);
    tree.insert_row(at, tree.rows[row], false);
    at
}

fn some_again(tree: &mut Tree, rng: &mut Rng) -> usize {
    let row = rng.below(tree.rows.len());
    again(tree, rng, row)
}

/// The same in the schema.
fn again_in_schema(tree: &mut Tree, rng: &mut Rng, row: usize) {
    let at = row + 1 + rng.below(tree.schema_count - row);
    tree.insert_row(at, tree.rows[row], true);
}

/// Some row once more, but for one column.
fn but_for(mut tree: Tree, rng: &mut Rng, column: usize) -> Made {
    let row = rng.below(tree.rows.len());
    let (first, last) = (tree.schema_count.max(row + 1), tree.rows.len());
    let at = first + rng.below(last - first + 1);
    let mut changed = tree.rows[row];
    let [kind, ..] = changed;
    let is_part = column == 1 && kind >= AND || column == 2 && [AND, OR].contains(&kind);
    changed[column] = match column {
        0 => kind ^ 1,
        _ if is_part => rng.below(at) as i32,
        _ => {
            let any = rng.range(-300, 300);
            changed[column] + rng.pick(&[-1, 1, NEAR[column], -NEAR[column], any])
        }
    };
    if changed == tree.rows[row] {
        return None;
    }
    tree.insert_row(at, changed, false);
    let table = tree.rows.concat();
    let formulas = Formulas::new(&table, tree.rows.len(), &[], 0)?;
    if !formulas.facts(at as i32)?.within_limits() {
        return None;
    }
    accepted(tree)
}

/// A row that is ill-formed as row `number`.
fn ill_formed(rng: &mut Rng, number: usize) -> Row {
    let next = number as i32;
    match rng.below(7) {
        0 => [rng.pick(&[-1, 8, 9, i32::MIN, i32::MAX]), 0, 0, 0],
        1 => [rng.pick(&[TRUE, FALSE]), 0, rng.pick(&[1, -1]), 0],
        2 => [rng.pick(&[LITERAL, NEGATED]), rng.pick(&[-1, MAX_SYMBOL + 1]), rng.range(0, 2), 0],
        3 => {
            [rng.pick(&[LITERAL, NEGATED]), 0, rng.range(0, 2), rng.pick(&[-MAX_OFFSET - 1, MAX_OFFSET + 1, i32::MIN])]
        }
        4 => [rng.pick(&[LITERAL, NEGATED]), 0, rng.pick(&[-1, 3, i32::MAX]), 0],
        5 => [rng.pick(&[AND, OR]), rng.pick(&[-1, next, next + 1]), 0, 0],
        _ => [rng.pick(&[BIG_AND, BIG_OR]), rng.pick(&[-1, next, i32::MAX]), 0, 0],
    }
}

/// Adds rows up to one that is too large, or too deep; gives its number.
fn too_large(tree: &mut Tree, rng: &mut Rng) -> usize {
    tree.rows.push([LITERAL, 201, PLAIN, 0]);
    let leaf = tree.rows.len() as i32 - 1;
    let deep = rng.chance(50);
    for _ in 0..if deep { 64 } else { 12 } {
        let last = tree.rows.len() as i32 - 1;
        tree.rows.push([rng.pick(&[AND, OR]), last, if deep { leaf } else { last }, 0]);
    }
    tree.rows.len() - 1
}

/// Fills the proof up to this many rows, none of them written twice.
fn fill(tree: &mut Tree, rng: &mut Rng, count: usize) {
    let step = rng.pick(&[1, 7, 9]);
    for at in 0.. {
        if tree.rows.len() >= count {
            break;
        }
        tree.rows.push(match at % 4 {
            0 => [LITERAL, 202, rng.pick(&[PLAIN, ON_N, ON_I]), at * step],
            1 => [NEGATED, 203 + at % 50, PLAIN, at],
            2 => [LITERAL, 202, ON_N, -1 - at * step],
            _ => [OR, tree.rows.len() as i32 - 1, tree.rows.len() as i32 - 2, 0],
        });
    }
}

/// Adds literals, no two equal, that share one place. Gives the first one's number.
fn one_key(tree: &mut Tree, rng: &mut Rng) -> usize {
    let from = tree.rows.len();
    let key = rng.range(0, 4095);
    let count = rng.pick(&[2, 3, 10, 60, 100]);
    for row in rows_of_one_key(key).skip(rng.below(500)).step_by(1 + rng.below(30)).take(count) {
        tree.rows.push(row);
    }
    from
}

/// Literals whose place is `key`, which is below 4096, all of them different: some 3,700.
pub fn rows_of_one_key(key: i32) -> impl Iterator<Item = Row> {
    let literals = (0..=MAX_SYMBOL).flat_map(|a| [PLAIN, ON_N, ON_I].map(|b| [LITERAL + (a + b) % 2, a, b]));
    let rows = literals.flat_map(|[kind, a, b]| (-MAX_OFFSET..=MAX_OFFSET).map(move |c| [kind, a, b, c]));
    rows.filter(move |row| place(row) == key)
}

/// Where the tables of the code look for rows with these columns, so that rows of one place are the slowest. It is
/// 919847653 kind + 788010381 a + 675068701 b + 578314401 c modulo 2 ^ 30, without its lowest 18 bits. (The code adds
/// 2 ^ 31 to each column first, which changes nothing modulo 2 ^ 30.)
fn place(row: &Row) -> i32 {
    let [kind, a, b, c] = row.map(i64::from);
    let sum = 919_847_653 * kind + 788_010_381 * a + 675_068_701 * b + 578_314_401 * c;
    (sum.rem_euclid(1 << 30) >> 18) as i32
}

/// What may be added to each column so that most rows keep their place.
const NEAR: [i32; 4] = [1221, 6565, 4013, 2267];

/// Another root, a literal on i.
fn root_on_i(tree: &mut Tree) {
    let at = tree.schema_count;
    tree.insert_row(at, [LITERAL, 204, ON_I, 0], true);
    tree.root = at as i32;
}

// ---------------------------------------------------------------------------------------------
// Every edge

/// The paper's record.
fn paper() -> Tree {
    let node = |fields: [i32; 7], set: &[i32]| TreeNode { fields, set: set.to_vec() };
    Tree {
        root: 4,
        least: 1,
        rows: vec![
            [LITERAL, 0, ON_I, 0],
            [NEGATED, 0, ON_I, 0],
            [BIG_OR, 0, 2, 0],
            [BIG_AND, 1, 2, 0],
            [AND, 2, 3, 0],
            [BIG_OR, 0, 2, 1],
            [LITERAL, 0, ON_N, 0],
            [BIG_AND, 1, 2, 1],
            [NEGATED, 0, ON_N, 0],
        ],
        schema_count: 5,
        nodes: vec![
            node([-1, 0, 4, -1, -1, -1, 0], &[4]),
            node([0, 2, -1, -1, -1, -1, 0], &[2, 3]),
            node([1, 7, 2, -1, -1, -1, 0], &[2, 3]),
            node([1, 3, 3, 7, 8, -1, 0], &[2, 3]),
            node([3, 4, 2, 5, 6, -1, 0], &[2, 7, 8]),
            node([4, 8, -1, -1, -1, 1, 1], &[5, 7]),
            node([4, 6, 6, 8, -1, -1, 0], &[6, 8]),
        ],
    }
}

/// Each row of the paper's record once more at each later place, as it is and with one column changed.
pub fn edges() -> Vec<Case> {
    let tree = paper();
    let (schema, all) = (tree.schema_count, tree.rows.len());
    let places = (1..=schema).map(|at| (at, true)).chain((schema..=all).map(|at| (at, false)));
    let mut cases = Vec::new();
    for (at, in_schema) in places {
        for row in 0..at {
            let mut copies = vec![tree.rows[row]];
            for column in 0..4 {
                for by in [-1, 1, 2, 256, NEAR[column], -NEAR[column], i32::MIN] {
                    let mut copy = tree.rows[row];
                    copy[column] = copy[column].wrapping_add(by);
                    copies.push(copy);
                }
            }
            for copy in copies {
                let mut tree = tree.clone();
                tree.insert_row(at, copy, in_schema);
                cases.push(edge_case(&tree, at));
            }
        }
    }
    cases
}

fn edge_case(tree: &Tree, at: usize) -> Case {
    let tables = tree.tables();
    let well_formed = Formulas::new(&tree.rows.concat(), tree.rows.len(), &[], 0)
        .is_some_and(|formulas| formulas.well_formed(at as i32));
    let repeat = tables.first_repeat().map(|row| row as i32);
    let aim = match (well_formed, repeat) {
        (false, _) => aim(EDGE_ILL_FORMED, [(7, at as i32); 2]),
        (true, Some(row)) => aim(EDGE_AGAIN, [(27, row), (0, 0)]),
        (true, None) => aim(EDGE_ONCE, [(0, 0); 2]),
    };
    Case { sort: TWICE, input: Input::Check(tables), aim: Some(aim) }
}
