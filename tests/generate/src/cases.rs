//! One generated case of any sort, and what this implementation answers to it.

use super::across::across_tables;
use super::exact::exact_tables;
use super::models::{damage_model, find_model, pair_rows, random_pairs, ModelTables};
use super::pool::Pool;
use super::prover::{grow, grow_across};
use super::ranges::ranges_tables;
use super::rng::{mix, Rng};
use super::schemata::{false_schema, pad_to, random_schema, Schema};
use super::sharp::{move_set, sharp_tables};
use super::sides::sides_tables;
use super::tables::{
    damage_tables, damage_tree, extreme, lengthen, other_count, other_number, random_row, random_tables, Tables, Tree,
    TreeNode,
};
use super::texts::{damage_text, proof_text_of_length, random_text};
use super::twice::twice_tables;
use zorambi_reference::formula::{Formulas, Row, ON_I};
use zorambi_reference::program::Judgement;
use zorambi_reference::text::{self, ModelRead, Named, ProofRead, SchemaRead, Written};
use zorambi_reference::{model, packed, program, tableau, Verdict, MAX_TEXT};

/// A case: its sort, for the counts, its input, and what it is made to show, if it is one thing.
#[derive(Clone, Debug)]
pub struct Case {
    pub sort: &'static str,
    pub input: Input,
    pub aim: Option<Aim>,
}

/// The sort of a link to an exact ancestor.
pub const EXACT_ANCESTOR: &str = "check, exact ancestor";
/// The sort of a tableau with sides of ands and ors swapped.
pub const SIDES: &str = "check, sides";
/// The sort of a tableau with bounds from both sides.
pub const RANGES: &str = "check, ranges";
/// The sort of a tableau with links across branches.
pub const ACROSS: &str = "check, across";
/// The sort of a tableau with rows written twice, or almost so.
pub const TWICE: &str = "check, twice";

/// What a case is made to show.
#[derive(Clone, Debug)]
pub struct Aim {
    /// All that it is, for the counts.
    pub kinds: Vec<&'static str>,
    /// The node that it is about.
    pub node: i32,
    /// Answer and place of the older check, if they follow from how the case was made.
    pub expected: Option<(u8, i32)>,
    /// The same of the check; `None` if it differs from the older one in nothing but a proof row written twice.
    pub present: Option<(u8, i32)>,
}

impl Aim {
    /// What the check and the older check are to answer.
    pub fn answers(&self, tables: &Tables) -> Option<[(u8, i32); 2]> {
        let older = self.expected?;
        let first = tables.first_repeat().map(|row| (27, row as i32));
        // Only 2, 5, 6 and an earlier row's refusal come before.
        let comes_first = |row: i32| match older {
            (2..=6, _) => false,
            (7 | 8, place) => row < place,
            _ => true,
        };
        let derived = first.filter(|(_, row)| comes_first(*row)).unwrap_or(older);
        Some([self.present.unwrap_or(derived), older])
    }
}

/// What a function is called with. `fill` is what lent memory holds before.
#[derive(Clone, Debug)]
pub enum Input {
    Check(Tables),
    /// The older check.
    CheckOlder(Tables),
    Model(ModelTables),
    ReadSchema {
        text: Vec<u8>,
        length: usize,
        fill: i32,
    },
    ReadProof {
        text: Vec<u8>,
        lengths: [usize; 3],
        fill: i32,
    },
    ReadModel {
        text: Vec<u8>,
        length: usize,
        fill: i32,
    },
    WriteSchema {
        root: i32,
        least: i32,
        rows: Vec<i32>,
        row_count: usize,
        length: usize,
        fill: u8,
    },
    /// `proof` has the rows, nodes and members; its schema is not looked at.
    WriteProof {
        proof: Tables,
        length: usize,
        fill: u8,
    },
    WriteModel {
        n: i32,
        pairs: Vec<i32>,
        pair_count: usize,
        length: usize,
        fill: u8,
    },
    Line {
        named: Named,
        schema: Vec<u8>,
        proof: Vec<u8>,
        number: usize,
    },
    /// The line numbers of a formula row and of a node.
    LineNumbers {
        schema_count: usize,
        proof_count: usize,
        row: usize,
        node: usize,
    },
    /// The check program.
    Texts {
        schema: Vec<u8>,
        proof: Vec<u8>,
    },
    /// The check program with the older check.
    TextsOlder {
        schema: Vec<u8>,
        proof: Vec<u8>,
    },
    /// The model check program.
    TextsModel {
        schema: Vec<u8>,
        model: Vec<u8>,
    },
    /// Rows `f` and `g` of one table: what is known of them, lowered by `k`, instance at n - `k`.
    Compare {
        rows: Vec<i32>,
        row_count: usize,
        f: i32,
        g: i32,
        k: i32,
    },
}

impl Input {
    /// The same for the older check; `None` if it is not for the check.
    pub fn older(&self) -> Option<Input> {
        match self {
            Input::Check(tables) => Some(Input::CheckOlder(tables.clone())),
            Input::Texts { schema, proof } => Some(Input::TextsOlder { schema: schema.clone(), proof: proof.clone() }),
            _ => None,
        }
    }
}

/// What was answered, with all lent memory.
#[derive(Clone, Debug, PartialEq, Eq)]
pub enum Outcome {
    Verdict {
        verdict: Verdict,
        packed: i64,
    },
    /// What is said of two texts.
    Judgement {
        judgement: Judgement,
        packed: i64,
    },
    SchemaRead {
        read: SchemaRead,
        rows: Vec<i32>,
    },
    ProofRead {
        read: ProofRead,
        rows: Vec<i32>,
        nodes: Vec<i32>,
        members: Vec<i32>,
    },
    ModelRead {
        read: ModelRead,
        pairs: Vec<i32>,
    },
    Written {
        written: Written,
        out: Vec<u8>,
    },
    /// Where the line begins in the named text, and its length.
    Line {
        start: usize,
        length: usize,
    },
    /// `None` where there is no such row, or the number passes `usize::MAX`.
    LineNumbers {
        row: Option<(Named, usize)>,
        node: Option<usize>,
    },
    Compared {
        well_formed: [bool; 2],
        size: [Option<u64>; 2],
        depth: [Option<u64>; 2],
        outer: [bool; 2],
        lowered: bool,
        instance: bool,
    },
}

impl Outcome {
    /// The answer's number; 0 where there is none.
    pub fn answer(&self) -> u8 {
        match self {
            Outcome::Verdict { verdict, .. } => verdict.answer,
            Outcome::Judgement { judgement, .. } => judgement.verdict.answer,
            Outcome::SchemaRead { read, .. } => read.answer,
            Outcome::ProofRead { read, .. } => read.answer,
            Outcome::ModelRead { read, .. } => read.answer,
            Outcome::Written { written, .. } => written.answer,
            Outcome::Line { .. } | Outcome::LineNumbers { .. } | Outcome::Compared { .. } => 0,
        }
    }
}

fn of_verdict(verdict: Verdict) -> Outcome {
    Outcome::Verdict { verdict, packed: packed::pack(verdict) }
}

fn of_judgement(judgement: Judgement) -> Outcome {
    Outcome::Judgement { judgement, packed: packed::pack_texts(judgement) }
}

/// Runs this implementation on a case.
pub fn run(input: &Input) -> Outcome {
    match input {
        Input::Check(t) => of_verdict(tableau::check(&t.record())),
        Input::CheckOlder(t) => of_verdict(tableau::check_older(&t.record())),
        Input::Model(m) => {
            of_verdict(model::check_model(m.root, m.least, &m.schema, m.schema_count, m.n, &m.pairs, m.pair_count))
        }
        Input::ReadSchema { text, length, fill } => {
            let mut rows = vec![*fill; *length];
            Outcome::SchemaRead { read: text::read_schema(text, &mut rows), rows }
        }
        Input::ReadProof { text, lengths, fill } => {
            let [mut rows, mut nodes, mut members] = lengths.map(|length| vec![*fill; length]);
            let read = text::read_proof(text, &mut rows, &mut nodes, &mut members);
            Outcome::ProofRead { read, rows, nodes, members }
        }
        Input::ReadModel { text, length, fill } => {
            let mut pairs = vec![*fill; *length];
            Outcome::ModelRead { read: text::read_model(text, &mut pairs), pairs }
        }
        Input::WriteSchema { root, least, rows, row_count, length, fill } => {
            let mut out = vec![*fill; *length];
            Outcome::Written { written: text::write_schema(*root, *least, rows, *row_count, &mut out), out }
        }
        Input::WriteProof { proof: t, length, fill } => {
            let mut out = vec![*fill; *length];
            let written = text::write_proof(
                &t.proof,
                t.proof_count,
                &t.nodes,
                t.node_count,
                &t.members,
                t.member_count,
                &mut out,
            );
            Outcome::Written { written, out }
        }
        Input::WriteModel { n, pairs, pair_count, length, fill } => {
            let mut out = vec![*fill; *length];
            Outcome::Written { written: text::write_model(*n, pairs, *pair_count, &mut out), out }
        }
        Input::Line { named, schema, proof, number } => {
            let line = text::line(*named, schema, proof, *number);
            let named = if *named == Named::Schema { schema } else { proof };
            let start = (line.as_ptr() as usize).wrapping_sub(named.as_ptr() as usize);
            Outcome::Line { start, length: line.len() }
        }
        Input::LineNumbers { schema_count, proof_count, row, node } => Outcome::LineNumbers {
            row: text::row_line(*schema_count, *proof_count, *row),
            node: text::node_line(*proof_count, *node),
        },
        Input::Texts { schema, proof } => of_judgement(program::check_texts(schema, proof)),
        Input::TextsOlder { schema, proof } => of_judgement(program::check_older_texts(schema, proof)),
        Input::TextsModel { schema, model } => of_judgement(program::check_model_texts(schema, model)),
        Input::Compare { rows, row_count, f, g, k } => {
            let Some(formulas) = Formulas::new(rows, *row_count, &[], 0) else {
                return Outcome::Compared {
                    well_formed: [false; 2],
                    size: [None; 2],
                    depth: [None; 2],
                    outer: [false; 2],
                    lowered: false,
                    instance: false,
                };
            };
            Outcome::Compared {
                well_formed: [*f, *g].map(|row| formulas.well_formed(row)),
                size: [*f, *g].map(|row| formulas.size(row)),
                depth: [*f, *g].map(|row| formulas.depth(row)),
                outer: [*f, *g].map(|row| formulas.outer(row)),
                lowered: formulas.lowered(*f, *g, *k),
                instance: formulas.instance(*f, *g, *k),
            }
        }
    }
}

/// Case `number` of a run with this seed; any case can be made by itself.
pub fn case(seed: u64, number: u64) -> Case {
    let mut rng = Rng::new(mix(seed.wrapping_add(mix(number))));
    let rng = &mut rng;
    let mut aim = None;
    let mut aimed = |(tables, aim_of): (Tables, Aim)| {
        aim = Some(aim_of);
        Input::Check(tables)
    };
    let (sort, input) = match rng.below(140) {
        0..=21 => ("check, grown", Input::Check(grown(rng))),
        22..=33 => ("check, grown and damaged", Input::Check(damaged(rng))),
        34..=49 => ("check, sharp", Input::Check(sharp_tables(rng))),
        50..=53 => ("check, damaged tables", Input::Check(damaged_tables(rng))),
        54..=57 => ("check, random tables", Input::Check(any_tables(rng))),
        58..=60 => ("check, limits", Input::Check(limit_tables(rng))),
        61..=66 => ("model, found", Input::Model(found_model(rng))),
        67..=69 => ("model, random", Input::Model(any_model(rng))),
        70..=73 => ("model, damaged", Input::Model(damaged_model(rng))),
        74..=77 => ("read schema", read_schema_case(rng)),
        78..=83 => ("read proof", read_proof_case(rng)),
        84..=86 => ("read model", read_model_case(rng)),
        87 | 88 => ("write schema", write_schema_case(rng)),
        89..=92 => ("write proof", write_proof_case(rng)),
        93 | 94 => ("write model", write_model_case(rng)),
        95 => ("line", line_case(rng)),
        96 if rng.chance(30) => ("line numbers", line_numbers_case(rng)),
        97 if rng.chance(40) => ("program, model", model_texts(rng)),
        96 | 97 => {
            let (schema, proof) = record_texts(rng);
            ("program", Input::Texts { schema, proof })
        }
        98 | 99 => ("compare rows", compare_case(rng)),
        100..=103 => (EXACT_ANCESTOR, aimed(exact_tables(rng))),
        104..=109 => (SIDES, aimed(sides_tables(rng))),
        110..=119 => (RANGES, aimed(ranges_tables(rng))),
        120..=129 => (ACROSS, aimed(across_tables(rng))),
        _ => (TWICE, aimed(twice_tables(rng))),
    };
    Case { sort, input, aim }
}

fn any_schema(rng: &mut Rng) -> Schema {
    if rng.chance(50) {
        random_schema(rng)
    } else {
        false_schema(rng)
    }
}

/// Mostly a tableau with all branches closed; now and then what came of the first try.
fn grown_tree(rng: &mut Rng) -> Tree {
    if rng.chance(3) {
        return grow(&random_schema(rng), rng).tree;
    }
    let tries = if rng.chance(90) { 4 } else { 1 };
    let mut tree = None;
    for _ in 0..tries {
        let schema = false_schema(rng);
        let grown = if rng.chance(25) { grow_across(&schema, rng) } else { grow(&schema, rng) };
        let closed = grown.closed;
        tree = Some(grown.tree);
        if closed {
            break;
        }
    }
    tree.unwrap_or_else(|| tree_of_depth(rng)).mostly_once(rng)
}

fn grown(rng: &mut Rng) -> Tables {
    let mut tables = grown_tree(rng).tables();
    if rng.chance(20) {
        lengthen(&mut tables, rng);
    }
    tables
}

fn damaged(rng: &mut Rng) -> Tables {
    let mut tree = grown_tree(rng);
    for _ in 0..rng.pick(&[1, 1, 1, 1, 2, 3]) {
        damage_tree(&mut tree, rng);
    }
    let mut tables = tree.tables();
    if rng.chance(5) {
        lengthen(&mut tables, rng);
    }
    tables
}

fn damaged_tables(rng: &mut Rng) -> Tables {
    let mut tables = if rng.chance(80) { grown_tree(rng).tables() } else { random_tables(rng) };
    for _ in 0..rng.pick(&[1, 1, 1, 2, 3]) {
        damage_tables(&mut tables, rng);
    }
    tables
}

fn any_tables(rng: &mut Rng) -> Tables {
    let mut tables = random_tables(rng);
    if rng.chance(20) {
        lengthen(&mut tables, rng);
    }
    tables
}

/// Tables at and just past a limit of the paper.
fn limit_tables(rng: &mut Rng) -> Tables {
    let mut tree = match rng.below(4) {
        0 => tree_of_size(rng),
        1 => tree_of_depth(rng),
        2 => tree_of_rows(rng),
        _ => tree_of_nodes(rng),
    };
    if rng.chance(10) {
        damage_tree(&mut tree, rng);
    }
    tree.tables()
}

fn leaf(up: i32, rule: i32, on: i32, set: Vec<i32>) -> TreeNode {
    TreeNode { fields: [up, rule, on, -1, -1, -1, 0], set }
}

/// Sizes 4,095, 4,096 and 4,097, of the root or of an iteration; false stands deep in them.
fn tree_of_size(rng: &mut Rng) -> Tree {
    let mut rows = vec![[1, 0, 0, 0]];
    for number in 0..10 {
        rows.push([rng.range(4, 5), number, number, 0]);
    }
    // Row 10 has 2,047; an iteration over it 2,048.
    rows.push([rng.range(6, 7), 10, 0, 0]);
    let (a, b) = rng.pick(&[(10, 10), (10, 11), (11, 10), (11, 11)]);
    rows.push([4, a, b, 0]);
    let schema_count = if rng.chance(50) { rows.len() } else { 1 };
    if schema_count == 1 {
        let nodes = vec![leaf(-1, 5, 0, vec![0])];
        return Tree { root: 0, least: 0, rows, schema_count, nodes };
    }
    // Down to false, whichever side is the ors'.
    let mut nodes = vec![leaf(-1, 0, 12, vec![12])];
    let mut waiting = vec![(0, if a == 10 || b == 10 { 10 } else { 11 })];
    while let Some((up, row)) = waiting.pop() {
        let number = nodes.len() as i32;
        match rows[row as usize] {
            [1, ..] => nodes.push(leaf(up, 5, row, vec![row])),
            [4, part, ..] => {
                nodes.push(leaf(up, 0, row, vec![row]));
                waiting.push((number, part));
            }
            [5, part, ..] if nodes.len() < 500 => {
                nodes.push(leaf(up, 1, row, vec![row]));
                waiting.push((number, part));
                waiting.push((number, part));
            }
            _ => nodes.push(leaf(up, 5, row, vec![row])),
        }
    }
    Tree { root: 12, least: 0, rows, schema_count, nodes }
}

/// Depths 62 to 66.
fn tree_of_depth(rng: &mut Rng) -> Tree {
    let depth = rng.range(62, 66);
    let mut rows = vec![[1, 0, 0, 0], [2, 0, 0, 0]];
    for number in 1..depth {
        rows.push([4, number, rng.pick(&[0, 0, 1]), 0]);
    }
    rows[2] = [4, 1, 0, 0];
    let root = rows.len() as i32 - 1;
    // Down the long side to the first false.
    let mut nodes = Vec::new();
    let mut row = root;
    loop {
        let up = nodes.len() as i32 - 1;
        nodes.push(leaf(up, 0, row, vec![row]));
        if rows[row as usize][2] == 0 {
            nodes.push(leaf(up + 1, 5, 0, vec![0]));
            break;
        }
        row -= 1;
    }
    let schema_count = rows.len();
    Tree { root, least: 0, rows, schema_count, nodes }
}

/// 1,022 to 1,026 rows.
fn tree_of_rows(rng: &mut Rng) -> Tree {
    let schema = false_schema(rng);
    let mut tree = grow(&schema, rng).tree;
    let total = 1022 + rng.below(5);
    // Mostly no row of the padding is written twice.
    let mut padding: Vec<Row> = (0..1026).map(|at| [rng.range(2, 3), at % 256, at % 3, 5000 + at]).collect();
    if rng.chance(30) {
        let mut pool = Pool::new(rng);
        pad_to(&mut pool, rng, 1024);
        padding = pool.rows();
    } else {
        tree.fold_repeats();
    }
    let before_proof = rng.chance(30);
    let mut padding = padding.into_iter().cycle();
    if before_proof && tree.rows.len() == tree.schema_count {
        tree.schema_count = total.max(tree.rows.len());
    }
    while tree.rows.len() < total {
        tree.rows.push(padding.next().unwrap_or_default());
    }
    tree
}

/// 1,021 to 1,026 nodes with 8,190 to 8,194 members: false and other literals, and many splits.
fn tree_of_nodes(rng: &mut Rng) -> Tree {
    // Row 0 is false, rows 1 to 10 are literals, rows 11 to 20 ands of false with the first, the first
    // two, ... literals.
    let mut rows = vec![[1, 0, 0, 0]];
    for symbol in 0..10 {
        rows.push([rng.range(2, 3), symbol, rng.range(0, 1), rng.range(-9999, 9999)]);
    }
    for literal in 1..11_i32 {
        let before = if literal == 1 { 0 } else { 9 + literal };
        rows.push([4, before, literal, 0]);
    }
    let node_count = 1021 + rng.below(6);
    let member_count = 8190 + rng.below(5);
    // The root's ands, then splits: a split and its first child take two nodes, the last node one.
    let ands = if node_count % 2 == 1 { 10 } else { 9 };
    let root = rows.len() as i32 - 1 - (10 - ands);
    let least = rng.pick(&[0, 5, 9484, 9490, 9491, 9492, 9493, 9494, 9495, 9500]);
    let mut nodes: Vec<TreeNode> = Vec::new();
    let mut rows_left: Vec<i32> = vec![root];
    for step in 0..ands {
        let on = root - step;
        nodes.push(leaf(step - 1, 0, on, rows_left.clone()));
        let [_, a, b, _] = rows[on as usize];
        rows_left.retain(|row| *row != on);
        rows_left.extend([a, b]);
        rows_left.sort_unstable();
    }
    let mut up = ands - 1;
    while nodes.len() + 3 <= node_count {
        let split = nodes.len() as i32;
        nodes.push(leaf(up, 2, -1, rows_left.clone()));
        nodes.push(leaf(split, 5, 0, rows_left.clone()));
        up = split;
    }
    nodes.push(leaf(up, 5, 0, rows_left));
    // Take members away from the end on until the number is right; false stays.
    let mut total: usize = nodes.iter().map(|node| node.set.len()).sum();
    for node in nodes.iter_mut().rev() {
        while total > member_count && node.set.len() > 1 && node.fields[1] != 0 {
            node.set.pop();
            total -= 1;
        }
    }
    let schema_count = rows.len();
    Tree { root, least, rows, schema_count, nodes }
}

fn model_of(schema: &Schema, rng: &mut Rng, n: i32, find: bool) -> ModelTables {
    let mut pairs = random_pairs(rng);
    if find {
        if let Some(mut fixed) = find_model(&schema.pool.formulas, schema.root, n, rng, 3, 20_000) {
            // Further pairs that the formula does not ask for.
            for pair in pairs.chunks_exact(2) {
                if rng.chance(50) {
                    fixed.entry((pair[0], i64::from(pair[1]))).or_insert(true);
                }
            }
            pairs = pair_rows(&fixed);
        }
    }
    let rows = schema.rows();
    ModelTables {
        root: schema.root,
        least: schema.least,
        schema_count: rows.len(),
        schema: rows.concat(),
        n,
        pair_count: pairs.len() / 2,
        pairs,
    }
}

fn found_model(rng: &mut Rng) -> ModelTables {
    let mut schema = if rng.chance(80) { random_schema(rng) } else { false_schema(rng) };
    if rng.chance(20) {
        // Another row as the root: parts of false schemata have models.
        let root = rng.below(schema.pool.len()) as i32;
        if schema.pool.formulas.outer(root) {
            schema.root = root;
        }
    }
    let n = if rng.chance(95) { (schema.least + rng.range(0, 4)).min(9999) } else { rng.range(schema.least, 9999) };
    model_of(&schema, rng, n, true)
}

fn any_model(rng: &mut Rng) -> ModelTables {
    if rng.chance(40) {
        let tables = random_tables(rng);
        let pairs = random_pairs(rng);
        return ModelTables {
            root: tables.root,
            least: tables.least,
            schema: tables.schema,
            schema_count: tables.schema_count,
            n: if rng.chance(90) { rng.range(0, 6) } else { extreme(rng) },
            pair_count: pairs.len() / 2,
            pairs,
        };
    }
    if rng.chance(35) {
        return limit_model(rng);
    }
    let schema = any_schema(rng);
    let n = schema.least + rng.range(-1, 5);
    model_of(&schema, rng, n, false)
}

/// Many pairs, long ranges, the largest numbers; large and deep schemata.
fn limit_model(rng: &mut Rng) -> ModelTables {
    if rng.chance(40) {
        let mut tree = match rng.below(3) {
            0 => tree_of_size(rng),
            1 => tree_of_depth(rng),
            _ => tree_of_rows(rng),
        };
        tree.schema_count = tree.rows.len();
        let tables = tree.tables();
        let pairs = random_pairs(rng);
        return ModelTables {
            root: tables.root,
            least: tables.least,
            schema: tables.schema,
            schema_count: tables.schema_count,
            n: (tables.least + rng.range(0, 3)).min(9999),
            pair_count: pairs.len() / 2,
            pairs,
        };
    }
    let count = 4094 + rng.below(5);
    let first = rng.pick(&[-29_997, -2000, 0, 1, 29_998 - count as i32]);
    let symbol = rng.pick(&[0, 255]);
    let mut pairs = Vec::new();
    for number in 0..count as i32 {
        pairs.extend([symbol, first + number]);
    }
    let n = rng.pick(&[9998, 9999, 9999, 10_000, 4095]);
    let (b, c) = match rng.below(4) {
        0 => (-9999, -9999),
        1 => (first.clamp(-9999, 9999), (n - first - count as i32 + 1).clamp(-9999, 9999)),
        2 => (9999, -9999),
        _ => (rng.range(-9999, 9999), rng.range(-9999, 9999)),
    };
    let literal = [rng.range(2, 3), symbol, ON_I, rng.pick(&[0, 0, 9999, -9999])];
    let schema = [literal, [rng.range(6, 7), 0, b, c]];
    let mut model = ModelTables {
        root: 1,
        least: rng.pick(&[0, 9999]),
        schema: schema.concat(),
        schema_count: 2,
        n,
        pair_count: count,
        pairs,
    };
    if rng.chance(20) {
        damage_model(&mut model, rng);
    }
    model
}

fn damaged_model(rng: &mut Rng) -> ModelTables {
    let mut model = if rng.chance(70) { found_model(rng) } else { any_model(rng) };
    for _ in 0..rng.pick(&[1, 1, 2, 3]) {
        damage_model(&mut model, rng);
    }
    model
}

/// How long a lent table is: mostly its full size; for a text that is too long more often less.
fn lent_length(rng: &mut Rng, full: usize, text: &[u8]) -> usize {
    match rng.below(if text.len() > MAX_TEXT { 10 } else { 40 }) {
        0 => full - 1,
        1 => rng.below(full),
        2 => 0,
        3..=8 => full + 1 + rng.below(50),
        _ => full,
    }
}

fn damaged_text(rng: &mut Rng, mut text: Vec<u8>) -> Vec<u8> {
    if rng.chance(33) {
        return text;
    }
    if rng.chance(5) {
        return random_text(rng);
    }
    for _ in 0..rng.pick(&[1, 1, 1, 2, 4]) {
        damage_text(&mut text, rng);
    }
    text
}

/// The text, damaged, now and then as long as a text may be or longer, and the length of the table that it is read into.
fn text_for_table(rng: &mut Rng, text: Vec<u8>, full: usize) -> (Vec<u8>, usize) {
    let mut text = damaged_text(rng, text);
    if rng.chance(6) {
        text.resize(rng.pick(&[65_535, 65_536, 65_536, 65_537, 65_537, 70_000]), rng.pick(b"\n0 "));
    }
    let length = lent_length(rng, full, &text);
    (text, length)
}

/// Adds rows until the limit is near; now and then a line of another form as the last.
fn many_lines(rng: &mut Rng, text: &mut Vec<u8>, line: &[u8], have: usize, limit: usize) {
    for _ in have..limit - 1 + rng.below(4) {
        text.extend(line);
    }
    if rng.chance(25) {
        text.extend(rng.pick(&[&b"0 0 0 x\n"[..], b"0\n", b"\n", b"u\n", b"0 0 0 0 0", b"1 x"]));
    }
}

fn written(write: impl FnOnce(&mut [u8]) -> Written) -> Vec<u8> {
    let mut out = vec![0; 70_000];
    let bytes = write(&mut out).bytes;
    out.truncate(bytes);
    out
}

fn schema_text(rng: &mut Rng) -> Vec<u8> {
    let schema = any_schema(rng);
    let rows = schema.rows();
    let (root, least) = if rng.chance(90) { (schema.root, schema.least) } else { (rng.range(-99_999, 99_999), -1) };
    let mut text = written(|out| text::write_schema(root, least, &rows.concat(), rows.len(), out));
    if rng.chance(12) {
        many_lines(rng, &mut text, b"2 7 2 -9999\n", rows.len(), 1024);
    }
    text
}

fn read_schema_case(rng: &mut Rng) -> Input {
    let text = schema_text(rng);
    let (text, length) = text_for_table(rng, text, 4096);
    Input::ReadSchema { text, length, fill: extreme(rng) }
}

fn proof_text(rng: &mut Rng) -> Vec<u8> {
    if rng.chance(12) {
        let length = rng.pick(&[60, 61, 62, 100, 1000, 30_000, 65_535, 65_536, 65_536, 65_537]);
        return proof_text_of_length(rng, length);
    }
    if rng.chance(4) {
        let length = rng.pick(&[65_535, 65_536, 65_537]);
        return vec![rng.pick(b"\n0 "); length];
    }
    let tables = match rng.below(16) {
        0..=3 => random_tables(rng),
        4 => limit_proof(rng),
        _ => grown(rng),
    };
    let t = &tables;
    let mut text = written(|out| {
        text::write_proof(&t.proof, t.proof_count, &t.nodes, t.node_count, &t.members, t.member_count, out)
    });
    if rng.chance(12) {
        match rng.below(3) {
            0 => many_lines(rng, &mut text, b"-1 5 0 -1 -1 -1 0\n", t.node_count, 1024),
            1 => {
                // One node more, with members up to the limit.
                text.extend(b"3 2 1 0 -1 -2 -3");
                many_lines(rng, &mut text, b" 7", t.member_count, 8192);
                text.push(b'\n');
            }
            _ => {
                let mut rows = b"kind a b c\n".to_vec();
                many_lines(rng, &mut rows, b"0 0 0 0\n", t.proof_count, 1024);
                text = [rows, text.split_off(text.len().min(11))].concat();
            }
        }
    }
    text
}

fn read_proof_case(rng: &mut Rng) -> Input {
    let text = proof_text(rng);
    let text = damaged_text(rng, text);
    let lengths = [4096, 9216, 8192].map(|full| lent_length(rng, full, &text));
    Input::ReadProof { text, lengths, fill: extreme(rng) }
}

fn model_text(rng: &mut Rng) -> Vec<u8> {
    let model = if rng.chance(50) { found_model(rng) } else { any_model(rng) };
    let mut text = written(|out| text::write_model(model.n, &model.pairs, model.pair_count, out));
    if rng.chance(12) {
        many_lines(rng, &mut text, b"255 -29997\n", model.pair_count, 4096);
    }
    text
}

fn read_model_case(rng: &mut Rng) -> Input {
    let text = model_text(rng);
    let (text, length) = text_for_table(rng, text, 8192);
    Input::ReadModel { text, length, fill: extreme(rng) }
}

/// How long an output is: around the text's length mostly.
fn out_length(rng: &mut Rng, bytes: usize) -> usize {
    match rng.below(10) {
        0 => bytes.saturating_sub(1),
        1 => rng.below(bytes + 1),
        2 => bytes + 1 + rng.below(40),
        3 => MAX_TEXT,
        4 => MAX_TEXT + rng.below(5000),
        5 => 0,
        _ => bytes,
    }
}

fn damage_numbers(rng: &mut Rng, table: &mut Vec<i32>, count: &mut usize) {
    match rng.below(6) {
        0 | 1 => {
            let at = rng.below(table.len());
            if let Some(value) = table.get_mut(at) {
                *value = other_number(rng, *value);
            }
        }
        2 => *count = other_count(rng, *count),
        3 => table.truncate(table.len().saturating_sub(1)),
        4 => table.extend((0..rng.below(9)).map(|_| extreme(rng))),
        _ => {
            let at = rng.below(table.len());
            if let Some(value) = table.get_mut(at) {
                *value = rng.pick(&[99_999, -99_999, 100_000, -100_000, i32::MIN, i32::MAX]);
            }
        }
    }
}

fn write_schema_case(rng: &mut Rng) -> Input {
    let schema = any_schema(rng);
    let mut rows = schema.rows().concat();
    let mut row_count = rows.len() / 4;
    let (mut root, mut least) = (schema.root, schema.least);
    if rng.chance(10) {
        row_count = 1023 + rng.below(3);
        rows.resize(row_count * 4, rng.pick(&[-99_999, 0, 7]));
    }
    for _ in 0..rng.pick(&[0, 0, 0, 1, 1, 2]) {
        damage_numbers(rng, &mut rows, &mut row_count);
    }
    if rng.chance(15) {
        (root, least) = (other_number(rng, root), other_number(rng, least));
    }
    let bytes = written(|out| text::write_schema(root, least, &rows, row_count, out)).len();
    Input::WriteSchema { root, least, rows, row_count, length: out_length(rng, bytes), fill: rng.bits() as u8 }
}

/// Counts at and next to the limits, small numbers.
fn limit_proof(rng: &mut Rng) -> Tables {
    let mut tables = random_tables(rng);
    tables.proof_count = 1022 + rng.below(3) + usize::from(rng.chance(20));
    tables.proof = vec![rng.range(0, 9); tables.proof_count * 4];
    tables.node_count = 1022 + rng.below(3) + usize::from(rng.chance(20));
    tables.member_count = 8190 + rng.below(3) + usize::from(rng.chance(20));
    tables.members = vec![rng.range(0, 9); tables.member_count];
    tables.nodes.clear();
    let mut start = 0;
    for number in 0..tables.node_count {
        let left = tables.member_count - start;
        let length = if number + 1 == tables.node_count { left } else { left.min(rng.below(16)) };
        tables.nodes.extend([1, 2, 3, 4, 5, 6, 7, start as i32, length as i32]);
        start += length;
    }
    tables
}

fn write_proof_case(rng: &mut Rng) -> Input {
    let mut proof = match rng.below(12) {
        0 | 1 => random_tables(rng),
        10 => limit_proof(rng),
        2 | 3 => {
            // Long texts, around 65,536 bytes: read from such a text, and changed a little.
            let length = rng.pick(&[65_530, 65_535, 65_536, 65_536]);
            let text = proof_text_of_length(rng, length);
            let (mut rows, mut nodes, mut members) = (vec![0; 4096], vec![0; 9216], vec![0; 8192]);
            let read = text::read_proof(&text, &mut rows, &mut nodes, &mut members);
            let mut tables = random_tables(rng);
            (tables.proof, tables.proof_count) = (rows, read.rows);
            (tables.nodes, tables.node_count) = (nodes, read.nodes);
            (tables.members, tables.member_count) = (members, read.members);
            if rng.chance(60) && tables.proof_count > 0 {
                // Some numbers a digit longer or shorter.
                for _ in 0..1 + rng.below(3) {
                    let at = rng.below(tables.proof_count * 4);
                    tables.proof[at] = rng.pick(&[0, 10, 100, -9999, -99_999]);
                }
            }
            tables
        }
        _ => grown(rng),
    };
    for _ in 0..rng.pick(&[0, 0, 0, 1, 1, 2]) {
        if rng.chance(20) {
            move_set(&mut proof, rng);
        } else if rng.chance(40) {
            damage_tables(&mut proof, rng);
        } else {
            let Tables { proof: rows, proof_count, nodes, node_count, members, member_count, .. } = &mut proof;
            match rng.below(3) {
                0 => damage_numbers(rng, rows, proof_count),
                1 => damage_numbers(rng, nodes, node_count),
                _ => damage_numbers(rng, members, member_count),
            }
        }
    }
    let t = &proof;
    let bytes = written(|out| {
        text::write_proof(&t.proof, t.proof_count, &t.nodes, t.node_count, &t.members, t.member_count, out)
    })
    .len();
    let length = if bytes == 0 && rng.chance(50) { 200_000 } else { out_length(rng, bytes) };
    Input::WriteProof { proof, length, fill: rng.bits() as u8 }
}

fn write_model_case(rng: &mut Rng) -> Input {
    let ModelTables { mut n, mut pairs, mut pair_count, .. } =
        if rng.chance(50) { found_model(rng) } else { any_model(rng) };
    if rng.chance(15) {
        pair_count = 4094 + rng.below(4);
        pairs = vec![rng.range(-9, 9); pair_count * 2];
    } else if rng.chance(40) {
        damage_numbers(rng, &mut pairs, &mut pair_count);
    }
    if rng.chance(10) {
        n = extreme(rng);
    }
    let bytes = written(|out| text::write_model(n, &pairs, pair_count, out)).len();
    Input::WriteModel { n, pairs, pair_count, length: out_length(rng, bytes), fill: rng.bits() as u8 }
}

fn line_case(rng: &mut Rng) -> Input {
    let schema = schema_text(rng);
    let schema = damaged_text(rng, schema);
    let proof = if rng.chance(70) { proof_text(rng) } else { Vec::new() };
    let proof = damaged_text(rng, proof);
    let named = rng.pick(&[Named::Schema, Named::Proof]);
    let text = if named == Named::Schema { &schema } else { &proof };
    let lines = text.iter().filter(|byte| **byte == b'\n').count();
    let number = match rng.below(10) {
        0 => 0,
        1 => lines,
        2 => lines + 1,
        3 => lines + 2,
        4 => other_count(rng, lines),
        _ => rng.below(lines + 2),
    };
    Input::Line { named, schema, proof, number }
}

fn line_numbers_case(rng: &mut Rng) -> Input {
    let schema_count = if rng.chance(80) { rng.below(20) } else { other_count(rng, 5) };
    let proof_count = if rng.chance(80) { rng.below(20) } else { other_count(rng, 5) };
    let row = if rng.chance(80) { rng.below(45) } else { other_count(rng, schema_count) };
    let node = if rng.chance(80) { rng.below(45) } else { other_count(rng, 5) };
    Input::LineNumbers { schema_count, proof_count, row, node }
}

/// Both texts of a tableau, mostly whole.
fn record_texts(rng: &mut Rng) -> (Vec<u8>, Vec<u8>) {
    let tables = if rng.chance(50) { grown(rng) } else { damaged(rng) };
    let t = &tables;
    let mut schema = written(|out| text::write_schema(t.root, t.least, &t.schema, t.schema_count, out));
    let mut proof = written(|out| {
        text::write_proof(&t.proof, t.proof_count, &t.nodes, t.node_count, &t.members, t.member_count, out)
    });
    if rng.chance(20) {
        schema = damaged_text(rng, schema);
    }
    if rng.chance(20) {
        proof = damaged_text(rng, proof);
    }
    (schema, proof)
}

/// Both texts of a model, mostly whole.
fn model_texts(rng: &mut Rng) -> Input {
    let m = if rng.chance(30) { found_model(rng) } else { damaged_model(rng) };
    let mut schema = written(|out| text::write_schema(m.root, m.least, &m.schema, m.schema_count, out));
    let mut model = written(|out| text::write_model(m.n, &m.pairs, m.pair_count, out));
    if rng.chance(20) {
        schema = damaged_text(rng, schema);
    }
    if rng.chance(20) {
        model = damaged_text(rng, model);
    }
    Input::TextsModel { schema, model }
}

/// Two rows of one table, often one lowered or one the other's instance, or almost so.
fn compare_case(rng: &mut Rng) -> Input {
    let mut pool = Pool::new(rng);
    let depth = 1 + rng.below(5);
    let k = if rng.chance(90) { rng.range(-2, 4) } else { extreme(rng) };
    let small = k.clamp(-50, 50);
    let mut f = None;
    let mut g = None;
    match rng.below(3) {
        0 => {
            f = pool.random_outer(rng, depth, 0, 2);
            g = f.and_then(|f| {
                pool.duplicates = rng.pick(&[0, 50, 100]);
                pool.lowered(f, small)
            });
        }
        1 => {
            f = pool.random_body(rng, depth, 0, 2);
            g = f.and_then(|f| pool.instance(f, small));
        }
        _ => {}
    }
    // Sides swapped, then perhaps regrouped, or a leaf changed.
    if rng.chance(70) {
        pool.duplicates = rng.pick(&[0, 50, 100]);
        g = g.and_then(|g| pool.swapped(g, rng)).or(g);
        g = match rng.below(4) {
            0 => g.and_then(|g| pool.regrouped(g, rng)).or(g),
            1 => g.and_then(|g| pool.leaf_changed(g, rng)).or(g),
            _ => g,
        };
    }
    let mut rows = pool.rows();
    for _ in 0..rng.below(6) {
        let row = random_row(rng, rows.len());
        rows.push(row);
    }
    if rng.chance(30) && !rows.is_empty() {
        let (row, column) = (rng.below(rows.len()), rng.below(4));
        rows[row][column] = other_number(rng, rows[row][column]);
    }
    let any = |rng: &mut Rng| if rng.chance(90) { rng.below(rows.len() + 1) as i32 } else { extreme(rng) };
    let f = if rng.chance(90) { f.unwrap_or_else(|| any(rng)) } else { any(rng) };
    let g = if rng.chance(85) { g.unwrap_or_else(|| any(rng)) } else { any(rng) };
    let mut table = rows.concat();
    let mut row_count = rows.len();
    if rng.chance(5) {
        row_count = other_count(rng, row_count);
    }
    if rng.chance(5) {
        table.extend((0..rng.below(9)).map(|_| extreme(rng)));
    }
    Input::Compare { rows: table, row_count, f, g, k }
}
