//! Generated tables: every refusal of the check and of the model check has a reason, thousands of each number; and what a sentence
//! says is held against the other implementation where it names numbers.

mod common;

use common::{numbers_in, refused, Count};
use zorambi::{entries, Refused};
use zorambi_explain::{check, model, SchemaTable, Tables, Voice};
use zorambi_generate::bounds::bounds;
use zorambi_generate::models::ModelTables;
use zorambi_generate::tables::Tables as Made;
use zorambi_generate::{case, Input, Rng};
use zorambi_reference::formula::{self, Formulas};

fn tables_of(tables: &Made) -> Tables<'_> {
    Tables {
        schema: &tables.schema,
        schema_rows: tables.schema_count,
        proof: &tables.proof,
        proof_rows: tables.proof_count,
        root: tables.root,
        least: tables.least,
        nodes: &tables.nodes,
        node_rows: tables.node_count,
        members: &tables.members,
        member_count: tables.member_count,
    }
}

fn checked(t: &Tables) -> Option<Refused> {
    refused(entries::check(
        t.schema,
        t.schema_rows,
        t.proof,
        t.proof_rows,
        t.root,
        t.least,
        t.nodes,
        t.node_rows,
        t.members,
        t.member_count,
    ))
}

/// Another number, often a near one.
fn other(rng: &mut Rng, value: i32) -> i32 {
    match rng.below(6) {
        0 => value.wrapping_add(1),
        1 => value.wrapping_sub(1),
        2 => rng.range(-1, 12),
        3 => rng.range(-1, 300),
        4 => rng.pick(&[-10_000, -9999, 9998, 9999, 10_000, i32::MIN, i32::MAX, 0, -1]),
        _ => value.wrapping_neg(),
    }
}

fn change_one(table: &mut [i32], rng: &mut Rng) {
    if !table.is_empty() {
        let at = rng.below(table.len());
        table[at] = other(rng, table[at]);
    }
}

/// One or two changes to tables, each of a sort that a prover's mistake may make.
fn damaged(made: &Made, rng: &mut Rng) -> Made {
    let mut made = made.clone();
    for _ in 0..1 + rng.below(2) {
        match rng.below(13) {
            0 => change_one(&mut made.schema, rng),
            1 => change_one(&mut made.proof, rng),
            2..=4 => {
                // Of a node rather its fields than its set's place.
                let count = made.nodes.len() / 9;
                if count > 0 {
                    let at = 9 * rng.below(count) + rng.below(7);
                    made.nodes[at] = other(rng, made.nodes[at]);
                }
            }
            5 => change_one(&mut made.nodes, rng),
            6 => change_one(&mut made.members, rng),
            7 => made.root = other(rng, made.root),
            8 => made.least = other(rng, made.least),
            9 => match rng.below(4) {
                0 => made.schema_count = counted(rng, made.schema_count),
                1 => made.proof_count = counted(rng, made.proof_count),
                2 => made.node_count = counted(rng, made.node_count),
                _ => made.member_count = counted(rng, made.member_count),
            },
            10 => made.node_count = made.node_count.saturating_sub(1 + rng.below(2)).max(usize::from(rng.chance(50))),
            11 => repeat(&mut made, rng),
            _ => double(&mut made, rng),
        }
    }
    made
}

fn counted(rng: &mut Rng, count: usize) -> usize {
    match rng.below(4) {
        0 => count.saturating_add(1 + rng.below(3)),
        1 => 1020 + rng.below(10),
        2 => 8190 + rng.below(8),
        _ => usize::MAX - rng.below(2),
    }
}

/// One change at a link, or to how many children a node has. The tables have what their counts say, their sets in their places.
fn aimed(made: &Made, rng: &mut Rng) -> Made {
    let mut tree = made.tree();
    let links: Vec<usize> = (0..tree.nodes.len()).filter(|node| tree.nodes[*node].fields[1] == 8).collect();
    if links.is_empty() || rng.chance(20) {
        tree.nodes.pop();
        return tree.tables();
    }
    let link = rng.pick(&links);
    let count = tree.nodes.len() as i32;
    let node = &mut tree.nodes[link];
    match rng.below(4) {
        0 => node.fields[5] = rng.range(link as i32, count + 1),
        1 => node.fields[5] = -rng.range(1, 9),
        2 if !node.set.is_empty() => drop(node.set.remove(rng.below(node.set.len()))),
        _ => node.fields[6] = node.fields[6].saturating_add(rng.range(-1, 1)),
    }
    tree.tables()
}

/// A proof row becomes an earlier row again.
fn repeat(made: &mut Made, rng: &mut Rng) {
    let (schema, proof) = (made.schema.len() / 4, made.proof.len() / 4);
    if schema + proof > 1 && proof > 0 {
        let at = rng.below(proof);
        let earlier = rng.below(schema + at);
        let rows: Vec<i32> = made.schema.iter().chain(&made.proof).copied().collect();
        made.proof[4 * at..4 * at + 4].copy_from_slice(&rows[4 * earlier..4 * earlier + 4]);
    }
}

/// The schema's rows become a tower: each is both sides of the next, or one side.
fn double(made: &mut Made, rng: &mut Rng) {
    let (rows, sides) = (10 + rng.below(80) as i32, rng.chance(50));
    made.schema = vec![1, 0, 0, 0];
    for row in 1..rows {
        let side = if sides { row - 1 } else { 0 };
        made.schema.extend([4 + rng.range(0, 1), row - 1, side, 0]);
    }
    made.schema_count = rows as usize;
}

/// What a sentence says, held against the other implementation; `Err` says what is not so.
fn is_true(made: &Made, tables: &Tables, refused: Refused, line: &str) -> Result<(), String> {
    let numbers = numbers_in(line);
    let holds = |is: bool| if is { Ok(()) } else { Err(line.to_string()) };
    let set = |node: i64| {
        let [.., start, length] = *tables.nodes.as_chunks::<9>().0.get(node as usize).unwrap();
        &tables.members[start as usize..(start + length) as usize]
    };
    let field = |node: usize, at: usize| tables.nodes[9 * node + at];
    match refused.refusal.number() {
        8 => {
            let formulas = Formulas::new(tables.schema, tables.schema_rows, tables.proof, tables.proof_rows).unwrap();
            let row = numbers[0] as i32;
            let known = if line.contains(" size ") { formulas.size(row) } else { formulas.depth(row) };
            holds(known == Some(numbers[1] as u64) || numbers[1] > 1_000_000)
        }
        11 => {
            let (node, row) = (refused.place.unwrap(), numbers[1]);
            let parent = i64::from(field(node, 0));
            holds(set(node as i64).contains(&(row as i32)) && !set(parent).contains(&(row as i32)))
        }
        14 if field(refused.place.unwrap(), 1) == 8 => {
            let (node, known) = (refused.place.unwrap(), bounds(&made.tree()));
            let (to, by) = (field(node, 5) as usize, field(node, 6));
            holds(!known[to].covers(known[node].lowered(by)) && numbers[0] == node as i64)
        }
        16 => {
            let (node, row) = (refused.place.unwrap(), numbers[2] as i32);
            let formulas = Formulas::new(tables.schema, tables.schema_rows, tables.proof, tables.proof_rows).unwrap();
            let by = field(node, 6);
            let partner = set(node as i64).iter().any(|other| formulas.lowered(row, *other, by));
            holds(set(numbers[1]).contains(&row) && !partner)
        }
        27 => {
            let rows: Vec<&[i32]> =
                tables.schema[..4 * tables.schema_rows].chunks(4).chain(tables.proof.chunks(4)).collect();
            holds(rows[numbers[0] as usize] == rows[numbers[1] as usize] && numbers[1] < numbers[0])
        }
        _ => Ok(()),
    }
}

#[test]
fn every_refusal_of_the_check_has_a_reason() {
    let (mut count, mut rng) = (Count::default(), Rng::new(39));
    let made = (0..).filter_map(|number| match case(7, number).input {
        Input::Check(made) => Some(made),
        _ => None,
    });
    for made in made.take(700) {
        let whole = checked(&tables_of(&made)).is_none_or(|refused| refused.refusal.number() > 10);
        for at in 0..160 {
            let made = match at {
                0 => made.clone(),
                1..40 if whole => aimed(&made, &mut rng),
                _ => damaged(&made, &mut rng),
            };
            let tables = tables_of(&made);
            let Some(refused) = checked(&tables) else { continue };
            let why = check(&tables, refused, &Voice::default());
            count.take(refused, &why);
            if why.found {
                count.truth(is_true(&made, &tables, refused, &why.line));
            }
        }
    }
    count.end(&[2, 5, 6, 7, 8, 9, 10, 11, 12, 13, 14, 15, 16, 17, 27], 1000);
}

/// The sentence of 20 names a row that is false.
fn is_false(made: &ModelTables, line: &str) -> Result<(), String> {
    let formulas = Formulas::new(&made.schema, made.schema_count, &[], 0).unwrap();
    let row = line.split("row ").nth(1).and_then(|rest| rest.split(' ').next()?.parse().ok()).unwrap();
    let pairs: Vec<(i32, i64)> =
        made.pairs.chunks(2).take(made.pair_count).map(|pair| (pair[0], i64::from(pair[1]))).collect();
    let value = zorambi_reference::model::value(&formulas, row, i64::from(made.n), &|symbol, index| {
        pairs.contains(&(symbol, index))
    });
    if formula::outer(&made.schema, made.schema_count, row) && !value {
        Ok(())
    } else {
        Err(line.to_string())
    }
}

fn damaged_model(made: &ModelTables, rng: &mut Rng) -> ModelTables {
    let mut made = made.clone();
    match rng.below(9) {
        0 => made.n = other(rng, made.n),
        1 => change_one(&mut made.schema, rng),
        2 => made.root = other(rng, made.root),
        3 => made.least = other(rng, made.least),
        4 => made.schema_count = counted(rng, made.schema_count),
        5 => made.pair_count = counted(rng, made.pair_count),
        6 if rng.chance(50) => {
            made.pairs.resize(8194 + 2 * rng.below(9), 0);
            made.pair_count = made.pairs.len() / 2;
        }
        6 => made.pairs.truncate(2 * rng.below(made.pairs.len() / 2 + 1)),
        7 => {
            let pair = [rng.range(0, 3), rng.range(-4, 9)];
            made.pairs.extend(pair);
            made.pair_count = made.pairs.len() / 2;
        }
        _ => change_one(&mut made.pairs, rng),
    }
    made
}

#[test]
fn every_refusal_of_the_model_check_has_a_reason() {
    let (mut count, mut rng) = (Count::default(), Rng::new(40));
    let made = (0..).filter_map(|number| match case(9, number).input {
        Input::Model(made) => Some(made),
        _ => None,
    });
    for made in made.take(300) {
        for at in 0..120 {
            let made = if at == 0 { made.clone() } else { damaged_model(&made, &mut rng) };
            let ModelTables { root, least, schema, schema_count, n, pairs, pair_count } = &made;
            let packed = entries::check_model(schema, *schema_count, *root, *least, *n, pairs, *pair_count);
            let Some(refused) = refused(packed) else { continue };
            let table = SchemaTable { rows: schema, count: *schema_count, root: *root, least: *least };
            let why = model(&table, *n, (pairs, *pair_count), refused, &Voice::default());
            count.take(refused, &why);
            if why.found && refused.refusal.number() == 20 {
                count.truth(is_false(&made, &why.line));
            }
        }
    }
    count.end(&[2, 5, 6, 7, 18, 19, 20], 1000);
}

/// Whatever is asked of whatever tables, it ends and does not panic: also where the library gave no such refusal.
#[test]
fn any_refusal_of_any_tables() {
    let mut rng = Rng::new(47);
    for at in 0..4000 {
        let made = damaged(&zorambi_generate::tables::random_tables(&mut rng), &mut rng);
        let tables = tables_of(&made);
        let refusal = zorambi::Refusal::ALL[at % zorambi::Refusal::ALL.len()];
        let place = rng.pick(&[None, Some(0), Some(1), Some(3), Some(9), Some(8191)]);
        let (refused, voice) = (Refused { refusal, place }, Voice::default());
        let schema =
            SchemaTable { rows: tables.schema, count: tables.schema_rows, root: tables.root, least: tables.least };
        let n = rng.range(-3, 12);
        for why in [
            check(&tables, refused, &voice),
            zorambi_explain::growing(&tables, refused, &voice),
            model(&schema, n, (tables.members, tables.member_count), refused, &voice),
            zorambi_explain::find(&schema, n, refused, &voice),
            zorambi_explain::convert(&schema, refused, &voice),
        ] {
            assert!(!why.line.is_empty() && !why.mend.is_empty());
        }
        zorambi_explain::node(&tables, refused, &voice);
    }
}
