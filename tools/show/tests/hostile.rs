//! Any bytes are shown: nothing panics, nothing goes on for ever, no byte of a record reaches the terminal as anything
//! but plain text, and the verdict that is shown is the library's.

mod common;

use common::{folder, options, records, shown};
use std::path::PathBuf;
use std::time::{Duration, Instant};
use zorambi::{
    check_model, check_model_texts, check_texts, read_proof, read_schema, write_model, write_proof, write_schema,
    Model, Proof, Record, Refusal, Schema, Verdict,
};
use zorambi_generate::cases::{case, Input};
use zorambi_generate::models::random_pairs;
use zorambi_generate::schemata::random_schema;
use zorambi_generate::tables::Tables;
use zorambi_generate::texts::{damage_text, random_text};
use zorambi_generate::Rng;
use zorambi_reference::formula::Formulas;
use zorambi_reference::model::value;
use zorambi_show::model::iterations;
use zorambi_show::{bounds, show, Names, Notation, Style};

const SIGNS: &str = "∧∨¬⋀⋁→↔⊕≥≤├─└│▲";

/// Columns of a word that has a line of its own: 40 bytes of a text that an explanation quotes, each as \x1b.
const QUOTED: usize = 170;

/// Shows it in both notations; only plain text comes out, in lines that are not long, and it is soon done.
fn is_shown(given: &[(&str, &[u8])], rng: &mut Rng) -> String {
    let begun = Instant::now();
    let width = rng.pick(&[40, 80, 100, 200]);
    let with_sets = rng.chance(50);
    let unicode = shown(given, &options(Style::Unicode, with_sets, width)).text;
    assert!(unicode.chars().all(|c| c == '\n' || (' '..='~').contains(&c) || SIGNS.contains(c)), "{unicode}");
    let ascii = shown(given, &options(Style::Ascii, with_sets, width)).text;
    assert!(ascii.bytes().all(|byte| byte == b'\n' || (b' '..=b'~').contains(&byte)), "{ascii}");
    let longest = unicode.lines().chain(ascii.lines()).map(|line| line.chars().count()).max().unwrap_or(0);
    assert!(longest <= (width + 40).max(QUOTED), "{longest} columns of {width}: {unicode}");
    assert!(begun.elapsed() < Duration::from_secs(10), "{:?}", begun.elapsed());
    unicode
}

/// The numbers of the nodes that are drawn, and that of the one above a mark.
fn drawn(text: &str) -> (Vec<usize>, Option<usize>) {
    let mut nodes = Vec::new();
    let mut marked = None;
    for line in text.lines().skip_while(|line| !line.starts_with("tableau")) {
        if line.starts_with("accepted") || line.starts_with("refused") {
            break;
        }
        let line = line.trim_start_matches(['│', '├', '└', '─', ' ']);
        let number: String = line.chars().take_while(char::is_ascii_digit).collect();
        if line[number.len()..].starts_with("  ") && !line.ends_with("drawn below") {
            nodes.push(number.parse().unwrap());
        }
        if line.starts_with('▲') {
            assert_eq!(marked, None, "{text}");
            marked = nodes.last().copied();
        }
    }
    (nodes, marked)
}

/// What is shown of a record's texts says what the library says, draws each node once, and marks the one at fault.
fn is_shown_right(schema: &[u8], proof: &[u8], rng: &mut Rng) {
    let text = is_shown(&[("schema.txt", schema), ("proof.txt", proof)], rng);
    let (Ok(_), Ok(read)) = (read_schema(schema), read_proof(proof)) else {
        assert!(text.contains(" cannot be shown\n"), "{text}");
        return;
    };
    let (mut nodes, marked) = drawn(&text);
    nodes.sort_unstable();
    assert_eq!(nodes, (0..read.nodes.len()).collect::<Vec<_>>(), "{text}");
    match check_texts(schema, proof).verdict {
        Verdict::Accepted { nodes, links } => {
            let said = Verdict::Accepted { nodes, links }.to_string();
            assert!(text.lines().any(|line| line == said) && marked.is_none() && !text.contains('▲'), "{text}");
        }
        Verdict::Refused { refusal, place } => {
            assert!(!text.contains("accepted"), "{text}");
            let number = format!("({})", refusal.number());
            let last = text.lines().skip_while(|line| !line.starts_with("refused: ")).collect::<String>();
            assert!(last.contains(&number), "{refusal:?}: {text}");
            if refusal.place_counts() == Some("node") {
                assert_eq!(marked, place, "{text}");
            } else {
                assert_eq!(marked, None, "{text}");
            }
        }
    }
}

fn texts_of(tables: &Tables) -> Option<[Vec<u8>; 2]> {
    let rows = |table: &[i32], count: usize| Some(table.get(..count.checked_mul(4)?)?.as_chunks().0.to_vec());
    let schema = Schema { root: tables.root, least: tables.least, rows: rows(&tables.schema, tables.schema_count)? };
    let proof = Proof {
        rows: rows(&tables.proof, tables.proof_count)?,
        nodes: tables.nodes.get(..tables.node_count.checked_mul(9)?)?.as_chunks().0.to_vec(),
        members: tables.members.get(..tables.member_count)?.to_vec(),
    };
    Some([write_schema(&schema).ok()?, write_proof(&proof).ok()?])
}

#[test]
fn generated_records() {
    let mut rng = Rng::new(1);
    let mut refusals = std::collections::BTreeMap::new();
    for number in 0..200 {
        let [schema, proof] = match case(39, number).input {
            Input::Check(tables) | Input::CheckOlder(tables) => match texts_of(&tables) {
                Some(texts) => texts,
                None => continue,
            },
            Input::Texts { schema, proof } => [schema, proof],
            _ => continue,
        };
        is_shown_right(&schema, &proof, &mut rng);
        let answer = match check_texts(&schema, &proof).verdict {
            Verdict::Accepted { .. } => 0,
            Verdict::Refused { refusal, .. } => refusal.number(),
        };
        *refusals.entry(answer).or_insert(0) += 1;
    }
    assert!(
        refusals.len() >= 10 && [0, 7, 11, 12, 14, 27].iter().all(|answer| refusals.contains_key(answer)),
        "{refusals:?}"
    );
}

#[test]
fn damaged_records() {
    let mut rng = Rng::new(2);
    for (_, path) in records() {
        let texts = ["schema.txt", "proof.txt"].map(|name| std::fs::read(path.join(name)).unwrap_or_default());
        for _ in 0..12 {
            let mut texts = texts.clone();
            for _ in 0..1 + rng.below(3) {
                damage_text(&mut texts[rng.below(2)], &mut rng);
            }
            is_shown_right(&texts[0], &texts[1], &mut rng);
        }
    }
}

#[test]
fn damaged_models_and_wide_schemata() {
    let mut rng = Rng::new(3);
    let folders = records();
    let with = |names: [&str; 2]| {
        let have_both = |path: &&PathBuf| names.iter().all(|name| path.join(name).exists());
        folders.iter().map(|(_, path)| path).filter(have_both).collect::<Vec<_>>()
    };
    for (name, other) in [("model.txt", "schema.txt"), ("wide.txt", "schema.txt")] {
        let with = with([name, other]);
        assert!(with.len() >= 3, "{name}");
        for path in with {
            let texts = [name, other].map(|name| std::fs::read(path.join(name)).unwrap());
            for _ in 0..20 {
                let mut texts = texts.clone();
                damage_text(&mut texts[rng.below(2)], &mut rng);
                let text = is_shown(&[(name, &texts[0]), (other, &texts[1])], &mut rng);
                if name == "model.txt" && read_schema(&texts[1]).is_ok() {
                    let is_accepted = check_model_texts(&texts[1], &texts[0]).verdict.is_accepted();
                    assert_eq!(text.contains("\naccepted: the schema is true"), is_accepted, "{text}");
                }
            }
        }
    }
}

#[test]
fn random_bytes() {
    let mut rng = Rng::new(4);
    for _ in 0..300 {
        let texts: Vec<Vec<u8>> = (0..5).map(|_| random_text(&mut rng)).collect();
        let names = ["wide.txt", "schema.txt", "proof.txt", "model.txt", "names.txt"];
        let given: Vec<(&str, &[u8])> =
            names.into_iter().zip(&texts).filter(|_| rng.chance(70)).map(|(name, text)| (name, &text[..])).collect();
        is_shown(&given, &mut rng);
    }
    let long = vec![b'\x1b'; 70_000];
    let given = ["wide.txt", "schema.txt", "proof.txt", "model.txt", "names.txt"].map(|name| (name, &long[..]));
    is_shown(&given, &mut rng);
    let told = show(&folder(&given), &options(Style::Unicode, false, 80)).told;
    assert_eq!(told, ["names.txt has over 65,536 bytes: no name is taken from it"]);
    let bad: Vec<u8> = b"\xff\x1b[31m\n".repeat(500);
    let told = show(&folder(&[("names.txt", &bad)]), &options(Style::Unicode, false, 80)).told;
    assert_eq!((told.len(), &told[20][..]), (21, "names.txt: 480 lines more that name nothing"));
    assert!(told.iter().all(|line| line.is_ascii() && !line.contains('\x1b')));
}

/// A record of these nodes: up, rule, on, with, other, to, by.
fn record(rows: Vec<[i32; 4]>, nodes: &[[i32; 7]]) -> [Vec<u8>; 2] {
    let mut proof = Proof::default();
    nodes.iter().for_each(|node| proof.push_node(*node, &[0]));
    let schema = Schema { root: rows.len() as i32 - 1, least: 0, rows };
    [write_schema(&schema).unwrap(), write_proof(&proof).unwrap()]
}

#[test]
fn ups_of_any_numbers() {
    let mut rng = Rng::new(5);
    for _ in 0..50 {
        let count = rng.below(40) as i32;
        let nodes: Vec<[i32; 7]> = (0..count)
            .map(|_| [rng.range(-2, count + 1), rng.range(-1, 9), 0, rng.range(-1, 2), 0, rng.range(-1, count), 1])
            .collect();
        let [schema, proof] = record(vec![[0, 0, 0, 0]], &nodes);
        is_shown_right(&schema, &proof, &mut rng);
    }
}

/// A tree of 1,024 nodes that forks at every second one goes on at the left.
#[test]
fn a_deep_tree_stays_within_the_width() {
    let nodes: Vec<[i32; 7]> =
        (0..1024).map(|node| [if node == 0 { -1 } else { (node - 1) / 2 * 2 }, 1, 0, -1, -1, -1, 0]).collect();
    let [schema, proof] = record(vec![[5, 0, 0, 0]], &nodes);
    let given = [("schema.txt", &schema[..]), ("proof.txt", &proof[..])];
    let text = shown(&given, &options(Style::Unicode, true, 80)).text;
    assert!(text.lines().all(|line| line.chars().count() <= 80));
    assert!(text.lines().count() < 2000, "{}", text.lines().count());
    assert_eq!(drawn(&text).0.len(), 1024);
    is_shown_right(&schema, &proof, &mut Rng::new(6));
}

/// A formula of 2 to the 1,000th signs, and one that nests 1,000 deep, are soon shown.
#[test]
fn large_formulas_stay_short() {
    for other in [None, Some(0)] {
        let rows =
            (0..1000)
                .map(|row| if row == 0 { [2, 0, 1, 0] } else { [4 + row % 2, row - 1, other.unwrap_or(row - 1), 0] });
        let [schema, proof] = record(rows.collect(), &[[-1, 0, 999, -1, -1, -1, 0]]);
        let text = is_shown(&[("schema.txt", &schema), ("proof.txt", &proof)], &mut Rng::new(7));
        assert!(text.len() < 100_000, "{}", text.len());
    }
}

/// Size 4,095 and depth 12 by sharing, and depth 64: as large as formulas may be.
#[test]
fn the_largest_formulas_are_short() {
    let doubled = (0..12).map(|row| if row == 0 { [2, 0, 1, 0] } else { [4 + row % 2, row - 1, row - 1, 0] }).collect();
    let deep = (0..64).map(|row| if row == 0 { [2, 0, 1, 0] } else { [4 + row % 2, row - 1, 0, 0] }).collect();
    for (rows, lines) in [(doubled, 20), (deep, 100)] {
        let [schema, _] = record(rows, &[]);
        let text = is_shown(&[("schema.txt", &schema)], &mut Rng::new(8));
        assert!(text.ends_with("well formed\n"), "{text}");
        assert!(text.lines().count() < lines, "{text}");
    }
}

/// Sixty iterations over twenty thousand i are soon worked out, and what is told of them is short.
#[test]
fn a_model_at_a_large_n() {
    let mut rows = vec![[2, 0, 2, 0], [3, 0, 2, 1], [5, 0, 1, 0], [7, 2, -9999, 0]];
    for _ in 0..60 {
        let last = rows.len() as i32 - 1;
        rows.extend([[6, 2, -9999, 0], [5, last, last + 1, 0]]);
    }
    let schema = write_schema(&Schema { root: rows.len() as i32 - 1, least: 0, rows }).unwrap();
    let pairs = (0..2000).map(|at| [0, 2 * at]).collect();
    let model = write_model(&Model { n: 9999, pairs }).unwrap();
    let text = is_shown(&[("schema.txt", &schema), ("model.txt", &model)], &mut Rng::new(9));
    assert!(text.contains("\naccepted: the schema is true") && text.len() < 100_000, "{}", text.len());
}

/// What nodes know of n, against the other implementation's.
#[test]
fn bounds_of_generated_tableaux() {
    let mut compared = 0;
    for number in 0..120 {
        let Input::Check(tables) = case(41, number).input else { continue };
        let Some([schema, proof]) = texts_of(&tables) else { continue };
        // From 11 on all parents and sets are right.
        let has_parents = match check_texts(&schema, &proof).verdict {
            Verdict::Accepted { .. } => true,
            Verdict::Refused { refusal, .. } => (11..=17).contains(&refusal.number()),
        };
        if !has_parents {
            continue;
        }
        let record = Record { schema: read_schema(&schema).unwrap(), proof: read_proof(&proof).unwrap() };
        let children = bounds::children(&record.proof.nodes);
        let other = zorambi_generate::bounds::bounds(&tables.tree());
        for (node, (bound, other)) in bounds::work_out(&record).into_iter().zip(other).enumerate() {
            // The two differ only below a split with a child too many.
            let of_split = |up: usize| record.proof.nodes[up][1] != 2 || children[up].len() <= 2;
            let mut above = std::iter::successors(bounds::parent(&record.proof.nodes, node), |up| {
                bounds::parent(&record.proof.nodes, *up)
            });
            if above.all(of_split) {
                let bound = bound.unwrap();
                assert_eq!(
                    (bound.least, bound.most),
                    (other.least.into(), other.most.map(i64::from)),
                    "case {number}, node {node}"
                );
                compared += 1;
            }
        }
    }
    assert!(compared > 200, "{compared}");
}

/// Values of iterations, against the other implementation's.
#[test]
fn values_in_random_models() {
    let mut rng = Rng::new(10);
    let mut compared = [0, 0];
    for round in 0..400 {
        let generated = random_schema(&mut rng);
        let schema = Schema { root: generated.root, least: generated.least, rows: generated.rows() };
        let pairs = random_pairs(&mut rng).as_chunks().0.to_vec();
        let model = Model { n: schema.least + rng.range(0, 9), pairs };
        if matches!(check_model(&schema, &model), Verdict::Refused { refusal, .. } if refusal != Refusal::False) {
            continue;
        }
        let formulas = Formulas::new(schema.rows.as_flattened(), schema.rows.len(), &[], 0).unwrap();
        let is_true =
            |symbol: i32, index: i64| model.pairs.iter().any(|pair| pair.map(i64::from) == [symbol.into(), index]);
        let names = Names::default();
        let notation = Notation::new(&schema.rows, &names, Style::Unicode);
        for iteration in iterations(&schema, &model) {
            let value = value(&formulas, iteration.row as i32, model.n.into(), &is_true);
            assert_eq!(iteration.is_true(&notation), value, "round {round}, row {}", iteration.row);
            compared[usize::from(value)] += 1;
        }
    }
    assert!(compared.iter().all(|count| *count > 100), "{compared:?}");
}
