//! What is shown in plain letters compiles to the same formulas, and means the same at small n.

mod common;

use common::{called, in_plain_letters, random_schema, value, Trees};
use zorambi::Schema;
use zorambi_compile::{compile, Compiled};
use zorambi_generate::Rng;

/// What a text compiles to, which is to be compiled.
fn compiled(text: &str) -> Compiled {
    compile(text.as_bytes()).unwrap_or_else(|fault| panic!("{}\n{text}", fault.told("shown", text.as_bytes())))
}

/// Rows are written once, and all of them are needed.
fn is_compact(schema: &Schema) -> bool {
    let mut is_needed = vec![false; schema.rows.len()];
    is_needed[schema.root as usize] = true;
    for &[kind, a, b, _] in &schema.rows {
        let parts = match kind {
            4 | 5 | 9..=11 => vec![a, b],
            6..=8 => vec![a],
            _ => vec![],
        };
        parts.iter().for_each(|part| is_needed[*part as usize] = true);
    }
    let once = (1..schema.rows.len()).all(|row| !schema.rows[..row].contains(&schema.rows[row]));
    once && is_needed.iter().all(|needed| *needed)
}

#[test]
fn random_schemata() {
    let (mut sharing, mut deepest) = (0, 0);
    for seed in 0..3000 {
        let mut rng = Rng::new(seed);
        let schema = random_schema(&mut rng);
        let text = in_plain_letters(&schema, &[], rng.pick(&[30, 80, 120]));
        let again = compiled(&text);
        let name = called(&[]);
        let mut trees = Trees::default();
        let [first, second] = [&schema, &again.schema].map(|schema| trees.root(schema, &name));
        assert_eq!(first, second, "{seed}: {schema:?}\n{text}{:?}", again.schema);
        assert_eq!((again.schema.least, &again.names[..]), (schema.least, &[][..]), "{seed}");
        assert!(is_compact(&again.schema), "{seed}: {:?}", again.schema);
        if schema.rows.iter().all(|row| row[0] < 6 || row[0] > 7 || row[2].abs() + row[3].abs() < 99) {
            for n in 0..4 {
                let [first, second] = [&schema, &again.schema].map(|schema| value(schema, n, seed, &name));
                assert_eq!(first, second, "{seed}, n = {n}\n{text}");
            }
        }
        sharing += usize::from(text.contains("define"));
        deepest = deepest.max(text.matches('(').count());
    }
    assert!(sharing > 800 && deepest > 7, "{sharing} have parts by name, at most {deepest} parentheses");
}

#[test]
fn names() {
    for seed in 0..500 {
        let mut rng = Rng::new(seed);
        let schema = random_schema(&mut rng);
        // Some symbols have names, some are called by their numbers.
        let words = ["x", "carry_in", "_1", "r", "r7", "p", "p01", "all_", "P3"];
        let mut names: Vec<(i32, String)> = Vec::new();
        for (symbol, word) in [0, 1, 2, 3, 4, 5, 6, 7, 255].into_iter().zip(words) {
            if rng.chance(60) {
                names.push((symbol, word.to_string()));
            }
        }
        let text = in_plain_letters(&schema, &names, 100);
        let again = compiled(&text);
        let mut trees = Trees::default();
        let first = trees.root(&schema, called(&names));
        assert_eq!(first, trees.root(&again.schema, called(&again.names)), "{seed}\n{text}");
    }
}

/// The schema shown and compiled has the same formula.
fn comes_back(schema: &Schema, what: &str) {
    let again = compiled(&in_plain_letters(schema, &[], 100));
    let mut trees = Trees::default();
    let name = called(&[]);
    assert_eq!(trees.root(schema, &name), trees.root(&again.schema, &name), "{what}");
}

#[test]
fn shipped_schemata() {
    let records = concat!(env!("CARGO_MANIFEST_DIR"), "/../../records");
    let mut count = 0;
    for folder in ["wide", "accepted", "paper", "tidy"] {
        for entry in std::fs::read_dir(format!("{records}/{folder}")).expect("a folder of records").flatten() {
            for name in ["wide.txt", "schema.txt"] {
                let Ok(text) = std::fs::read(entry.path().join(name)) else { continue };
                comes_back(&zorambi::read_schema(&text).expect("a schema"), &format!("{:?}", entry.path()));
                count += 1;
            }
        }
    }
    assert!(count > 20, "{count} shipped schemata");
}

#[test]
fn small_schemata() {
    let small = [1, 2].into_iter().flat_map(|rows| zorambi::small(rows).expect("one or two rows"));
    assert_eq!(small.map(|schema| comes_back(&schema, &format!("{schema:?}"))).count(), 14 + 340);
}
