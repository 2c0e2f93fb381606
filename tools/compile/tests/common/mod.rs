//! Random wide schemata and random sources, formula trees up to sharing, and values at small n.

#![allow(dead_code)]

use std::collections::HashMap;
use zorambi::{Row, Schema};
use zorambi_generate::rng::mix;
use zorambi_generate::Rng;
use zorambi_notation::{Names, Notation, Style};
use zorambi_reference::convert::wide_value;

/// The formula trees of several tables, each once; a `not` of a literal is the negated literal. Symbols go by their
/// names.
#[derive(Default)]
pub struct Trees {
    rows: HashMap<(Row, String), i32>,
}

impl Trees {
    /// The number of the root's tree.
    pub fn root(&mut self, schema: &Schema, name: impl Fn(i32) -> String) -> i32 {
        let mut trees: Vec<i32> = Vec::new();
        for (number, &[kind, a, b, c]) in schema.rows.iter().enumerate() {
            let at = |row: i32| trees[usize::try_from(row).expect("a row")];
            let tree = match kind {
                0 | 1 => self.number([kind, 0, 0, 0], ""),
                2 | 3 => self.number([kind, 0, b, c], &name(a)),
                4 | 5 | 9..=11 => self.number([kind, at(a), at(b), 0], ""),
                6 | 7 => self.number([kind, at(a), b, c], ""),
                8 => match schema.rows[a as usize] {
                    [2, symbol, b, c] => self.number([3, 0, b, c], &name(symbol)),
                    _ => self.number([8, at(a), 0, 0], ""),
                },
                _ => panic!("row {number}"),
            };
            trees.push(tree);
        }
        trees[schema.root as usize]
    }

    fn number(&mut self, row: Row, name: &str) -> i32 {
        let next = self.rows.len() as i32;
        *self.rows.entry((row, name.to_string())).or_insert(next)
    }
}

/// What a symbol is called by these names, or by its number.
pub fn called(names: &[(i32, String)]) -> impl Fn(i32) -> String + '_ {
    |symbol| names.iter().find(|(number, _)| *number == symbol).map_or(format!("p{symbol}"), |(_, name)| name.clone())
}

/// A schema in the language, as `show` writes it.
pub fn in_plain_letters(schema: &Schema, names: &[(i32, String)], width: usize) -> String {
    let lines: String = names.iter().map(|(number, name)| format!("{number} {name}\n")).collect();
    let (names, told) = Names::read(lines.as_bytes());
    assert_eq!(told, [""; 0], "names.txt is as show reads it");
    let notation = Notation::new(&schema.rows, &names, Style::Ascii);
    let shared = notation.shared(&[schema.root]);
    let mut text = format!("least {}\n", schema.least);
    for row in &shared {
        let before = format!("define {} = ", notation.row_name(*row));
        text += &notation.lines(*row as i32, &shared, &before, width).join("\n");
        text.push('\n');
    }
    text + &notation.lines(schema.root, &shared, "formula ", width).join("\n") + "\n"
}

/// True or false for each symbol's name and index.
pub fn assignment<'a>(seed: u64, name: &'a dyn Fn(i32) -> String) -> impl Fn(i32, i64) -> bool + 'a {
    move |symbol, index| is_true(seed, &name(symbol), index)
}

pub fn is_true(seed: u64, name: &str, index: i64) -> bool {
    let hash = name.bytes().fold(seed, |hash, byte| mix(hash ^ u64::from(byte)));
    mix(hash ^ index as u64) & 1 == 1
}

/// The other implementation's value of a wide schema.
pub fn value(schema: &Schema, n: i64, seed: u64, name: &dyn Fn(i32) -> String) -> bool {
    wide_value(&schema.rows, schema.root, n, 0, &assignment(seed, name))
}

fn offset(rng: &mut Rng) -> i32 {
    match rng.below(12) {
        0 => rng.pick(&[-9999, 9999]),
        1 => rng.range(-9999, 9999),
        _ => rng.range(-2, 2),
    }
}

/// A random wide schema that the library takes. Rows may repeat, and the root need not reach all of them.
pub fn random_schema(rng: &mut Rng) -> Schema {
    loop {
        let schema = random_rows(rng);
        if zorambi::convert(&schema).is_ok() {
            return schema;
        }
    }
}

fn random_rows(rng: &mut Rng) -> Schema {
    let mut rows: Vec<Row> = Vec::new();
    // Rows by what they may be part of: a body, something outside, or either.
    let (mut bodies, mut outers): (Vec<i32>, Vec<i32>) = (Vec::new(), Vec::new());
    let symbols = rng.pick(&[1, 3, 3, 10]);
    let count = rng.pick(&[3, 6, 12, 24, 60]);
    while rows.len() < count || outers.is_empty() {
        let number = rows.len() as i32;
        let in_body = rng.chance(50);
        let part = |rng: &mut Rng| {
            let pool = if in_body { &bodies } else { &outers };
            // Late rows, mostly, so that formulas become deep.
            let from = if rng.chance(70) { pool.len().saturating_sub(4) } else { 0 };
            pool.get(from + rng.below(pool.len() - from.min(pool.len()))).copied()
        };
        let (a, b) = (part(rng), part(rng));
        let row = match (rng.below(12), a, b) {
            (0, ..) => [rng.range(0, 1), 0, 0, 0],
            (1, Some(a), _) => [8, a, 0, 0],
            (2..=7, Some(a), Some(b)) => [rng.pick(&[4, 4, 5, 5, 9, 10, 11]), a, b, 0],
            (8 | 9, ..) if !in_body && !bodies.is_empty() => {
                [rng.range(6, 7), bodies[rng.below(bodies.len())], offset(rng), offset(rng)]
            }
            _ => {
                let symbol = if rng.chance(3) { 255 } else { rng.range(0, symbols - 1) };
                [rng.range(2, 3), symbol, if in_body { 2 } else { rng.range(0, 1) }, offset(rng)]
            }
        };
        rows.push(row);
        let is_neutral = row[0] < 2;
        if in_body || is_neutral {
            bodies.push(number);
        }
        if !in_body || is_neutral {
            outers.push(number);
        }
    }
    let root = largest(&rows, &outers);
    Schema { root, least: rng.pick(&[0, 0, 1, 2, 9999]), rows }
}

/// The largest formula of these rows.
fn largest(rows: &[Row], of: &[i32]) -> i32 {
    let mut sizes: Vec<u64> = Vec::new();
    for &[kind, a, b, _] in rows {
        let size = |row: i32| sizes[row as usize];
        sizes.push(match kind {
            4 | 5 | 9..=11 => size(a).saturating_add(size(b)).saturating_add(1),
            6..=8 => size(a).saturating_add(1),
            _ => 1,
        });
    }
    of.iter().copied().max_by_key(|row| sizes[*row as usize]).expect("an outer row")
}
