//! What is shown of a schema means the schema: the text is read again by a reader of the language that is written here,
//! from its definition alone, and gives the formula of the table. So are parentheses and precedence held to the
//! language.

mod common;

use common::{options, records, shown};
use std::collections::HashMap;
use zorambi::{read_schema, write_schema, Row, Schema};
use zorambi_generate::schemata::{false_schema, random_schema};
use zorambi_generate::Rng;
use zorambi_show::{Names, Notation, Style};

/// A formula. A negated literal is the negation of a literal.
#[derive(Clone, Debug, PartialEq, Eq)]
enum Formula {
    Constant(bool),
    Literal(String, String),
    Not(Box<Formula>),
    Both(&'static str, Box<Formula>, Box<Formula>),
    Big(&'static str, String, String, Box<Formula>),
}

/// The formula of a table's row, with `p3` for symbol 3.
fn of_table(rows: &[Row], row: i32) -> Formula {
    let [kind, a, b, c] = rows[row as usize];
    let part = |part: i32| Box::new(of_table(rows, part));
    let offset = |letter: &str, c: i32| if c == 0 { letter.to_string() } else { format!("{letter}{c:+}") };
    let literal = || {
        let index = [c.to_string(), offset("n", c), offset("i", c)][b as usize].clone();
        Formula::Literal(format!("p{a}"), index)
    };
    match kind {
        0 | 1 => Formula::Constant(kind == 0),
        2 => literal(),
        3 => Formula::Not(literal().into()),
        4 => Formula::Both("and", part(a), part(b)),
        5 => Formula::Both("or", part(a), part(b)),
        6 => Formula::Big("all", b.to_string(), offset("n", -c), part(a)),
        7 => Formula::Big("some", b.to_string(), offset("n", -c), part(a)),
        8 => Formula::Not(part(a)),
        9 => Formula::Both("implies", part(a), part(b)),
        10 => Formula::Both("iff", part(a), part(b)),
        _ => Formula::Both("xor", part(a), part(b)),
    }
}

/// The words of a text: names, numbers and signs; an index in brackets is one word.
fn words(text: &str) -> Vec<String> {
    let mut words: Vec<String> = Vec::new();
    let mut letters = text.chars().peekable();
    while let Some(letter) = letters.next() {
        match letter {
            '#' => drop(letters.by_ref().find(|letter| *letter == '\n')),
            '[' => {
                words.push(format!("[{}]", letters.by_ref().take_while(|letter| *letter != ']').collect::<String>()))
            }
            '(' | ')' | ':' | '=' => words.push(letter.to_string()),
            _ if letter.is_whitespace() => {}
            _ => {
                let mut word = letter.to_string();
                while let Some(next) = letters.next_if(|next| next.is_ascii_alphanumeric() || "_+-".contains(*next)) {
                    word.push(next);
                }
                words.push(word);
            }
        }
    }
    words
}

/// Reads a schema of the language.
struct Reader {
    words: std::iter::Peekable<std::vec::IntoIter<String>>,
    defined: HashMap<String, Formula>,
}

impl Reader {
    fn new(text: &str) -> Reader {
        Reader { words: words(text).into_iter().peekable(), defined: HashMap::new() }
    }

    fn next(&mut self) -> String {
        self.words.next().expect("the text goes on")
    }

    fn take(&mut self, word: &str) -> bool {
        self.words.next_if(|next| next == word).is_some()
    }

    fn expect(&mut self, word: &str) {
        assert_eq!(self.next(), word);
    }

    /// The least value and the formula.
    fn schema(&mut self) -> (i32, Formula) {
        let mut least = 0;
        loop {
            match &self.next()[..] {
                "least" => least = self.next().parse().unwrap(),
                "define" => {
                    let name = self.next();
                    self.expect("=");
                    let formula = self.iff();
                    assert!(self.defined.insert(name, formula).is_none(), "a name is defined once");
                }
                "formula" => {
                    let formula = self.iff();
                    assert_eq!(self.words.next(), None);
                    return (least, formula);
                }
                other => panic!("{other} begins no item"),
            }
        }
    }

    fn iff(&mut self) -> Formula {
        let mut left = self.implies();
        loop {
            let sign = match () {
                () if self.take("iff") => "iff",
                () if self.take("xor") => "xor",
                () => return left,
            };
            left = Formula::Both(sign, left.into(), self.implies().into());
        }
    }

    fn implies(&mut self) -> Formula {
        let left = self.or();
        if self.take("implies") {
            return Formula::Both("implies", left.into(), self.implies().into());
        }
        left
    }

    fn or(&mut self) -> Formula {
        let mut left = self.and();
        while self.take("or") {
            left = Formula::Both("or", left.into(), self.and().into());
        }
        left
    }

    fn and(&mut self) -> Formula {
        let mut left = self.not();
        while self.take("and") {
            left = Formula::Both("and", left.into(), self.not().into());
        }
        left
    }

    fn not(&mut self) -> Formula {
        match &self.next()[..] {
            "not" => Formula::Not(self.not().into()),
            "all" => self.big("all"),
            "some" => self.big("some"),
            "true" => Formula::Constant(true),
            "false" => Formula::Constant(false),
            "(" => {
                let inside = self.iff();
                self.expect(")");
                inside
            }
            name => match self.words.next_if(|next| next.starts_with('[')) {
                Some(index) => Formula::Literal(name.to_string(), index.trim_matches(['[', ']']).to_string()),
                None => self.defined.get(name).unwrap_or_else(|| panic!("{name} is not defined")).clone(),
            },
        }
    }

    fn big(&mut self, kind: &'static str) -> Formula {
        self.expect("i");
        self.expect("from");
        let first = self.next();
        self.expect("to");
        let last = self.next();
        self.expect(":");
        Formula::Big(kind, first, last, self.iff().into())
    }
}

/// The mathematical notation in plain letters, sign by sign.
fn in_letters(text: &str) -> String {
    let mut letters = String::new();
    let mut is_literal = false;
    let mut before = ' ';
    for letter in text.replace("..", " to ").replace("⋀ i=", "all i from ").replace("⋁ i=", "some i from ").chars()
    {
        match letter {
            '(' if before.is_ascii_alphanumeric() => {
                is_literal = true;
                letters.push('[');
            }
            ')' if is_literal => {
                is_literal = false;
                letters.push(']');
            }
            // The number of a row.
            '[' => letters.push_str(" r"),
            ']' => letters.push(' '),
            '∧' => letters.push_str("and"),
            '∨' => letters.push_str("or"),
            '¬' => letters.push_str("not "),
            '→' => letters.push_str("implies"),
            '↔' => letters.push_str("iff"),
            '⊕' => letters.push_str("xor"),
            letter => letters.push(letter),
        }
        before = letter;
    }
    letters
}

/// In both notations, and in lines of some width, it is read again as it is.
fn is_read_again(schema: &Schema, width: usize) {
    let wanted = of_table(&schema.rows, schema.root);
    let text = write_schema(schema).unwrap();
    // A wide schema's text may stand as a schema's too: it is then shown although it is refused.
    let plain = shown(&[("schema.txt", &text)], &options(Style::Ascii, false, width)).text;
    assert!(plain.is_ascii());
    assert_eq!(Reader::new(&plain).schema(), (schema.least, wanted.clone()), "{plain}");
    let names = Names::default();
    let notation = Notation::new(&schema.rows, &names, Style::Unicode);
    let shared = notation.shared(&[schema.root]);
    let mut letters = String::new();
    for row in &shared {
        let lines = notation.lines(*row as i32, &shared, "", width).join("\n");
        letters += &format!("define r{row} = {}\n", in_letters(&lines));
    }
    let lines = notation.lines(schema.root, &shared, "", width).join("\n");
    letters += &format!("formula {}", in_letters(&lines));
    assert_eq!(Reader::new(&letters).schema().1, wanted, "{letters}");
}

#[test]
fn every_records_schema() {
    for (name, folder) in records() {
        for file in ["schema.txt", "wide.txt"] {
            let Ok(text) = std::fs::read(folder.join(file)) else { continue };
            let Ok(schema) = read_schema(&text) else { continue };
            // One of size 4,097, and ill-formed ones, are shown, but are no formulas.
            if zorambi::convert(&schema).is_ok() {
                [40, 80, 100].into_iter().for_each(|width| is_read_again(&schema, width));
            } else {
                println!("{name}/{file} is refused");
            }
        }
    }
}

#[test]
fn generated_schemata() {
    let mut rng = Rng::new(39);
    for round in 0..200 {
        let schema = if round % 2 == 0 { random_schema(&mut rng) } else { false_schema(&mut rng) };
        let (root, least, rows) = (schema.root, schema.least, schema.rows());
        is_read_again(&Schema { root, least, rows }, rng.pick(&[40, 80, 120]));
    }
}

/// Any formula of all kinds, bodies with iterations too, of at most 4,096 signs and depth 64.
fn any_schema(rng: &mut Rng) -> Schema {
    let (mut rows, mut sizes): (Vec<Row>, Vec<[usize; 2]>) = (Vec::new(), Vec::new());
    let count = 4 + rng.below(60);
    while rows.len() < count {
        let number = rows.len();
        let leaf = [rng.range(0, 3), rng.range(0, 9), rng.range(0, 2), rng.range(-3, 3)];
        let leaf = if leaf[0] < 2 { [leaf[0], 0, 0, 0] } else { leaf };
        if number < 4 || rng.chance(20) {
            rows.push(leaf);
            sizes.push([1, 1]);
            continue;
        }
        // Mostly of the last rows, so that formulas become deep.
        let mut part = || (if rng.chance(60) { number - 1 - rng.below(3) } else { rng.below(number) }) as i32;
        let [a, b] = [part(), part()];
        let row = match rng.range(4, 11) {
            kind @ (6 | 7) => [kind, a, rng.range(-2, 4), rng.range(-2, 2)],
            8 => [8, a, 0, 0],
            kind => [kind, a, b, 0],
        };
        let [first, second] = [a, b].map(|part| sizes[part as usize]);
        let has_two = !matches!(row[0], 6..=8);
        let size = 1 + first[0] + if has_two { second[0] } else { 0 };
        let depth = 1 + first[1].max(if has_two { second[1] } else { 0 });
        if size <= 4096 && depth <= 64 {
            rows.push(row);
            sizes.push([size, depth]);
        }
    }
    Schema { root: rows.len() as i32 - 1, least: 0, rows }
}

#[test]
fn any_formula_of_all_kinds() {
    let mut rng = Rng::new(40);
    for _ in 0..300 {
        let schema = any_schema(&mut rng);
        is_read_again(&schema, rng.pick(&[40, 80, 120]));
    }
}

#[test]
fn a_symbol_named_like_a_row_is_told_from_it() {
    let schema = b"root least\n3 0\nkind a b c\n2 0 1 0\n2 1 1 0\n5 0 1 0\n4 2 2 0\n";
    let shown = shown(&[("schema.txt", schema), ("names.txt", b"0 r2\n")], &options(Style::Ascii, false, 80));
    let lines: Vec<&str> = shown.text.lines().filter(|line| !line.starts_with('#') && !line.is_empty()).collect();
    assert_eq!(lines, ["least 0", "define r_2 = r2[n] or p1[n]", "formula r_2 and r_2"]);
}
