//! Random sources mean what their formulas mean, shown and compiled again too; and no bytes make the compiler panic.

mod common;

use common::{called, in_plain_letters, is_true, value, Trees};
use zorambi_compile::compile;
use zorambi_generate::Rng;

/// A formula, as the language has it.
#[derive(Clone)]
enum Formula {
    Truth(bool),
    /// A name, and what its index is counted from, with a number to be added.
    Literal(&'static str, &'static str, i64),
    Not(Box<Formula>),
    Join(&'static str, Box<Formula>, Box<Formula>),
    /// all or some, from and to n + .
    Iteration(&'static str, i64, i64, Box<Formula>),
    Part(String, Box<Formula>),
}

use Formula::{Iteration, Join, Literal, Not, Part, Truth};

impl Formula {
    fn value(&self, n: i64, i: i64, seed: u64) -> bool {
        match self {
            Truth(value) => *value,
            Literal(name, "", number) => is_true(seed, name, *number),
            Literal(name, base, number) => is_true(seed, name, number + if *base == "n" { n } else { i }),
            Not(part) => !part.value(n, i, seed),
            Join(word, left, right) => {
                let [left, right] = [left, right].map(|side| side.value(n, i, seed));
                match *word {
                    "and" => left && right,
                    "or" => left || right,
                    "implies" => !left || right,
                    "iff" => left == right,
                    _ => left != right,
                }
            }
            Iteration("all", from, to, body) => (*from..=n + to).all(|i| body.value(n, i, seed)),
            Iteration(_, from, to, body) => (*from..=n + to).any(|i| body.value(n, i, seed)),
            Part(_, part) => part.value(n, i, seed),
        }
    }

    /// Where the formula may stand without parentheses: 0 anywhere, 4 beside `not`.
    fn level(&self) -> usize {
        match self {
            Join(word, ..) => level(word),
            _ => 4,
        }
    }

    /// An iteration would take what follows into its body.
    fn is_open(&self) -> bool {
        match self {
            Iteration(..) => true,
            Not(part) => part.is_open(),
            Join(_, _, right) => right.is_open(),
            _ => false,
        }
    }
}

fn level(word: &str) -> usize {
    match word {
        "iff" | "xor" => 0,
        "implies" => 1,
        "or" => 2,
        _ => 3,
    }
}

struct Writer<'a> {
    rng: &'a mut Rng,
    text: String,
}

impl Writer<'_> {
    fn blank(&mut self) {
        self.text += self.rng.pick(&[" ", " ", " ", "  ", "\n", "\t", "\r\n", " # (a comment and\n"]);
    }

    fn word(&mut self, word: &str) {
        self.text += word;
        self.blank();
    }

    fn number(&mut self, base: &str, number: i64) {
        let gap = self.rng.pick(&["", "", " "]);
        self.text += &match (base, number) {
            ("", number) if number < 0 => format!("-{gap}{}", -number),
            ("", number) => number.to_string(),
            (base, 0) if self.rng.chance(90) => base.to_string(),
            (base, number) if number < 0 => format!("{base}{gap}-{gap}{}", -number),
            (base, number) => format!("{base}{gap}+{gap}{number}"),
        };
    }

    /// In parentheses where the language wants them, and sometimes where it does not.
    fn operand(&mut self, formula: &Formula, least: usize, is_last: bool) {
        if formula.level() < least || formula.is_open() && !is_last || self.rng.chance(10) {
            self.text.push('(');
            self.formula(formula, true);
            self.text.push(')');
        } else {
            self.formula(formula, is_last);
        }
    }

    fn formula(&mut self, formula: &Formula, is_last: bool) {
        match formula {
            Truth(value) => self.text += if *value { "true" } else { "false" },
            Literal(name, base, number) => {
                self.text += name;
                self.text.push('[');
                self.number(base, *number);
                self.text.push(']');
            }
            Not(part) => {
                self.word("not");
                self.operand(part, 4, is_last);
            }
            Join(word, left, right) => {
                let level = level(word);
                let is_implies = *word == "implies";
                self.operand(left, level + usize::from(is_implies), false);
                self.blank();
                self.word(word);
                self.operand(right, level + usize::from(!is_implies), is_last);
            }
            Iteration(word, from, to, body) => {
                self.word(word);
                self.word("i");
                self.word("from");
                self.number("", *from);
                self.blank();
                self.word("to");
                self.number("n", *to);
                self.text += self.rng.pick(&[":", " :", ": "]);
                self.operand(body, 0, true);
            }
            Part(name, _) => self.text += name,
        }
    }
}

const NAMES: [&str; 6] = ["x", "y", "carry", "s_1", "Z", "p7"];

struct Maker<'a> {
    rng: &'a mut Rng,
    /// Parts by name, those on i and the others.
    on_i: Vec<Formula>,
    outer: Vec<Formula>,
}

impl Maker<'_> {
    fn formula(&mut self, depth: usize, in_body: bool) -> Formula {
        let depth = depth.saturating_sub(1);
        if depth == 0 || self.rng.chance(15) {
            return self.leaf(in_body);
        }
        match self.rng.below(10) {
            0 | 1 => Not(self.formula(depth, in_body).into()),
            2 | 3 if !in_body => {
                let (word, from, to) = (self.rng.pick(&["all", "some"]), self.rng.range(-2, 3), self.rng.range(-2, 2));
                Iteration(word, from.into(), to.into(), self.formula(depth, true).into())
            }
            _ => {
                let word = self.rng.pick(&["and", "or", "implies", "iff", "xor"]);
                Join(word, self.formula(depth, in_body).into(), self.formula(depth, in_body).into())
            }
        }
    }

    fn leaf(&mut self, in_body: bool) -> Formula {
        let parts = if in_body { &self.on_i } else { &self.outer };
        if !parts.is_empty() && self.rng.chance(40) {
            return parts[self.rng.below(parts.len())].clone();
        }
        if self.rng.chance(10) {
            return Truth(self.rng.chance(50));
        }
        let base = if in_body { "i" } else { self.rng.pick(&["", "n"]) };
        Literal(self.rng.pick(&NAMES), base, self.rng.range(-3, 3).into())
    }
}

/// A random source and its formula.
fn random_source(rng: &mut Rng) -> (String, Formula) {
    let mut items: Vec<(String, Formula)> = Vec::new();
    let mut maker = Maker { rng, on_i: Vec::new(), outer: Vec::new() };
    for k in 0..maker.rng.below(4) {
        let in_body = maker.rng.chance(50);
        let formula = maker.formula(4, in_body);
        let name = format!("{}{k}", maker.rng.pick(&["part", "r", "q_", "n", "alls"]));
        let pool = if in_body { &mut maker.on_i } else { &mut maker.outer };
        pool.push(Part(name.clone(), formula.clone().into()));
        items.push((format!("define {name} ="), formula));
    }
    let depth = maker.rng.pick(&[2, 4, 6]);
    let whole = maker.formula(depth, false);
    items.push(("formula".to_string(), whole.clone()));
    let mut writer = Writer { rng, text: String::new() };
    for (head, formula) in &items {
        writer.word(head);
        writer.operand(formula, 0, true);
        writer.blank();
    }
    (writer.text, whole)
}

#[test]
fn random_sources() {
    let mut compiled = 0;
    for seed in 0..4000 {
        let mut rng = Rng::new(seed);
        let (text, formula) = random_source(&mut rng);
        let first = match compile(text.as_bytes()) {
            Ok(first) => first,
            // Sides of iff and xor in one another can become too large, and nothing else can be wrong.
            Err(fault) if fault.words.contains("plain rows, at most") => continue,
            Err(fault) => panic!("{seed}: {}\n{text}", fault.told("source", text.as_bytes())),
        };
        compiled += 1;
        let shown = in_plain_letters(&first.schema, &first.names, 100);
        let second = compile(shown.as_bytes())
            .unwrap_or_else(|fault| panic!("{seed}: {}\n{text}", fault.told("shown", shown.as_bytes())));
        let mut trees = Trees::default();
        let tree = trees.root(&first.schema, called(&first.names));
        assert_eq!(tree, trees.root(&second.schema, called(&second.names)), "{seed}\n{text}\n{shown}");
        for n in 0..4 {
            for seed in [seed, seed + 1_000_000] {
                let expected = formula.value(n, 0, seed);
                for (schema, names) in [(&first.schema, &first.names), (&second.schema, &second.names)] {
                    assert_eq!(value(schema, n, seed, &called(names)), expected, "{seed}, n = {n}\n{text}");
                }
            }
        }
    }
    assert!(compiled > 3500, "{compiled} of 4000 compiled");
}

/// Each operator by its truth table, by the rows that it has.
#[test]
fn precedence() {
    let rows = |text: &str| compile(format!("formula {text}").as_bytes()).expect(text).schema.rows;
    for (plain, grouped) in [
        ("a[0] and b[0] or c[0]", "(a[0] and b[0]) or c[0]"),
        ("a[0] or b[0] and c[0]", "a[0] or (b[0] and c[0])"),
        ("a[0] or b[0] implies c[0]", "(a[0] or b[0]) implies c[0]"),
        ("a[0] implies b[0] implies c[0]", "a[0] implies (b[0] implies c[0])"),
        ("a[0] iff b[0] implies c[0]", "a[0] iff (b[0] implies c[0])"),
        ("a[0] iff b[0] xor c[0]", "(a[0] iff b[0]) xor c[0]"),
        ("a[0] xor b[0] iff c[0]", "(a[0] xor b[0]) iff c[0]"),
        ("a[0] and b[0] and c[0]", "(a[0] and b[0]) and c[0]"),
        ("not (a[0]) and b[0]", "(not (a[0])) and b[0]"),
        ("a[0] and all i from 1 to n: b[i] or c[i]", "a[0] and (all i from 1 to n: (b[i] or c[i]))"),
        ("not some i from 1 to n: b[i] xor c[i]", "not (some i from 1 to n: (b[i] xor c[i]))"),
    ] {
        assert_eq!(rows(plain), rows(grouped), "{plain}");
    }
    assert_eq!(rows("not a[0]"), [[3, 0, 0, 0]]);
    assert_eq!(rows("not (a[0])"), [[2, 0, 0, 0], [8, 0, 0, 0]]);
    assert_eq!(rows("not not a[0]"), [[3, 0, 0, 0], [8, 0, 0, 0]]);
    assert_eq!(rows("a[-3] implies a[n+2]"), [[2, 0, 0, -3], [2, 0, 1, 2], [9, 0, 1, 0]]);
    assert_eq!(rows("all i from -2 to n-3: a[i-1]"), [[2, 0, 2, -1], [6, 0, -2, 3]]);
    assert_eq!(rows("some i from 0 to n+3: a[i+9999]"), [[2, 0, 2, 9999], [7, 0, 0, -3]]);
    assert_eq!(
        rows("p3[0] or x[0] or p0[0] or y[0]")[..5],
        [[2, 3, 0, 0], [2, 1, 0, 0], [5, 0, 1, 0], [2, 0, 0, 0], [5, 2, 3, 0]]
    );
    assert_eq!(rows("true xor false"), [[0, 0, 0, 0], [1, 0, 0, 0], [11, 0, 1, 0]]);
}

#[test]
fn any_bytes() {
    let mut refused = 0;
    for seed in 0..20_000 {
        let mut rng = Rng::new(seed);
        let words = [
            "formula ",
            "define ",
            "least ",
            "x[i]",
            "all i from 1 to n: ",
            "some ",
            "(",
            ")",
            "not ",
            " and ",
            " iff ",
            "a",
            " = ",
            "[",
            "]",
            "n",
            "i",
            "-",
            "9999",
            "10000",
            ":",
            "\n",
            "#",
            "é",
            "->",
            "\0",
        ];
        let mut source: Vec<u8> = if seed % 2 == 0 { random_source(&mut rng).0.into_bytes() } else { Vec::new() };
        for _ in 0..rng.below(8) {
            let at = rng.below(source.len() + 1);
            match rng.below(4) {
                0 => source.insert(at, rng.below(256) as u8),
                1 if at < source.len() => drop(source.remove(at)),
                2 => source.truncate(at),
                _ => drop(source.splice(at..at, rng.pick(&words).bytes())),
            }
        }
        if let Err(fault) = compile(&source) {
            refused += 1;
            let told = fault.told("source", &source);
            let is_plain = |byte: u8| matches!(byte, b' '..=b'~' | b'\n');
            let told_plainly = told.bytes().all(is_plain) || told.contains("has no meaning here");
            assert!(told_plainly && told.lines().count() == 3, "{seed}: {told}");
        }
    }
    assert!(refused > 10_000, "{refused} refused");
}
