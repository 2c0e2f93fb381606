//! Items and formulas, by going down the tokens; rows are made on the way up. 01's rules on bodies and on mixing are
//! told at the place where they are broken.

use crate::lexer::{Kind, Token};
use crate::rows::{Rows, AND, BIG_AND, BIG_OR, EQUIVALENT, EXCLUSIVE, FALSE, IMPLIES, LITERAL, NEGATED, NOT, OR, TRUE};
use crate::source::{place, Fault};
use crate::symbols::Symbols;
use crate::words;
use std::collections::HashMap;
use zorambi_commands::nearest;

const MAX_NUMBER: i32 = 9999;

/// How deep formulas are gone down: a formula of depth 64 needs two for each of its levels, an operator and a
/// parenthesis.
const MAX_NESTING: usize = 130;

/// What a literal's number is added to.
const PLAIN: i32 = 0;
const ON_N: i32 = 1;
const ON_I: i32 = 2;

/// An operator with two sides; the tighter it binds, the higher its level.
struct Operator {
    word: &'static str,
    kind: i32,
    level: usize,
}

const fn operator(word: &'static str, kind: i32, level: usize) -> Operator {
    Operator { word, kind, level }
}

const OPERATORS: [Operator; 5] = [
    operator("iff", EQUIVALENT, 0),
    operator("xor", EXCLUSIVE, 0),
    operator("implies", IMPLIES, 1),
    operator("or", OR, 2),
    operator("and", AND, 3),
];

/// Something in the source that says of a formula what it is about.
#[derive(Clone)]
struct Witness {
    at: usize,
    words: String,
}

/// A formula: its row, and what there is in it that bodies and mixing are judged by.
#[derive(Clone)]
struct Formula {
    row: i32,
    /// A literal on i outside an iteration.
    on_i: Option<Witness>,
    /// A literal not on i, or an iteration.
    outer: Option<Witness>,
}

/// A formula that has a name.
struct Part {
    formula: Formula,
    at: usize,
}

/// Where a formula stands.
#[derive(Clone, Copy, PartialEq, Eq)]
enum Within {
    Definition,
    Whole,
    /// The body of the iteration that begins at this byte.
    Body(usize),
}

/// A source's least value, its rows and its root.
pub struct Parsed {
    pub least: i32,
    pub rows: Rows,
    pub root: i32,
}

pub fn parse(source: &str, tokens: &[Token], symbols: &Symbols) -> Result<Parsed, Fault> {
    let parts = HashMap::new();
    let mut parser = Parser { source, tokens, symbols, next: 0, parts, rows: Rows::default(), nesting: 0 };
    let (least, root) = parser.items()?;
    Ok(Parsed { least, rows: parser.rows, root })
}

struct Parser<'a> {
    source: &'a str,
    /// The last one is the end, which is never passed.
    tokens: &'a [Token<'a>],
    symbols: &'a Symbols<'a>,
    next: usize,
    parts: HashMap<&'a str, Part>,
    rows: Rows,
    nesting: usize,
}

impl<'a> Parser<'a> {
    // ---- tokens

    fn peek(&self) -> Token<'a> {
        self.tokens[self.next]
    }

    /// The token after the next one.
    fn second(&self) -> Token<'a> {
        self.tokens[(self.next + 1).min(self.tokens.len() - 1)]
    }

    fn take(&mut self) -> Token<'a> {
        let token = self.peek();
        self.next = (self.next + 1).min(self.tokens.len() - 1);
        token
    }

    /// Takes the next token if it is this one.
    fn took(&mut self, text: &str) -> bool {
        let is = self.peek().is(text);
        if is {
            self.take();
        }
        is
    }

    fn expect(&mut self, text: &str, what: &str) -> Result<(), Fault> {
        if self.took(text) {
            return Ok(());
        }
        let token = self.peek();
        Err(Fault::new(token.at, words::expected(what, &token)))
    }

    fn line(&self, at: usize) -> usize {
        place(self.source.as_bytes(), at).line
    }

    // ---- items

    /// The least value and the root.
    fn items(&mut self) -> Result<(i32, i32), Fault> {
        let mut least: Option<(i32, usize)> = None;
        loop {
            let token = self.take();
            match token.text {
                "least" => {
                    if let Some((_, at)) = least {
                        return Err(Fault::new(token.at, words::least_twice(self.line(at))));
                    }
                    least = Some((self.number("a number from 0 to 9999 after 'least'")?, token.at));
                }
                "define" => self.definition()?,
                "formula" => {
                    let formula = self.whole()?;
                    return Ok((least.map_or(0, |(least, _)| least), formula.row));
                }
                _ if token.kind == Kind::End => return Err(Fault::new(token.at, words::missing_formula())),
                _ => return Err(Fault::new(token.at, self.no_item(&token))),
            }
        }
    }

    /// What is said of a token where an item should begin.
    fn no_item(&self, token: &Token) -> String {
        let is_first = token.at == self.tokens[0].at;
        let near = nearest(token.text, ["least", "define", "formula"].into_iter()).filter(|_| token.is_name());
        match near {
            None if is_first => words::no_formula_word(token),
            near => words::expected_near(words::ITEM, token, near),
        }
    }

    fn definition(&mut self) -> Result<(), Fault> {
        let name = self.take();
        let told = |words| Err(Fault::new(name.at, words));
        if name.is_reserved() {
            return told(words::reserved_name(&name));
        }
        if !name.is_name() {
            return told(words::expected("a part's name after 'define'", &name));
        }
        if self.symbols.number(name.text).is_some() {
            return told(words::part_is_symbol(name.text));
        }
        if let Some(part) = self.parts.get(name.text) {
            return told(words::part_twice(name.text, self.line(part.at)));
        }
        self.expect("=", "'=' after the part's name")?;
        let formula = self.formula(0, "'='", Within::Definition)?;
        self.ends("the next item")?;
        self.parts.insert(name.text, Part { formula, at: name.at });
        Ok(())
    }

    /// The formula of the item `formula`, and the end.
    fn whole(&mut self) -> Result<Formula, Fault> {
        let formula = self.formula(0, "'formula'", Within::Whole)?;
        self.ends("the end")?;
        let token = self.peek();
        match token.text {
            _ if token.kind == Kind::End => Ok(formula),
            "formula" => Err(Fault::new(token.at, words::formula_twice())),
            _ => Err(Fault::new(token.at, words::after_formula(&token))),
        }
    }

    /// An item or the end comes next.
    fn ends(&self, what: &str) -> Result<(), Fault> {
        let token = self.peek();
        if token.kind == Kind::End || ["least", "define", "formula"].iter().any(|item| token.is(item)) {
            return Ok(());
        }
        let known = OPERATORS.iter().map(|operator| operator.word).chain(["define", "formula"]);
        let near = nearest(token.text, known).filter(|_| token.is_name());
        let what = format!("an operator such as 'and', or {what}");
        Err(Fault::new(token.at, words::expected_near(&what, &token, near)))
    }

    // ---- formulas

    /// A formula whose operators bind at least as tightly as this level says.
    fn formula(&mut self, level: usize, after: &str, within: Within) -> Result<Formula, Fault> {
        self.deeper()?;
        let mut left = self.operand(after, within)?;
        while let Some(operator) = self.operator(level) {
            let at = self.take().at;
            // Another `implies` belongs to the right side; the others are taken from the left.
            let tighter = operator.level + usize::from(operator.kind != IMPLIES);
            let right = self.formula(tighter, &format!("'{}'", operator.word), within)?;
            left = self.joined(operator.kind, left, right, at)?;
        }
        self.nesting -= 1;
        Ok(left)
    }

    /// The operator that comes next, if it binds so tightly.
    fn operator(&self, level: usize) -> Option<&'static Operator> {
        OPERATORS.iter().find(|operator| self.peek().is(operator.word) && operator.level >= level)
    }

    fn deeper(&mut self) -> Result<(), Fault> {
        self.nesting += 1;
        if self.nesting > MAX_NESTING {
            return Err(Fault::new(self.peek().at, words::nesting(MAX_NESTING)));
        }
        Ok(())
    }

    /// Two formulas and the operator between them, which do not mix what is on i with what is not.
    fn joined(&mut self, kind: i32, left: Formula, right: Formula, at: usize) -> Result<Formula, Fault> {
        let row = self.rows.add([kind, left.row, right.row, 0], at)?;
        let formula = Formula { row, on_i: left.on_i.or(right.on_i), outer: left.outer.or(right.outer) };
        if let (Some(on_i), Some(outer)) = (&formula.on_i, &formula.outer) {
            let (first, second) = if on_i.at < outer.at { (on_i, outer) } else { (outer, on_i) };
            return Err(Fault::new(second.at, words::mixed(&second.words, &first.words, self.line(first.at))));
        }
        Ok(formula)
    }

    fn operand(&mut self, after: &str, within: Within) -> Result<Formula, Fault> {
        let token = self.peek();
        match token.text {
            "not" => self.negation(within),
            "all" | "some" => self.iteration(within),
            "true" | "false" => {
                self.take();
                let kind = if token.text == "true" { TRUE } else { FALSE };
                Ok(Formula { row: self.rows.add([kind, 0, 0, 0], token.at)?, on_i: None, outer: None })
            }
            "(" => {
                self.take();
                let formula = self.formula(0, "'('", within)?;
                self.expect(")", "an operator or ')'")?;
                Ok(formula)
            }
            "i" | "n" => Err(Fault::new(token.at, words::no_formula_name(&token))),
            _ if token.is_name() && self.second().is("[") => self.literal(LITERAL, within),
            _ if token.is_name() => self.part(within),
            _ => Err(Fault::new(token.at, words::expected(&format!("a formula after {after}"), &token))),
        }
    }

    /// Before a literal a `not` makes it a negated one; before anything else it is a row of its own.
    fn negation(&mut self, within: Within) -> Result<Formula, Fault> {
        let at = self.take().at;
        if self.peek().is_name() && self.second().is("[") {
            return self.literal(NEGATED, within);
        }
        self.deeper()?;
        let part = self.operand("'not'", within)?;
        self.nesting -= 1;
        Ok(Formula { row: self.rows.add([NOT, part.row, 0, 0], at)?, ..part })
    }

    fn part(&mut self, within: Within) -> Result<Formula, Fault> {
        let Token { text: name, at, .. } = self.take();
        let Some(part) = self.parts.get(name) else { return Err(Fault::new(at, self.no_part(name))) };
        let Formula { row, on_i, outer } = part.formula.clone();
        match (within, &on_i, &outer) {
            (Within::Body(_), _, Some(outer)) => {
                return Err(Fault::new(at, words::part_in_body(name, &outer.words, self.line(outer.at))))
            }
            (Within::Whole, Some(on_i), _) => {
                return Err(Fault::new(at, words::part_outside(name, &on_i.words, self.line(on_i.at))))
            }
            _ => {}
        }
        let named = |_| Witness { at, words: format!("'{name}'") };
        Ok(Formula { row, on_i: on_i.map(named), outer: outer.map(named) })
    }

    /// What is said of a name that is no part's.
    fn no_part(&self, name: &str) -> String {
        let later = self.tokens[self.next..].windows(2).find(|pair| pair[0].is("define") && pair[1].is(name));
        let near = nearest(name, self.parts.keys().copied().chain(WORDS));
        match later {
            Some(pair) => words::defined_later(name, self.line(pair[1].at)),
            None if self.peek().is("(") => words::parenthesis_for_index(name),
            None if self.symbols.number(name).is_some() => words::symbol_alone(name),
            None => words::unknown_name(name, near),
        }
    }

    // ---- iterations

    fn iteration(&mut self, within: Within) -> Result<Formula, Fault> {
        let quantifier = self.take();
        if let Within::Body(outer) = within {
            return Err(Fault::new(quantifier.at, words::nested(self.line(outer))));
        }
        let index = self.peek();
        if index.kind == Kind::Word && !index.is("i") {
            return Err(Fault::new(index.at, words::other_index(&index)));
        }
        self.expect("i", &format!("i after '{}'", quantifier.text))?;
        self.expect("from", "'from' after i")?;
        let lower = self.lower_limit()?;
        self.expect("to", "'to' after the lower limit")?;
        let upper = self.upper_limit()?;
        self.expect(":", "':' after the range")?;
        let body = self.formula(0, "':'", Within::Body(quantifier.at))?;
        let kind = if quantifier.text == "all" { BIG_AND } else { BIG_OR };
        let row = self.rows.add([kind, body.row, lower, -upper], quantifier.at)?;
        let outer = Witness { at: quantifier.at, words: words::AN_ITERATION.to_string() };
        Ok(Formula { row, on_i: None, outer: Some(outer) })
    }

    /// A whole number.
    fn lower_limit(&mut self) -> Result<i32, Fault> {
        let token = self.peek();
        if token.is("n") || token.is("i") {
            return Err(Fault::new(token.at, words::lower_limit(&token)));
        }
        self.whole_number("a whole number after 'from'")
    }

    /// What is added to n.
    fn upper_limit(&mut self) -> Result<i32, Fault> {
        let token = self.peek();
        if token.kind == Kind::Number || token.is("-") {
            return Err(Fault::new(token.at, words::upper_limit()));
        }
        self.expect("n", "n after 'to'")?;
        self.offset()
    }

    // ---- literals and numbers

    /// NAME[INDEX], as a row of that kind.
    fn literal(&mut self, kind: i32, within: Within) -> Result<Formula, Fault> {
        let Token { text: name, at, .. } = self.take();
        let Some(symbol) = self.symbols.number(name) else { return Err(Fault::new(at, words::symbol_alone(name))) };
        self.expect("[", "'[' after the symbol")?;
        let (base, offset) = self.index()?;
        self.expect("]", "']' after the index")?;
        let words = as_written(name, base, offset);
        match within {
            Within::Body(outer) if base != ON_I => {
                return Err(Fault::new(at, words::outer_in_body(&words, self.line(outer))))
            }
            Within::Whole if base == ON_I => return Err(Fault::new(at, words::i_outside(&words))),
            _ => {}
        }
        let row = self.rows.add([kind, symbol, base, offset], at)?;
        let witness = Some(Witness { at, words });
        Ok(match base {
            ON_I => Formula { row, on_i: witness, outer: None },
            _ => Formula { row, on_i: None, outer: witness },
        })
    }

    /// What the index is counted from, and what is added.
    fn index(&mut self) -> Result<(i32, i32), Fault> {
        let token = self.peek();
        match token.text {
            "i" | "n" => {
                self.take();
                Ok((if token.text == "i" { ON_I } else { ON_N }, self.offset()?))
            }
            _ if token.kind == Kind::Word => Err(Fault::new(token.at, words::index_of_other(&token))),
            _ => Ok((PLAIN, self.whole_number("i, n or a whole number as the index")?)),
        }
    }

    /// +1, -2 or nothing.
    fn offset(&mut self) -> Result<i32, Fault> {
        if self.took("+") {
            self.number("a number after '+'")
        } else if self.took("-") {
            Ok(-self.number("a number after '-'")?)
        } else {
            Ok(0)
        }
    }

    /// A number, perhaps with a minus.
    fn whole_number(&mut self, what: &str) -> Result<i32, Fault> {
        if self.took("-") {
            return Ok(-self.number("a number after '-'")?);
        }
        self.number(what)
    }

    /// A number from 0 to 9999.
    fn number(&mut self, what: &str) -> Result<i32, Fault> {
        let token = self.peek();
        if token.kind != Kind::Number {
            return Err(Fault::new(token.at, words::expected(what, &token)));
        }
        self.take();
        if token.text.len() > 1 && token.text.starts_with('0') {
            return Err(Fault::new(token.at, words::leading_0(token.text)));
        }
        let number = token.text.parse::<i32>().ok().filter(|number| *number <= MAX_NUMBER);
        number.ok_or_else(|| Fault::new(token.at, words::number_over(token.text)))
    }
}

/// The words that a name may have been meant for.
const WORDS: [&str; 5] = ["not", "all", "some", "true", "false"];

/// A literal as it is written without blanks.
fn as_written(name: &str, base: i32, offset: i32) -> String {
    let base = ["", "n", "i"][base as usize];
    match offset {
        0 if !base.is_empty() => format!("{name}[{base}]"),
        _ if base.is_empty() => format!("{name}[{offset}]"),
        _ => format!("{name}[{base}{offset:+}]"),
    }
}
