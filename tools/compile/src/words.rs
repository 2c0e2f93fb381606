//! What is said of each mistake: what is wrong, and what to write instead.

use crate::lexer::{Kind, Token};
use crate::rows::{MAX_DEPTH, MAX_ROWS, MAX_SIZE};
use crate::source::MAX_SOURCE;
use zorambi::words::{told, Known};
use zorambi::{shown, Refused, Schema};
use zorambi_explain::Voice;

/// A number with commas, as in 4,096.
fn grouped(number: u64) -> String {
    let digits = number.to_string();
    let groups: Vec<&str> =
        digits.as_bytes().rchunks(3).rev().map(|group| std::str::from_utf8(group).unwrap_or("")).collect();
    groups.join(",")
}

// ---- the source as bytes

pub fn too_long() -> String {
    format!("the source has over {} bytes", grouped(MAX_SOURCE as u64))
}

pub fn nul() -> String {
    "a byte 0: the source is a text".to_string()
}

pub fn no_utf8() -> String {
    "bytes that are no UTF-8: save the source as UTF-8".to_string()
}

/// Signs of other languages, longer ones first, and what they are here.
const HINTS: [(&str, &str); 28] = [
    ("<->", "iff"),
    ("<=>", "iff"),
    ("&&", "and"),
    ("||", "or"),
    ("/\\", "and"),
    ("\\/", "or"),
    ("->", "implies"),
    ("=>", "implies"),
    ("==", "iff"),
    ("!=", "xor"),
    ("..", "to"),
    ("//", "# before a comment"),
    ("&", "and"),
    ("*", "and"),
    ("|", "or"),
    ("!", "not"),
    ("~", "not"),
    ("^", "xor"),
    ("{", "("),
    ("}", ")"),
    ("¬", "not"),
    ("∧", "and"),
    ("∨", "or"),
    ("→", "implies"),
    ("↔", "iff"),
    ("⊕", "xor"),
    ("⋀", "all"),
    ("⋁", "some"),
];

/// The sign of another language that stands first here, and what it is in this one.
pub fn hint(rest: &str) -> Option<(&'static str, &'static str)> {
    HINTS.into_iter().find(|(sign, _)| rest.starts_with(sign))
}

pub fn no_sign(rest: &str) -> String {
    let first = rest.chars().next().map_or(String::new(), String::from);
    match hint(rest) {
        Some((sign, word)) if word.starts_with('#') => format!("'{sign}' has no meaning here: write {word}"),
        Some((sign, word)) => format!("'{sign}' has no meaning here: write '{word}'"),
        None => format!("'{}' has no meaning here", shown(first.as_bytes())),
    }
}

pub fn name_over(name: &str, most: usize) -> String {
    format!("'{}' has {} letters, a name at most {most}", short(name), grouped(name.len() as u64))
}

// ---- what was expected

/// A token, as it is told.
pub fn found(token: &Token) -> String {
    match token.kind {
        Kind::End => "the end of the source".to_string(),
        _ => format!("'{}'", short(token.text)),
    }
}

/// A word or a number that is not too long to be told.
fn short(text: &str) -> String {
    match text.get(..20) {
        Some(start) if text.len() > 40 => format!("{start}.."),
        _ => text.to_string(),
    }
}

pub fn expected(what: &str, token: &Token) -> String {
    format!("expected {what}, found {}", found(token))
}

/// With the word that may have been meant.
pub fn expected_near(what: &str, token: &Token, near: Option<&str>) -> String {
    expected(what, token) + &near.map_or(String::new(), |near| format!("; did you mean '{near}'?"))
}

// ---- items

pub fn no_formula_word(token: &Token) -> String {
    format!("{}: a formula stands after 'define NAME =' or 'formula'", expected(ITEM, token))
}

pub const ITEM: &str = "'least', 'define' or 'formula'";

pub fn missing_formula() -> String {
    "expected 'formula', found the end of the source: the last item is 'formula' and the schema's formula".to_string()
}

pub fn after_formula(token: &Token) -> String {
    format!("{} stands after the formula, which is the last item", found(token))
}

pub fn formula_twice() -> String {
    "'formula' is there twice: a schema has one formula; name its parts by 'define'".to_string()
}

pub fn least_twice(line: usize) -> String {
    format!("'least' is there twice: it stands in line {line} already")
}

pub fn reserved_name(token: &Token) -> String {
    format!("{} has a meaning of its own and cannot name a part", found(token))
}

pub fn part_twice(name: &str, line: usize) -> String {
    format!("'{}' is defined twice: it stands in line {line} already", short(name))
}

pub fn part_is_symbol(name: &str) -> String {
    let name = short(name);
    format!("'{name}' is a symbol, as in {name}[i], and cannot name a part as well")
}

// ---- numbers and symbols

pub fn number_over(text: &str) -> String {
    format!("{} is over 9999, the largest number", short(text))
}

pub fn leading_0(text: &str) -> String {
    format!("{} begins with a 0 too many", short(text))
}

pub fn no_symbol(name: &str) -> String {
    format!("no symbol has the number of '{}': p0 to p255 are the symbols by number", short(name))
}

pub fn symbols_over(name: &str) -> String {
    format!("'{}' is one symbol too many: a schema has at most 256", short(name))
}

// ---- formulas

pub fn no_formula_name(token: &Token) -> String {
    format!("{} is no formula by itself: it is an index, as in x[{}]", found(token), token.text)
}

pub fn unknown_name(name: &str, near: Option<&str>) -> String {
    let name = short(name);
    let near = near.map_or(String::new(), |near| format!("; did you mean '{near}'?"));
    format!("no part '{name}' is defined before, and a symbol has an index, as in {name}[i]{near}")
}

pub fn defined_later(name: &str, line: usize) -> String {
    format!("'{}' is used before it is defined, in line {line}: move its definition up", short(name))
}

pub fn symbol_alone(name: &str) -> String {
    let name = short(name);
    format!("'{name}' is a symbol and wants an index, as in {name}[i] or {name}[n-1]")
}

pub fn parenthesis_for_index(name: &str) -> String {
    format!("an index stands in brackets, as in {}[i]", short(name))
}

pub fn other_index(token: &Token) -> String {
    format!("the index of an iteration is called i, found {}", found(token))
}

pub fn index_of_other(token: &Token) -> String {
    format!("an index is i, n or a whole number, perhaps as in i+1 or n-2, found {}", found(token))
}

pub fn lower_limit(token: &Token) -> String {
    format!("a range begins at a whole number: {} cannot stand in its lower limit, only in its upper one", found(token))
}

pub fn upper_limit() -> String {
    "a range ends at n, n-3 or n+2, say: its upper limit cannot be a number alone".to_string()
}

pub fn nested(line: usize) -> String {
    format!("an iteration in the body of another, which begins in line {line}: a body holds no iteration")
}

pub fn outer_in_body(literal: &str, line: usize) -> String {
    format!(
        "{literal} in the body of the iteration that begins in line {line}: a body has literals on i alone; \
         to end the iteration earlier put it in parentheses"
    )
}

pub fn i_outside(literal: &str) -> String {
    format!("{literal} outside of any iteration: i has a value in the body of 'all i' and 'some i' alone")
}

/// A part in a body, though it is not on i alone because of what stands in some line.
pub fn part_in_body(name: &str, because: &str, line: usize) -> String {
    format!(
        "'{}' in the body of an iteration: it has {because} (line {line}), and a body has literals on i alone",
        short(name)
    )
}

pub fn part_outside(name: &str, because: &str, line: usize) -> String {
    format!(
        "'{}' outside of any iteration: it has {because} (line {line}), and i has a value in a body alone",
        short(name)
    )
}

pub fn mixed(this: &str, other: &str, line: usize) -> String {
    format!(
        "{this} together with {other} (line {line}): literals on i outside an iteration do not mix with other literals \
         or with iterations"
    )
}

pub const AN_ITERATION: &str = "an iteration";

// ---- limits

pub fn nesting(most: usize) -> String {
    format!("nested more than {most} deep: a formula has depth at most {MAX_DEPTH}; name inner parts by 'define' and group them evenly")
}

pub fn size(size: u64) -> String {
    format!("the formula so far has size {}, at most {} (each use of a part counts)", grouped(size), grouped(MAX_SIZE))
}

pub fn depth(depth: u64) -> String {
    format!("the formula so far has depth {depth}, at most {MAX_DEPTH}: group a long chain evenly by parentheses")
}

pub fn plain_size(size: u64) -> String {
    format!(
        "the formula so far has size {} in plain rows, at most {}: iff and xor write each side twice",
        grouped(size),
        grouped(MAX_SIZE)
    )
}

pub fn plain_depth(depth: u64) -> String {
    format!("the formula so far has depth {depth} in plain rows, at most {MAX_DEPTH}: iff and xor are two deep there")
}

pub fn rows(count: usize) -> String {
    format!("{} formula rows, at most {}: they become too many here", grouped(count as u64), grouped(MAX_ROWS as u64))
}

pub fn plain_rows(count: usize) -> String {
    format!(
        "{} plain rows, at most {}: they become too many here (iff and xor write six each, 'not' before other than a \
         symbol none, all else two)",
        grouped(count as u64),
        grouped(MAX_ROWS as u64)
    )
}

/// What the library says of the wide schema.
pub fn refused(refused: Refused, schema: &Schema) -> String {
    let why = zorambi_explain::convert(&schema.into(), refused, &Voice::default());
    format!("{}: {}", told(refused, &Known::default()), why.line)
}
