//! The numbers of symbols. `p0` to `p255` are these numbers; other names take the smallest numbers left, in the order
//! in which they first appear.

use crate::lexer::Token;
use crate::source::Fault;
use crate::words;
use std::collections::HashMap;

const COUNT: usize = 256;

pub struct Symbols<'a> {
    numbers: HashMap<&'a str, i32>,
}

/// The numbers of all symbols of a source: the names before a bracket.
pub fn numbered<'a>(tokens: &[Token<'a>]) -> Result<Symbols<'a>, Fault> {
    let is_symbol = |pair: &&[Token]| pair[0].is_name() && pair[1].is("[");
    let named: Vec<Token> = tokens.windows(2).filter(is_symbol).map(|pair| pair[0]).collect();
    let mut numbers: HashMap<&str, i32> = HashMap::new();
    let mut is_taken = [false; COUNT];
    for token in &named {
        if let Some(number) = own_number(token.text) {
            *is_taken.get_mut(number).ok_or_else(|| Fault::new(token.at, words::no_symbol(token.text)))? = true;
            numbers.insert(token.text, number as i32);
        }
    }
    let mut left = (0..COUNT).filter(|number| !is_taken[*number]);
    for token in &named {
        if !numbers.contains_key(token.text) {
            let number = left.next().ok_or_else(|| Fault::new(token.at, words::symbols_over(token.text)))?;
            numbers.insert(token.text, number as i32);
        }
    }
    Ok(Symbols { numbers })
}

/// The number of a name such as p3.
fn own_number(name: &str) -> Option<usize> {
    let digits = name.strip_prefix('p')?;
    let is_number = !digits.is_empty() && digits.bytes().all(|byte| byte.is_ascii_digit());
    let leads_with_0 = digits.len() > 1 && digits.starts_with('0');
    // One that is too long to be a number is no symbol's.
    (is_number && !leads_with_0).then(|| digits.parse().unwrap_or(usize::MAX))
}

impl Symbols<'_> {
    pub fn number(&self, name: &str) -> Option<i32> {
        self.numbers.get(name).copied()
    }

    /// The names that do not say their numbers themselves, ascending by number.
    pub fn names(&self) -> Vec<(i32, String)> {
        let named = self.numbers.iter().filter(|(name, _)| own_number(name).is_none());
        let mut names: Vec<(i32, String)> = named.map(|(name, number)| (*number, name.to_string())).collect();
        names.sort();
        names
    }
}
