//! Words, numbers and signs.

use crate::source::Fault;
use crate::words;

#[derive(Clone, Copy, Debug, PartialEq, Eq)]
pub enum Kind {
    /// A letter or _, then letters, digits and _.
    Word,
    /// Digits.
    Number,
    Sign,
    End,
}

#[derive(Clone, Copy, Debug)]
pub struct Token<'a> {
    pub kind: Kind,
    pub text: &'a str,
    /// Its first byte in the source; of the end, the byte after the last token.
    pub at: usize,
}

/// A name has at most this many letters, as in names.txt.
const LONGEST_NAME: usize = 40;

const SIGNS: &str = "[]():=+-";

/// The words with a meaning of their own.
const RESERVED: [&str; 17] = [
    "least", "define", "formula", "all", "some", "i", "from", "to", "n", "not", "and", "or", "implies", "iff", "xor",
    "true", "false",
];

impl Token<'_> {
    pub fn is(&self, text: &str) -> bool {
        self.kind != Kind::End && self.text == text
    }

    pub fn is_reserved(&self) -> bool {
        self.kind == Kind::Word && RESERVED.contains(&self.text)
    }

    /// A word that can name a symbol or a part.
    pub fn is_name(&self) -> bool {
        self.kind == Kind::Word && !self.is_reserved()
    }
}

/// The source's tokens; the last one is its end.
pub fn tokens(source: &str) -> Result<Vec<Token<'_>>, Fault> {
    let mut tokens: Vec<Token> = Vec::new();
    let mut at = 0;
    while let Some(first) = source[at..].chars().next() {
        let rest = &source[at..];
        let length = match first {
            ' ' | '\t' | '\r' | '\n' => 1,
            '#' => rest.find('\n').unwrap_or(rest.len()),
            _ => {
                let kind = kind(first);
                let length = length(kind, rest);
                if length == 0 || kind == Kind::Sign && words::hint(rest).is_some() {
                    return Err(Fault::new(at, words::no_sign(rest)));
                }
                if kind == Kind::Word && length > LONGEST_NAME {
                    return Err(Fault::new(at, words::name_over(&rest[..length], LONGEST_NAME)));
                }
                tokens.push(Token { kind, text: &rest[..length], at });
                length
            }
        };
        at += length;
    }
    let end = tokens.last().map_or(0, |last| last.at + last.text.len());
    tokens.push(Token { kind: Kind::End, text: "", at: end });
    Ok(tokens)
}

fn kind(first: char) -> Kind {
    match first {
        '_' | 'a'..='z' | 'A'..='Z' => Kind::Word,
        '0'..='9' => Kind::Number,
        _ => Kind::Sign,
    }
}

/// The bytes of the token of that kind that the source begins with; 0 if there is none.
fn length(kind: Kind, rest: &str) -> usize {
    let while_in = |is: fn(char) -> bool| rest.find(|c| !is(c)).unwrap_or(rest.len());
    match kind {
        Kind::Word => while_in(|c| c.is_ascii_alphanumeric() || c == '_'),
        Kind::Number => while_in(|c| c.is_ascii_digit()),
        _ => usize::from(rest.starts_with(|c| SIGNS.contains(c))),
    }
}
