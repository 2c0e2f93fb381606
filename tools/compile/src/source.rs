//! A source's bytes, and what is wrong with them by line and column.

use crate::words;
use std::fmt;
use zorambi::shown;

/// A source has at most this many bytes.
pub const MAX_SOURCE: usize = 1 << 20;

/// So much of a line is shown, at most.
const WIDTH: usize = 100;

/// What is wrong with a source, at this byte of it.
#[derive(Clone, Debug, PartialEq, Eq)]
pub struct Fault {
    pub at: usize,
    pub words: String,
}

/// A line and a column of a source, from 1; a column is a character.
#[derive(Clone, Copy, Debug, PartialEq, Eq)]
pub struct Place {
    pub line: usize,
    pub column: usize,
}

impl fmt::Display for Fault {
    fn fmt(&self, f: &mut fmt::Formatter<'_>) -> fmt::Result {
        write!(f, "{} (at byte {})", self.words, self.at)
    }
}

impl std::error::Error for Fault {}

impl Fault {
    pub(crate) fn new(at: usize, words: impl Into<String>) -> Fault {
        Fault { at, words: words.into() }
    }

    pub fn place(&self, source: &[u8]) -> Place {
        place(source, self.at)
    }

    /// Where and what, then the line itself with a caret below the place.
    pub fn told(&self, file: &str, source: &[u8]) -> String {
        let Place { line, column } = self.place(source);
        let (shown, caret) = pointed(source, self.at);
        format!("{file}:{line}:{column}: {}\n  {shown}\n  {:>caret$}\n", self.words, '^')
    }
}

/// The source as text: not too long, UTF-8 and without NUL.
pub fn text(source: &[u8]) -> Result<&str, Fault> {
    if source.len() > MAX_SOURCE {
        return Err(Fault::new(MAX_SOURCE, words::too_long()));
    }
    if let Some(at) = source.iter().position(|byte| *byte == 0) {
        return Err(Fault::new(at, words::nul()));
    }
    std::str::from_utf8(source).map_err(|error| Fault::new(error.valid_up_to(), words::no_utf8()))
}

/// Where the line of this byte begins and ends.
fn line_of(source: &[u8], at: usize) -> (usize, usize) {
    let start = source[..at].iter().rposition(|byte| *byte == b'\n').map_or(0, |newline| newline + 1);
    let length = source[at..].iter().position(|byte| *byte == b'\n').unwrap_or(source.len() - at);
    (start, at + length)
}

pub fn place(source: &[u8], at: usize) -> Place {
    let (start, _) = line_of(source, at);
    let line = 1 + source[..start].iter().filter(|byte| **byte == b'\n').count();
    let begins_character = |byte: &&u8| **byte & 0xc0 != 0x80;
    Place { line, column: 1 + source[start..at].iter().filter(begins_character).count() }
}

/// The line of this byte as it can be shown, a blank for a tab, cut where it is long; and the caret's column in it,
/// from 1.
fn pointed(source: &[u8], at: usize) -> (String, usize) {
    let (start, end) = line_of(source, at);
    let plain = |bytes: &[u8]| {
        let blanks: Vec<u8> = bytes.iter().map(|byte| if *byte == b'\t' { b' ' } else { *byte }).collect();
        shown(&blanks)
    };
    let before = plain(&source[start..at]);
    let after = plain(source[at..end].strip_suffix(b"\r").unwrap_or(&source[at..end]));
    let cut = before.len().saturating_sub(WIDTH / 2);
    let (dots, before) = if cut == 0 { ("", &before[..]) } else { ("..", &before[cut..]) };
    let room = WIDTH - before.len().min(WIDTH);
    let (after, more) = if after.len() <= room { (&after[..], "") } else { (&after[..room], "..") };
    (format!("{dots}{before}{after}{more}"), dots.len() + before.len() + 1)
}
