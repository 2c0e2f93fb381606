//! What an explanation is made of.

use zorambi::Refused;

/// Why a refusal was given.
#[derive(Clone, Debug, PartialEq, Eq)]
pub struct Why {
    /// In one sentence: what the rule asks, what stands there, by how much it fails.
    pub line: String,
    /// What stands around it, and what was expected, a line each.
    pub context: Vec<String>,
    /// Lines of the texts that it speaks of, besides the one at fault: the name of the text, and the line from 1.
    pub see: Vec<(&'static str, usize)>,
    /// What to do about it.
    pub mend: String,
    /// A reason was found.
    pub found: bool,
}

impl Why {
    pub fn new(line: impl Into<String>, mend: impl Into<String>) -> Why {
        Why { line: line.into(), context: Vec::new(), see: Vec::new(), mend: mend.into(), found: true }
    }

    /// With a line of context.
    pub fn with(mut self, line: impl Into<String>) -> Why {
        self.context.push(line.into());
        self
    }

    /// With a line of a text that it speaks of.
    pub fn see(mut self, text: &'static str, line: usize) -> Why {
        self.see.push((text, line));
        self
    }

    /// The library refused it, and what is seen here does not say why.
    pub fn unknown(refused: Refused) -> Why {
        let number = refused.refusal.number();
        let line = format!("no reason was found: the library refuses it with {number}, and nothing seen here says why");
        Why { found: false, ..Why::new(line, "the refusal stands; please report the record, so that this is mended") }
    }
}

/// Several numbers in words: `5`, `5 and 6`, `5, 6 and 7`; of many the first ones.
pub fn listed(numbers: &[i64]) -> String {
    const MOST: usize = 8;
    let words: Vec<String> = numbers.iter().take(MOST).map(i64::to_string).collect();
    match &words[..] {
        [] => "none".to_string(),
        [one] => one.clone(),
        words if numbers.len() > MOST => format!("{} and {} more", words.join(", "), numbers.len() - MOST),
        [start @ .., last] => format!("{} and {last}", start.join(", ")),
    }
}

/// A thing and numbers of it: `row 5`, `rows 5 and 6`.
pub fn things(thing: &str, numbers: &[i64]) -> String {
    match numbers.len() {
        0 => format!("no {thing}"),
        1 => format!("{thing} {}", listed(numbers)),
        _ => format!("{thing}s {}", listed(numbers)),
    }
}
