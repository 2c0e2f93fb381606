//! What a page says of a refusal. All that it says comes from here: the words of the library's refusal, and why it was given.

use crate::subject::Texts;
use zorambi::words::{told, Known};
use zorambi::{line, shown, Refused, Text, MAX_TEXT};
use zorambi_explain::{texts as explain, Sort, Text as Read, Voice};
use zorambi_show::{Names, Style};

/// Bytes of a line that are shown.
const SHOWN: usize = 200;

/// A refusal in words.
pub struct Explained {
    pub refused: Refused,
    /// `refused: a split's K (14) at node 9`
    pub words: String,
    /// What does not fit, in a sentence.
    pub why: String,
    /// What to do about it.
    pub mend: String,
    /// `proof.txt:12: 4 8 -1 -1 -1 1 2 5 7`
    pub line: Option<String>,
}

/// What is said of a refusal of these texts and of the line that it points to, with these names of symbols.
pub fn explained(refused: Refused, fault: Option<(Text, usize)>, texts: &Texts, names: &Names) -> Explained {
    let named = [(Sort::Schema, &texts.schema), (Sort::Proof, &texts.proof)];
    let at = fault.map(|(text, number)| (named[usize::from(text != Text::Schema)], number));
    let too_long = named.into_iter().find(|(_, text)| text.bytes.len() > MAX_TEXT);
    let of = at.map(|(of, _)| of).or(too_long);
    let unread = of.and_then(|(_, text)| text.unread.as_ref());
    let at_fault =
        at.filter(|_| unread.is_none()).map(|((sort, text), number)| (sort, number, line(&text.bytes, number)));
    let known = Known {
        file: of.map(|(sort, _)| sort.file()),
        unread,
        line: at_fault.map(|(.., bytes)| bytes),
        ..Known::default()
    };
    let voice = Voice { names: names.clone(), style: Style::Unicode };
    let why = explain(named.map(|(sort, text)| Read::new(sort, text)), refused, &voice);
    let line = at_fault.map(|(sort, number, bytes)| {
        let cut = if bytes.len() > SHOWN { "..." } else { "" };
        format!("{}:{number}: {}{cut}", sort.file(), shown(&bytes[..bytes.len().min(SHOWN)]))
    });
    Explained { refused, words: told(refused, &known), why: why.line, mend: why.mend, line }
}
