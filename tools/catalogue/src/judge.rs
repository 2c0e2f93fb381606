//! One record folder: its two texts read and checked, by the older check if it holds a file `older`.

use crate::names::cell;
use crate::table::{Row, Sort};
use std::path::Path;
use zorambi::files::{load, Loaded, Unread};
use zorambi::words::{about, at, Known};
use zorambi::{
    check, check_older_texts, check_texts, hex, line, read_proof, read_schema, sha256, shown, tidy, Judgement, Record,
    Refused, Text, Verdict, MAX_TEXT,
};
use zorambi_explain::{Sort as TextSort, Text as TextRead, Voice};

pub const SCHEMA: &str = "schema.txt";
pub const PROOF: &str = "proof.txt";
/// Marks a record as older.
pub const OLDER: &str = "older";

/// Bytes of a line that are shown.
const SHOWN: usize = 100;

/// The texts of a record, and whether its folder holds a file `older`.
pub struct Texts {
    schema: Loaded,
    proof: Loaded,
    older: bool,
}

impl Texts {
    pub fn load(folder: &Path, older: bool, follow: bool) -> Texts {
        Texts { schema: load(folder, SCHEMA, follow), proof: load(folder, PROOF, follow), older }
    }

    /// The hashes of a row are those of these texts, and it was checked as this record is.
    pub fn are_of(&self, row: &Row) -> bool {
        let hashes = [hash(&self.schema), hash(&self.proof)];
        hashes.iter().all(|hash| !hash.is_empty()) && hashes == [&row.schema[..], &row.proof] && row.older == self.older
    }

    /// The verdict as a row of the table, and in words.
    pub fn judge(&self, name: &str) -> (Row, String) {
        let judged = self.judged();
        let mut row = Row {
            older: self.older,
            schema: hash(&self.schema),
            proof: hash(&self.proof),
            file: judged.file.unwrap_or_default().to_string(),
            line: judged.line.map_or(String::new(), |(number, _)| number.to_string()),
            text: cell(&judged.text()),
            ..Row::new(name, Sort::Accepted)
        };
        match judged.verdict {
            Verdict::Accepted { nodes, links } => row.numbers = [0, 0, nodes as i64, links as i64],
            Verdict::Refused { refusal, place } => {
                row.sort = Sort::Refused;
                row.numbers = [i64::from(refusal.number()), place.map_or(-1, |place| place as i64), 0, 0];
                row.words = about(Refused { refusal, place }, &judged.known());
                row.why = cell(judged.why.as_deref().unwrap_or_default());
            }
        }
        let older = if self.older { "older, " } else { "" };
        (row, format!("{older}{}", judged.words()))
    }

    /// Checks both texts, and finds the one that a refusal speaks of.
    fn judged(&self) -> Judged<'_> {
        let check = if self.older { check_older_texts } else { check_texts };
        let Judgement { verdict, fault } = check(&self.schema.bytes, &self.proof.bytes);
        let Verdict::Refused { refusal, place } = verdict else {
            let tidies = self.older && self.record().is_some_and(|record| tidies(&record));
            return Judged { tidies, ..Judged::of(verdict) };
        };
        let named = [(TextSort::Schema, &self.schema), (TextSort::Proof, &self.proof)];
        let read = named.map(|(sort, text)| TextRead::new(sort, text));
        let why = zorambi_explain::texts(read, Refused { refusal, place }, &Voice::default());
        let judged = Judged { why: Some(why.line), ..Judged::of(verdict) };
        let at = fault.map(|(text, number)| (named[usize::from(text != Text::Schema)], number));
        let too_long = named.into_iter().find(|(_, text)| text.bytes.len() > MAX_TEXT);
        let Some((sort, text)) = at.map(|(of, _)| of).or(too_long) else { return judged };
        let number = at.map(|(_, number)| number).filter(|_| text.unread.is_none());
        Judged {
            file: Some(sort.file()),
            unread: text.unread.as_ref(),
            line: number.map(|number| (number, line(&text.bytes, number))),
            ..judged
        }
    }

    fn record(&self) -> Option<Record> {
        Some(Record { schema: read_schema(&self.schema.bytes).ok()?, proof: read_proof(&self.proof.bytes).ok()? })
    }
}

/// The present check does not accept the record, but accepts it tidied.
fn tidies(record: &Record) -> bool {
    let present = |proof| check(&Record { schema: record.schema.clone(), proof }).is_accepted();
    !check(record).is_accepted() && tidy(record).is_ok_and(present)
}

/// The hash of a text that was read whole.
fn hash(text: &Loaded) -> String {
    if text.unread.is_none() && text.bytes.len() <= MAX_TEXT {
        hex(&sha256(&text.bytes))
    } else {
        String::new()
    }
}

/// A verdict, and the text and the line that a refusal speaks of.
struct Judged<'a> {
    verdict: Verdict,
    /// It is older and accepted, and only after tidying the present check accepts it.
    tidies: bool,
    file: Option<&'static str>,
    unread: Option<&'a Unread>,
    line: Option<(usize, &'a [u8])>,
    /// What does not fit, in a sentence.
    why: Option<String>,
}

impl<'a> Judged<'a> {
    fn of(verdict: Verdict) -> Judged<'a> {
        Judged { verdict, tidies: false, file: None, unread: None, line: None, why: None }
    }

    fn known(&self) -> Known<'_> {
        let line = self.line.map(|(_, bytes)| bytes);
        Known { file: self.file, unread: self.unread, line, ..Known::default() }
    }

    /// The line, as far as it is shown.
    fn text(&self) -> String {
        let line = self.line.map_or(&[][..], |(_, bytes)| bytes);
        let cut = if line.len() > SHOWN { "..." } else { "" };
        format!("{}{cut}", shown(&line[..line.len().min(SHOWN)]))
    }

    /// The verdict in one line.
    fn words(&self) -> String {
        let mut words = match self.verdict {
            Verdict::Accepted { .. } => self.verdict.to_string(),
            Verdict::Refused { refusal, place } => {
                let (refused, known) = (Refused { refusal, place }, self.known());
                format!("refused: {} ({}){}", about(refused, &known), refusal.number(), at(refused, &known))
            }
        };
        if let (Some(file), Some((number, bytes))) = (self.file, self.line) {
            words += &format!(": {file}:{number}");
            if !bytes.is_empty() {
                words += &format!(": {}", self.text());
            }
        }
        // What could not be read is told by then.
        if let Some(why) = self.why.as_ref().filter(|_| self.file.is_none() || self.line.is_some()) {
            words += &format!("; {why}");
        }
        if self.tidies {
            words += "; tidying would make it present";
        }
        words
    }
}
