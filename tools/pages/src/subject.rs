//! What a page is of: the texts of a record's folder, read and judged by the library, and what is said of a refusal.

use crate::explained::{explained, Explained};
use std::path::Path;
use zorambi::files::{load, Loaded};
use zorambi::{
    check, check_older_texts, check_texts, read_proof, read_schema, shown_name, Judgement, Proof, Record, Refused,
    Verdict,
};
use zorambi_show::{read_names, Names};

/// The texts of a record's folder.
pub struct Texts {
    pub schema: Loaded,
    pub proof: Loaded,
    pub names: Loaded,
    /// It is checked as an older record.
    pub older: bool,
}

impl Texts {
    pub fn load(folder: &Path, older: bool, follow: bool) -> Texts {
        let [schema, proof, names] = ["schema.txt", "proof.txt", "names.txt"].map(|name| load(folder, name, follow));
        Texts { schema, proof, names, older }
    }
}

/// A record as it is drawn.
pub struct Subject {
    /// The folder's name as it is shown.
    pub name: String,
    /// As far as it could be read: a schema refused in reading has no rows, such a proof no nodes.
    pub record: Record,
    /// Both texts could be read.
    pub is_whole: bool,
    pub verdict: Verdict,
    /// What is said of a refusal.
    pub explained: Option<Explained>,
    pub names: Names,
    /// What is told of bad lines of names.txt.
    pub notes: Vec<String>,
    /// How a tableau that grows stands, which is told in place of a verdict.
    pub standing: Option<String>,
}

impl Subject {
    /// Reads the texts of a folder and judges them.
    pub fn of_folder(folder: &Path, older: bool, follow: bool) -> Subject {
        Subject::of_texts(&shown_name(folder), &Texts::load(folder, older, follow))
    }

    /// Judges texts that were read. The name is shown as it is.
    pub fn of_texts(name: &str, texts: &Texts) -> Subject {
        let (schema, proof) = (read_schema(&texts.schema.bytes), read_proof(&texts.proof.bytes));
        let (names, notes) = read_names(&texts.names);
        let check = if texts.older { check_older_texts } else { check_texts };
        let Judgement { verdict, fault } = check(&texts.schema.bytes, &texts.proof.bytes);
        let is_whole = schema.is_ok() && proof.is_ok();
        // Without its schema a proof says nothing.
        let proof = schema.as_ref().map_or_else(|_| Proof::default(), |_| proof.unwrap_or_default());
        let record = Record { schema: schema.unwrap_or_default(), proof };
        let explained = match verdict {
            Verdict::Accepted { .. } => None,
            Verdict::Refused { refusal, place } => Some(explained(Refused { refusal, place }, fault, texts, &names)),
        };
        Subject { name: name.to_string(), record, is_whole, verdict, explained, names, notes, standing: None }
    }

    /// A tableau that grows, with the row that is asked about and what is said of its refusal.
    pub fn growing(
        name: &str,
        record: Record,
        names: Names,
        standing: String,
        explained: Option<Explained>,
    ) -> Subject {
        let verdict = check(&record);
        let (name, standing) = (name.to_string(), Some(standing));
        Subject { name, record, is_whole: true, verdict, explained, names, notes: Vec::new(), standing }
    }

    /// The verdict in one line.
    pub fn words(&self) -> String {
        let told = self.explained.as_ref().map(|explained| &explained.words).or(self.standing.as_ref());
        told.cloned().unwrap_or_else(|| self.verdict.to_string())
    }
}
