//! `check DIR` and `model DIR`: the proved program's verdict on two texts, and for a refusal why, and the line at fault.

use crate::end::{coloured, line_shown, Ended, Stop, Told, GREEN};
use crate::programs::{self, Printed};
use std::io::{self, IsTerminal};
use std::path::Path;
use zorambi::files::{enter, load, Loaded};
use zorambi::words::Known;
use zorambi::{json_string, shown, shown_name, Refused, Verdict, MAX_TEXT};
use zorambi_commands::Given;
use zorambi_explain::{Sort, Text, Voice, Why};

pub fn check(given: &Given) -> Result<Ended, Stop> {
    if given.has("--older") {
        judge("check_older", "older", "proof.txt", given)
    } else {
        judge("check_proof", "present", "proof.txt", given)
    }
}

pub fn model(given: &Given) -> Result<Ended, Stop> {
    judge("check_model", "model", "model.txt", given)
}

/// Two texts and what the program says of them.
struct Judged {
    files: [&'static str; 2],
    texts: [Loaded; 2],
    printed: Printed,
}

fn judge(program: &str, check: &str, second: &'static str, given: &Given) -> Result<Ended, Stop> {
    let folder = Path::new(&given.names[0]);
    enter(folder).map_err(|why| Stop::Wrong(why.to_string()))?;
    let files = ["schema.txt", second];
    let texts = files.map(|name| load(folder, name, given.has("--follow")));
    let printed = programs::run(program, [(files[0], &texts[0]), (files[1], &texts[1])])?;
    let judged = Judged { files, texts, printed };
    let status = u8::from(!judged.printed.verdict.is_accepted());
    Ok(if given.has("--quiet") {
        Ended { status, ..Ended::default() }
    } else if given.has("--json") {
        let object = judged.object(&shown_name(folder), check);
        Ended { printed: object.into_bytes(), status, ..Ended::default() }
    } else {
        let said = judged.said();
        Ended { printed: judged.printed.lines, said, status }
    })
}

impl Judged {
    /// What is said of the verdict; of an acceptance only on a terminal.
    fn said(&self) -> String {
        match self.printed.verdict {
            Verdict::Accepted { .. } if !io::stderr().is_terminal() => String::new(),
            accepted @ Verdict::Accepted { .. } => coloured(GREEN, &accepted.to_string(), true) + "\n",
            Verdict::Refused { refusal, place } => self.told(Refused { refusal, place }).said(),
        }
    }

    /// The refusal with all that is known of it, and the line at fault, if its text could be read.
    fn told(&self, refused: Refused) -> Told {
        let fault = self.printed.fault(self.files);
        let long = self.texts.iter().position(|text| text.bytes.len() > MAX_TEXT).map(|at| self.files[at]);
        let file = fault.as_ref().map(|fault| fault.file).or(long);
        let text = file.and_then(|file| self.files.iter().position(|name| *name == file)).map(|at| &self.texts[at]);
        let unread = text.and_then(|text| text.unread.as_ref());
        let below = match &fault {
            _ if unread.is_some() || self.printed.said.is_empty() => None,
            Some(fault) => Some(line_shown(fault.file, fault.line, fault.bytes)),
            None => Some(shown(&self.printed.said)),
        };
        let line = fault.map(|fault| fault.bytes);
        Told::new(refused, &Known { file, unread, line, growing: false }, Some(self.why(refused)), below)
    }

    fn why(&self, refused: Refused) -> Why {
        let second = if self.files[1] == "model.txt" { Sort::Model } else { Sort::Proof };
        let [schema, other] = &self.texts;
        let texts = [Text::new(Sort::Schema, schema), Text::new(second, other)];
        zorambi_explain::texts(texts, refused, &Voice::default())
    }

    /// The object of --json.
    fn object(&self, folder: &str, check: &str) -> String {
        let string = |text: &str| json_string(text);
        let or_null = |value: Option<String>| value.unwrap_or_else(|| "null".to_string());
        let (verdict, numbers, words, why) = match self.printed.verdict {
            Verdict::Accepted { nodes, links } => ("accepted", [0, 0, nodes as i64, links as i64], None, None),
            Verdict::Refused { refusal, place } => {
                let told = self.told(Refused { refusal, place });
                let place = place.map_or(-1, |place| place as i64);
                ("refused", [i64::from(refusal.number()), place, 0, 0], Some(told.about), told.why)
            }
        };
        let fault = self.printed.fault(self.files).filter(|_| words.is_some());
        let [answer, place, nodes, links] = numbers;
        format!(
            "{{\"record\":{},\"verdict\":{},\"answer\":{answer},\"place\":{place},\"nodes\":{nodes},\"links\":{links},\
             \"refusal\":{},\"file\":{},\"line\":{},\"text\":{},\"check\":{},\"why\":{}}}\n",
            string(folder),
            string(verdict),
            or_null(words.as_deref().map(string)),
            or_null(fault.as_ref().map(|fault| string(fault.file))),
            or_null(fault.as_ref().map(|fault| fault.line.to_string())),
            or_null(fault.as_ref().map(|fault| string(&shown(fault.bytes)))),
            string(check),
            or_null(why.as_deref().map(string)),
        )
    }
}
