//! `explain DIR`: why what is in DIR is refused: in one sentence, then the line at fault and what stands around it, and what to do.

use crate::end::{coloured, line_shown, Ended, Stop, GREEN, RED};
use std::fs;
use std::io::{self, IsTerminal};
use std::path::Path;
use zorambi::files::{enter, load, Loaded};
use zorambi::words::because;
use zorambi::{
    check_model_texts, check_older_texts, check_texts, line, read_schema, Judgement, Record, Refused, Text, Verdict,
    MAX_TEXT,
};
use zorambi_commands::Given;
use zorambi_explain::{Sort, Tables, Text as TextRead, Voice, Why};
use zorambi_show::{Names, Style};

pub fn explain(given: &Given) -> Result<Ended, Stop> {
    let folder = Path::new(&given.names[0]);
    enter(folder).map_err(|why| Stop::Wrong(why.to_string()))?;
    let given = What::of(given, folder)?;
    let (names, told) = Names::read(&load(folder, "names.txt", given.follow).bytes);
    let voice = Voice { names, style: Style::Ascii };
    let mut ended = match given.sort {
        Sort::Wide => wide(folder, &given, &voice),
        _ => two_texts(folder, &given, &voice),
    };
    ended.said = told.iter().map(|line| format!("{line}\n")).collect();
    Ok(ended)
}

/// What is explained: a record, a model (its second text is one) or a wide schema.
struct What {
    sort: Sort,
    older: bool,
    follow: bool,
}

impl What {
    /// What is asked for, else what the folder holds.
    fn of(given: &Given, folder: &Path) -> Result<What, Stop> {
        let [older, model, wide] = ["--older", "--model", "--wide"].map(|option| given.has(option));
        if [older, model, wide].into_iter().filter(|asked| *asked).count() > 1 {
            return Err(Stop::Wrong("one of --older, --model and --wide at a time".to_string()));
        }
        let has = |sort: Sort| fs::symlink_metadata(folder.join(sort.file())).is_ok();
        let only = |sort: Sort, other: Sort| has(sort) && !has(other);
        let sort = if wide || !model && !older && only(Sort::Wide, Sort::Schema) {
            Sort::Wide
        } else if model || !older && only(Sort::Model, Sort::Proof) {
            Sort::Model
        } else {
            Sort::Proof
        };
        // A catalogue checks a folder that holds a file `older` as an older record.
        Ok(What { sort, older, follow: given.has("--follow") })
    }
}

/// A text, and how many bytes it has where it was not read to its end.
fn read<'a>(folder: &Path, sort: Sort, text: &'a Loaded) -> TextRead<'a> {
    let is_long = text.unread.is_none() && text.bytes.len() > MAX_TEXT;
    let file = is_long.then(|| fs::metadata(folder.join(sort.file())).ok()).flatten();
    TextRead { length: file.map(|file| file.len()), ..TextRead::new(sort, text) }
}

fn two_texts(folder: &Path, what: &What, voice: &Voice) -> Ended {
    let sorts = [Sort::Schema, what.sort];
    let texts = sorts.map(|sort| load(folder, sort.file(), what.follow));
    let [schema, second] = [&texts[0].bytes[..], &texts[1].bytes];
    let check = match (what.sort, what.older) {
        (Sort::Model, _) => check_model_texts,
        (_, true) => check_older_texts,
        (_, false) => check_texts,
    };
    let Judgement { verdict, fault } = check(schema, second);
    let Verdict::Refused { refusal, place } = verdict else { return accepted(&verdict.to_string()) };
    let refused = Refused { refusal, place };
    let given = [0, 1].map(|at| read(folder, sorts[at], &texts[at]));
    let why = zorambi_explain::texts(given, refused, voice);
    let at_fault = fault.map(|(text, number)| (usize::from(text != Text::Schema), number));
    let at_fault = at_fault.filter(|(at, _)| texts[*at].unread.is_none()).map(|(at, number)| (sorts[at], number));
    let node = record(schema, second).and_then(|record| zorambi_explain::node(&Tables::from(&record), refused, voice));
    let shown = |sort: Sort, number: usize| {
        let text = if sort == sorts[0] { schema } else { second };
        line_of(sort.file(), text, number)
    };
    told(refused, &why, at_fault.map(|(sort, number)| shown(sort, number)), node, |file, number| {
        shown(if file == sorts[0].file() { sorts[0] } else { sorts[1] }, number)
    })
}

/// A line of a text with its number; one that is not finished too.
fn line_of(file: &str, text: &[u8], number: usize) -> String {
    let finished = line(text, number);
    let last = text.split(|byte| *byte == b'\n').nth(number.saturating_sub(1)).unwrap_or_default();
    line_shown(file, number, if finished.is_empty() { last } else { finished })
}

fn record(schema: &[u8], proof: &[u8]) -> Option<Record> {
    Some(Record { schema: read_schema(schema).ok()?, proof: zorambi::read_proof(proof).ok()? })
}

fn wide(folder: &Path, what: &What, voice: &Voice) -> Ended {
    let text = load(folder, Sort::Wide.file(), what.follow);
    let shown = |number: usize| line_of(Sort::Wide.file(), &text.bytes, number);
    let schema = match read_schema(&text.bytes) {
        Ok(schema) => schema,
        Err(refused) => {
            let why = zorambi_explain::text(&read(folder, Sort::Wide, &text), refused);
            let number = refused.place.filter(|place| *place > 0 && text.unread.is_none());
            return told(refused, &why, number.map(shown), None, |_, number| shown(number));
        }
    };
    match zorambi::convert(&schema) {
        Ok(plain) => accepted(&format!("converted: {} plain rows", plain.rows.len())),
        Err(refused) => {
            let why = zorambi_explain::convert(&(&schema).into(), refused, voice);
            let row = refused.place.filter(|_| refused.refusal.place_counts() == Some("row"));
            told(refused, &why, row.map(|row| shown(4 + row)), None, |_, number| shown(number))
        }
    }
}

fn accepted(verdict: &str) -> Ended {
    let verdict = coloured(GREEN, verdict, io::stdout().is_terminal());
    Ended::printed(format!("{verdict}; there is nothing to explain\n"))
}

/// The explanation: the sentence, the line at fault, what stands around it, what to do.
fn told(
    refused: Refused,
    why: &Why,
    at_fault: Option<String>,
    node: Option<String>,
    line: impl Fn(&str, usize) -> String,
) -> Ended {
    let first = coloured(RED, &because(refused, &why.line), io::stdout().is_terminal());
    let around = node.iter().chain(&why.context).map(|line| format!("  {line}"));
    let see = why.see.iter().map(|(file, number)| format!("  see {}", line(file, *number)));
    let mend = format!("to mend: {}", why.mend);
    let lines = [first].into_iter().chain(at_fault).chain(around).chain(see).chain([mend]);
    let printed: String = lines.map(|line| line + "\n").collect();
    Ended { printed: printed.into_bytes(), said: String::new(), status: 1 }
}
