//! Texts that are refused in reading: 1 too many bytes, 3 a heading, 4 a line's form, 5 a row or member too many.

use crate::counts::{result_too_short, MAX_PAIRS};
use crate::rows::MAX_ROWS;
use crate::tableau::{MAX_MEMBERS, MAX_NODES};
use crate::why::Why;
use zorambi::files::{Loaded, Unread};
use zorambi::words::{counted, grouped};
use zorambi::{shown, Refusal, Refused, MAX_TEXT};

/// What a text is of.
#[derive(Clone, Copy, Debug, PartialEq, Eq)]
pub enum Sort {
    Schema,
    Wide,
    Proof,
    Model,
}

impl Sort {
    /// The name of its file.
    pub fn file(self) -> &'static str {
        match self {
            Sort::Schema => "schema.txt",
            Sort::Wide => "wide.txt",
            Sort::Proof => "proof.txt",
            Sort::Model => "model.txt",
        }
    }

    /// The headings and the one line between them, if there is one.
    fn start(self) -> (&'static str, Option<Row>, &'static str) {
        match self {
            Sort::Schema | Sort::Wide => ("root least", Some(ROOT), "kind a b c"),
            Sort::Proof => ("kind a b c", None, "up rule on with other to by set"),
            Sort::Model => ("n", Some(WIDTH), "symbol index"),
        }
    }
}

/// A text as it was read.
#[derive(Clone, Copy, Debug)]
pub struct Text<'a> {
    pub sort: Sort,
    pub bytes: &'a [u8],
    /// How many bytes it has, where more is known than was read.
    pub length: Option<u64>,
    /// Why it could not be read, and counts as empty.
    pub unread: Option<&'a Unread>,
}

impl<'a> Text<'a> {
    pub fn new(sort: Sort, loaded: &'a Loaded) -> Text<'a> {
        Text { sort, bytes: &loaded.bytes, length: None, unread: loaded.unread.as_ref() }
    }
}

/// What a line of numbers has to be.
#[derive(Clone, Copy)]
struct Row {
    name: &'static str,
    columns: &'static str,
    values: usize,
    /// More values may follow.
    more: bool,
}

const ROOT: Row = Row { name: "the line of root and least", columns: "root least", values: 2, more: false };
const WIDTH: Row = Row { name: "the line of n", columns: "n", values: 1, more: false };
const FORMULA: Row = Row { name: "a formula row", columns: "kind a b c", values: 4, more: false };
const NODE: Row =
    Row { name: "a node row", columns: "up rule on with other to by, then its set", values: 7, more: true };
const PAIR: Row = Row { name: "a pair", columns: "symbol index", values: 2, more: false };

/// What is wanted at a line.
enum Wanted {
    Heading(&'static str),
    Row(Row),
}

/// A line as it stands there: without its byte 10, if it has one.
struct Line<'a> {
    number: usize,
    bytes: &'a [u8],
    is_finished: bool,
    is_there: bool,
}

/// A text's lines.
struct Lines<'a>(Vec<&'a [u8]>);

impl<'a> Lines<'a> {
    fn of(text: &'a [u8]) -> Lines<'a> {
        Lines(text.split_inclusive(|byte| *byte == b'\n').collect())
    }

    fn line(&self, number: usize) -> Line<'a> {
        let raw = number.checked_sub(1).and_then(|at| self.0.get(at)).copied();
        let bytes = raw.unwrap_or_default();
        let finished = bytes.strip_suffix(b"\n");
        Line { number, bytes: finished.unwrap_or(bytes), is_finished: finished.is_some(), is_there: raw.is_some() }
    }

    /// The line of a proof's second heading: the first after the first that starts with u, or the one after the last.
    fn second_heading(&self) -> usize {
        let rows = self.0.iter().skip(1);
        2 + rows.take_while(|line| line.first() != Some(&b'u')).count()
    }

    fn wanted(&self, sort: Sort, number: usize) -> Wanted {
        let (first, between, second) = sort.start();
        let heading = if sort == Sort::Proof { self.second_heading() } else { 3 };
        match between {
            _ if number <= 1 => Wanted::Heading(first),
            _ if number == heading => Wanted::Heading(second),
            Some(row) if number < heading => Wanted::Row(row),
            _ if sort == Sort::Proof && number > heading => Wanted::Row(NODE),
            _ if sort == Sort::Model => Wanted::Row(PAIR),
            _ => Wanted::Row(FORMULA),
        }
    }
}

/// Why a text is refused in reading.
pub fn why(given: &Text, refused: Refused) -> Option<Why> {
    let Text { sort, bytes: text, length, unread } = *given;
    let file = sort.file();
    if let Some(unread) = unread {
        let first = sort.start().0;
        let line = format!("{file} {unread}; it counts as empty, and its first line has to be '{first}'");
        return Some(Why::new(line, mend_unread(file, unread)));
    }
    match refused.refusal {
        Refusal::TextTooLong => too_long(file, text, length),
        Refusal::Heading | Refusal::Line | Refusal::TooMany => {
            let lines = Lines::of(text);
            let line = lines.line(refused.place?);
            match (refused.refusal, lines.wanted(sort, line.number)) {
                (Refusal::Heading, Wanted::Heading(wanted)) => heading(file, text, &line, wanted),
                (Refusal::Line, Wanted::Row(row)) => form(file, &line, &row),
                (Refusal::TooMany, Wanted::Row(row)) => too_many(sort, &lines, &line, &row),
                _ => None,
            }
        }
        _ => None,
    }
}

/// Why a line that is given as a node row, while a tableau grows, is refused in reading.
pub fn node_row(bytes: &[u8], number: usize, refused: Refused) -> Option<Why> {
    let line = Line { number, bytes, is_finished: true, is_there: true };
    match refused.refusal {
        Refusal::TextTooLong => Some(Why::new(
            format!("line {number} is longer than a text may be"),
            "a node row has seven numbers and a set",
        )),
        Refusal::Line => form("the input", &line, &NODE),
        Refusal::TooMany => {
            let members = bytes.split(|byte| *byte == b' ').count().saturating_sub(NODE.values);
            let most = grouped(MAX_MEMBERS as u64);
            let what = format!("line {number} has {}, {most} allowed", counted(members, "member"));
            Some(Why::new(what, "a set has each row once"))
        }
        _ => None,
    }
}

/// Why a reader refuses the tables that it is lent for results.
pub fn lent(tables: &[(&str, usize, usize)]) -> Option<Why> {
    result_too_short(tables)
}

fn mend_unread(file: &str, unread: &Unread) -> String {
    match unread {
        Unread::Missing => format!("put {file} into the folder, or name the folder that has it"),
        Unread::LinkOut(_) => "give --follow if the link is meant".to_string(),
        _ => format!("make {file} a regular file that can be read"),
    }
}

fn too_long(file: &str, text: &[u8], length: Option<u64>) -> Option<Why> {
    let known = length.or((text.len() > MAX_TEXT + 1).then_some(text.len() as u64));
    let most = MAX_TEXT as u64;
    let line = match known {
        Some(bytes) => {
            let over = bytes.checked_sub(most).filter(|over| *over > 0)?;
            format!("{file} has {} bytes, {} allowed: {} too many", grouped(bytes), grouped(most), grouped(over))
        }
        None if text.len() > MAX_TEXT => format!("{file} has more than the {} bytes that are allowed", grouped(most)),
        None => return None,
    };
    Some(Why::new(
        line,
        "write fewer rows: parts that are equal need one row, and a set only the rows that are used below",
    ))
}

const END: &str = "end every line with byte 10, the last one too";

/// What a byte is called.
fn byte_name(byte: u8) -> String {
    match byte {
        b' ' => "a space".to_string(),
        b'\t' => "a tab".to_string(),
        b'\r' => "byte 13 (CR)".to_string(),
        b'+' => "a plus sign".to_string(),
        b'!'..=b'~' => format!("'{}'", char::from(byte)),
        byte => format!("byte {byte}"),
    }
}

/// The start of a line, as it is shown.
fn quoted(bytes: &[u8]) -> String {
    const MOST: usize = 40;
    let cut = if bytes.len() > MOST { "..." } else { "" };
    format!("'{}{cut}'", shown(&bytes[..bytes.len().min(MOST)]))
}

fn heading(file: &str, text: &[u8], line: &Line, wanted: &str) -> Option<Why> {
    let (number, bytes) = (line.number, line.bytes);
    let told =
        |what: String, mend: String| Some(Why::new(what, mend).with(format!("expected at line {number}: {wanted}")));
    let write = format!("let line {number} be '{wanted}', byte by byte");
    if text.is_empty() {
        return told(format!("{file} is empty; its first line is the heading '{wanted}'"), write);
    }
    if !line.is_there {
        let last = number - 1;
        return told(format!("{file} ends after line {last}; line {number} has to be the heading '{wanted}'"), write);
    }
    if bytes == wanted.as_bytes() {
        return (!line.is_finished).then(|| {
            told(format!("line {number}, '{wanted}', is not finished: no byte 10 ends it"), END.to_string())
        })?;
    }
    if bytes.strip_suffix(b"\r") == Some(wanted.as_bytes()) {
        let what = format!("line {number} ends with byte 13 (CR) before its byte 10");
        return told(what, "write the text with byte 10 alone as line end, as Unix has it".to_string());
    }
    let same = bytes.iter().zip(wanted.as_bytes()).take_while(|(one, other)| one == other).count();
    let stands = bytes.get(same).map_or("the line ends".to_string(), |byte| format!("{} stands", byte_name(*byte)));
    let has_to = wanted
        .as_bytes()
        .get(same)
        .map_or("it has to end".to_string(), |byte| format!("{} has to stand", byte_name(*byte)));
    let what = format!(
        "line {number} is {}, not the heading '{wanted}': at column {} {stands} where {has_to}",
        quoted(bytes),
        same + 1
    );
    told(what, write)
}

/// What is wrong with a line of numbers: where it stands, and what it is.
fn form(file: &str, line: &Line, row: &Row) -> Option<Why> {
    let (number, bytes) = (line.number, line.bytes);
    let Row { name, columns, values, more } = row;
    let wants = format!(
        "{} {}",
        if *more { format!("at least {values}") } else { values.to_string() },
        if *values == 1 { "number" } else { "numbers" }
    );
    let told = |what: String, mend: &str| {
        Some(Why::new(what, mend).with(format!("expected at line {number}: {columns}, {wants} with one space between")))
    };
    if !line.is_there {
        return told(
            format!("{file} ends after line {}; line {number} has to be {name}, {wants}", number - 1),
            "write the line that is missing",
        );
    }
    if bytes.is_empty() {
        let what = if line.is_finished {
            format!("line {number} is empty; {name} has {wants}")
        } else {
            format!("line {number} is empty and not finished")
        };
        return told(what, "leave the empty line out");
    }
    if let Some((column, what, mend)) = no_numbers(bytes) {
        return told(format!("line {number}, column {column}: {what}"), mend);
    }
    let found = bytes.split(|byte| *byte == b' ').count();
    if found < *values || found > *values && !more {
        return told(
            format!("line {number} has {}; {name} has {wants}: {columns}", counted(found, "number")),
            "write every column, and no more",
        );
    }
    (!line.is_finished).then(|| told(format!("line {number} is not finished: no byte 10 ends it"), END))?
}

/// The column, from 1, where numbers with one space between are no longer such, what stands there, and what to do.
fn no_numbers(bytes: &[u8]) -> Option<(usize, String, &'static str)> {
    const ONE_SPACE: &str = "one space stands between two numbers, and none before the first or after the last";
    let mut at = 0;
    loop {
        let start = at;
        if bytes.get(at) == Some(&b'-') {
            at += 1;
        }
        let digits = bytes[at..].iter().take_while(|byte| byte.is_ascii_digit()).count();
        let number = &bytes[start..at + digits];
        if digits == 0 {
            return Some(match bytes.get(at) {
                None if at > start => {
                    (start + 1, "a minus without digits".to_string(), "write the number after its minus")
                }
                None => (start, "a space at the end of the line".to_string(), ONE_SPACE),
                Some(b' ') if start == 0 => (1, "a space before the first number".to_string(), ONE_SPACE),
                Some(b' ') if at == start => (at + 1, "a second space".to_string(), ONE_SPACE),
                Some(b'+') => (at + 1, "a plus sign; numbers have none".to_string(), "write the number without it"),
                Some(byte) => (
                    at + 1,
                    format!("{} where a number has to stand", byte_name(*byte)),
                    "write numbers in decimal digits",
                ),
            });
        }
        at += digits;
        if digits > 5 {
            let what = format!("{} has {digits} digits; a number has at most 5", quoted(number));
            return Some((
                start + 1,
                what,
                "no number of a record needs more than 5 digits: write the one that is meant",
            ));
        }
        if number.ends_with(b"0") && digits == 1 && number.len() == 2 {
            return Some((start + 1, "-0 is written 0".to_string(), "write 0"));
        }
        if digits > 1 && bytes[at - digits] == b'0' {
            let what = format!("{} has a leading zero", quoted(number));
            return Some((start + 1, what, "write the number without leading zeros"));
        }
        match bytes.get(at) {
            None => return None,
            Some(b' ') => at += 1,
            Some(b'\r') if at + 1 == bytes.len() => {
                return Some((
                    at + 1,
                    "byte 13 (CR) before the line's byte 10".to_string(),
                    "write the text with byte 10 alone as line end, as Unix has it",
                ));
            }
            Some(b'\t') => return Some((at + 1, "a tab after a number".to_string(), ONE_SPACE)),
            Some(byte) => {
                let what = format!("{} after the number {}", byte_name(*byte), quoted(number));
                return Some((at + 1, what, ONE_SPACE));
            }
        }
    }
}

fn too_many(sort: Sort, lines: &Lines, line: &Line, row: &Row) -> Option<Why> {
    let first = if sort == Sort::Proof && row.values == NODE.values {
        lines.second_heading() + 1
    } else if sort == Sort::Proof {
        2
    } else {
        4
    };
    let before = line.number.checked_sub(first)?;
    let end =
        if sort == Sort::Proof && row.values == FORMULA.values { lines.second_heading() - 1 } else { lines.0.len() };
    let (what, most) = match sort {
        Sort::Model => ("pairs", MAX_PAIRS),
        Sort::Proof if row.values == NODE.values => ("node rows", MAX_NODES),
        _ => ("formula rows", MAX_ROWS),
    };
    if before >= most {
        let count = (end + 1).saturating_sub(first);
        let told = format!(
            "line {} has {} {what} before it, and {} are allowed: with {} there are {} too many",
            line.number,
            grouped(before as u64),
            grouped(most as u64),
            grouped(count as u64),
            grouped(count.saturating_sub(most) as u64)
        );
        return Some(Why::new(told, format!("leave {what} out, or make two records of it")));
    }
    let members =
        |number: usize| lines.line(number).bytes.split(|byte| *byte == b' ').count().saturating_sub(NODE.values);
    let held: usize = (first..line.number).map(members).sum();
    let own = members(line.number);
    (row.values == NODE.values && held + own > MAX_MEMBERS).then(|| {
        let told = format!(
            "line {} has {}, and the sets before have {}: {} are allowed, so {} too many",
            line.number,
            counted(own, "member"),
            grouped(held as u64),
            grouped(MAX_MEMBERS as u64),
            grouped((held + own - MAX_MEMBERS) as u64)
        );
        Why::new(told, "leave rows out of sets that are not needed below")
    })
}
