//! `grow DIR`: a tableau for the schema in DIR that grows by what is said on standard input, line by line. Each line is answered at
//! once, in words or, with --json, by an object.

use crate::end::{coloured, say, unprinted, Ended, Stop, GREEN, RED};
use crate::held::{line_of, Held, Not};
use crate::live::Live;
use std::ffi::OsStr;
use std::io::{self, BufRead, IsTerminal, Read, Write};
use std::os::unix::ffi::OsStrExt;
use zorambi::words::RULES;
use zorambi::{shown, Growing, Standing, MAX_TEXT};
use zorambi_commands::{nearest, Given};
use zorambi_explain::Voice;

/// What a line may be.
const LINES: &str = "\
UP RULE ON WITH OTHER TO BY SET..    add this node row, as a proof text has it
? ROW                                ask what adding a row would come to; nothing changes
commit                               add the row last asked about
back                                 take the last row back
formula KIND A B C, ..               put formula rows after those that are there
formula back                         take the last formula row of the proof back
rows                                 list the node rows held
open                                 list the nodes that want children
save FILE                            write the proof text of what is held to a new file
help                                 this
an empty line                        how much is held
";
const WORDS: [&str; 7] = ["commit", "back", "rows", "open", "save", "help", "formula"];

/// What a line without its byte 10 says.
pub enum Line<'a> {
    Held,
    Back,
    Commit,
    Rows,
    Open,
    Help,
    Save(&'a OsStr),
    Ask(&'a [u8]),
    Add(&'a [u8]),
    Formula(&'a [u8]),
    FormulaBack,
    /// No word of these.
    Other(&'a [u8]),
}

impl Line<'_> {
    pub fn of(line: &[u8]) -> Line<'_> {
        match line {
            b"" => Line::Held,
            b"back" => Line::Back,
            b"commit" => Line::Commit,
            b"rows" => Line::Rows,
            b"open" => Line::Open,
            b"help" => Line::Help,
            b"formula back" => Line::FormulaBack,
            [b'f', b'o', b'r', b'm', b'u', b'l', b'a', b' ', rows @ ..] => Line::Formula(rows),
            [b's', b'a', b'v', b'e', b' ', file @ ..] if !file.is_empty() => Line::Save(OsStr::from_bytes(file)),
            [b'?', row @ ..] => Line::Ask(row.strip_prefix(b" ").unwrap_or(row)),
            [b'-' | b' ' | b'0'..=b'9', ..] => Line::Add(line),
            _ => Line::Other(line),
        }
    }
}

pub fn grow(given: &Given) -> Result<Ended, Stop> {
    let (folder, follow, anew) = (&given.names[0], given.has("--follow"), given.has("--anew"));
    if given.has("--json") {
        let mut live = Live::begun(folder, follow, anew)?;
        return follow_lines(live.first(), |line, number| live.answer(line, number)).map(|()| Ended::default());
    }
    let held = Held::begun(folder, follow, anew, Voice::default())?;
    let mut session = Session { held, in_colour: io::stdout().is_terminal() };
    follow_lines(session.first(), |line, number| session.answer(line, number))?;
    if session.held.is_unsaved() {
        say(&format!("not saved: {}; 'save FILE' writes the proof text\n", session.how_much()));
    }
    Ok(Ended::default())
}

/// Reads standard input to its end; each line is answered before the next is read.
fn follow_lines(first: String, mut answer: impl FnMut(&[u8], usize) -> String) -> Result<(), Stop> {
    let (mut input, mut output) = (io::stdin().lock(), io::stdout());
    let mut print =
        |text: String| output.write_all((text + "\n").as_bytes()).and_then(|()| output.flush()).map_err(unprinted);
    print(first)?;
    let mut line = Vec::new();
    let mut number = 0;
    while next_line(&mut input, &mut line).map_err(|why| Stop::Wrong(format!("standard input: {why}")))? {
        number += 1;
        print(answer(&line, number))?;
    }
    Ok(())
}

/// Answers in words.
struct Session {
    held: Held,
    in_colour: bool,
}

impl Session {
    fn first(&self) -> String {
        format!("answer place nodes links\n{}", self.stands(self.held.growing.standing()))
    }

    fn answer(&mut self, line: &[u8], number: usize) -> String {
        let now = match Line::of(line) {
            Line::Held => return self.how_much(),
            Line::Rows => return self.rows(),
            Line::Open => return self.open(),
            Line::Help => return LINES.trim_end().to_string(),
            Line::Save(file) => return self.held.save(file).unwrap_or_else(|not| self.not(&not)),
            Line::Ask(row) => return format!("? {}", self.with_row(Growing::enquire, row, number)),
            Line::Other(line) => return self.not(&no_word(line)),
            Line::Add(row) => return self.with_row(Growing::add, row, number),
            Line::Back => self.held.word(Growing::take_back),
            Line::Commit => self.held.word(Growing::commit),
            Line::Formula(rows) => self.held.write_formulas(rows, number),
            Line::FormulaBack => self.held.take_formula_back(),
        };
        now.map_or_else(|not| self.not(&not), |now| self.stands(now))
    }

    fn with_row(&mut self, call: crate::held::Call, row: &[u8], number: usize) -> String {
        self.held.row(call, row, number).map_or_else(|not| self.not(&not), |now| self.stands(now))
    }

    /// What is said of a refusal: the numbers and the state, and why it was refused.
    fn not(&self, not: &Not) -> String {
        let words = not.why.as_ref().map_or(not.words.clone(), |why| format!("{}: {}", not.words, why.line));
        let words = coloured(RED, &words, self.in_colour);
        let Some(refused) = not.refused else { return words };
        let place = refused.place.map_or(-1, |place| place as i64);
        let state = self.state(self.held.growing.standing());
        format!("{} {place} 0 0 {state} {words}", refused.refusal.number())
    }

    fn stands(&self, now: Standing) -> String {
        format!("0 0 {} {} {}", now.nodes, now.links, self.state(now))
    }

    fn state(&self, now: Standing) -> String {
        if now.closed {
            coloured(GREEN, "closed", self.in_colour)
        } else {
            "open".to_string()
        }
    }

    /// How much is held, in words.
    fn how_much(&self) -> String {
        let words = self.held.words();
        match words.strip_suffix("closed") {
            Some(counts) => format!("{counts}{}", coloured(GREEN, "closed", self.in_colour)),
            None => words,
        }
    }

    /// Each node row that is held, with its number.
    fn rows(&self) -> String {
        let rows = self.held.node_rows();
        let line =
            |(number, (row, set)): (usize, &([i32; 7], Vec<i32>))| format!("node {number}: {}", line_of(*row, set));
        let lines: Vec<String> = rows.iter().enumerate().map(line).collect();
        if lines.is_empty() {
            "no node".to_string()
        } else {
            lines.join("\n")
        }
    }

    fn open(&self) -> String {
        let wants = self.held.open();
        let lines = wants.iter().map(|open| {
            let (node, rule) = (open.node, open.rule);
            format!("node {node}: rule {rule}, {}, has {} of {} children", RULES[rule], open.has, open.wants)
        });
        match lines.collect::<Vec<String>>() {
            none if none.is_empty() && self.held.growing.standing().nodes == 0 => {
                "no node: the first has the root alone as its set".to_string()
            }
            none if none.is_empty() => "no node wants children".to_string(),
            lines => lines.join("\n"),
        }
    }
}

/// What is said of a line that begins with no word of these.
pub fn no_word(line: &[u8]) -> Not {
    let word = line.split(|byte| *byte == b' ').next().unwrap_or_default();
    let meant = std::str::from_utf8(word).ok().and_then(|word| nearest(word, WORDS.into_iter()));
    Not::said(match meant {
        Some("save") if word == b"save" => "save wants the name of a file".to_string(),
        Some("formula") if word == b"formula" => "formula wants rows KIND A B C, with a comma between".to_string(),
        Some(known) if word == known.as_bytes() => format!("nothing stands after '{known}'"),
        Some(known) => format!("no such word: {}; did you mean '{known}'?", cut(word)),
        None => format!("no such word: {}; 'help' lists them", cut(word)),
    })
}

/// The start of a word, as it can be shown.
fn cut(word: &[u8]) -> String {
    let end = if word.len() > 20 { "..." } else { "" };
    format!("'{}{end}'", shown(&word[..word.len().min(20)]))
}

/// The next line without its byte 10; the last may have none. What is longer than a text is not kept, and is no line of a text.
fn next_line(input: &mut impl BufRead, line: &mut Vec<u8>) -> io::Result<bool> {
    line.clear();
    input.by_ref().take(MAX_TEXT as u64 + 1).read_until(b'\n', line)?;
    if line.is_empty() {
        return Ok(false);
    }
    if line.last() == Some(&b'\n') {
        line.pop();
    } else if line.len() > MAX_TEXT {
        input.skip_until(b'\n')?;
    }
    Ok(true)
}
