//! What a command ends with.

use std::io::{self, IsTerminal, Write};
use zorambi::words::{about, advice, because, told, Known};
use zorambi::{shown, Refused};
use zorambi_explain::Why;

/// Success, or a verdict: what is printed and what is said.
#[derive(Default)]
pub struct Ended {
    pub printed: Vec<u8>,
    pub said: String,
    pub status: u8,
}

/// What keeps a command from giving what it is for.
pub enum Stop {
    Refused(Box<Told>),
    /// Wrong use that the table of commands does not know of, or a failure.
    Wrong(String),
    /// What reads standard output is gone: nobody is there to be told.
    Unread,
}

/// A refusal, and what is said of it.
pub struct Told {
    pub refused: Refused,
    /// What it is about.
    pub about: String,
    /// The whole in one line.
    words: String,
    /// Why, in one sentence.
    pub why: Option<String>,
    /// What stands below: the line at fault, and whose it is.
    pub below: Vec<String>,
    /// Its two lines go to standard error, since standard output is for a text.
    pub aside: bool,
}

impl Ended {
    pub fn printed(text: impl Into<Vec<u8>>) -> Ended {
        Ended { printed: text.into(), ..Ended::default() }
    }

    /// Prints and says it: the exit status.
    pub fn end(self) -> u8 {
        match print(&self.printed) {
            Ok(()) if say(&self.said) => self.status,
            Ok(()) => 2,
            Err(stop) => stop.end(""),
        }
    }
}

impl Stop {
    /// A refusal told as closely as it is known, why, and a line below.
    pub fn refused(refused: Refused, known: &Known, why: Option<Why>, below: Option<String>) -> Stop {
        Stop::Refused(Box::new(Told::new(refused, known, why, below)))
    }

    /// With the two lines of a refusal on standard error.
    pub fn aside(mut self) -> Stop {
        if let Stop::Refused(told) = &mut self {
            told.aside = true;
        }
        self
    }

    pub fn end(self, command: &str) -> u8 {
        match self {
            Stop::Refused(told) => {
                let (lines, said) = (verdict(told.refused), told.said());
                let [printed, said] = if told.aside { [String::new(), lines + &said] } else { [lines, said] };
                Ended { printed: printed.into_bytes(), said, status: 1 }.end()
            }
            Stop::Wrong(why) => {
                let gap = if command.is_empty() { "" } else { " " };
                say(&format!("zorambi{gap}{command}: {why}\n"));
                2
            }
            Stop::Unread => 2,
        }
    }
}

impl Told {
    pub fn new(refused: Refused, known: &Known, why: Option<Why>, below: Option<String>) -> Told {
        let (about, words) = (about(refused, known), told(refused, known));
        let why = why.map(|why| why.line);
        Told { refused, about, words, why, below: below.into_iter().collect(), aside: false }
    }

    /// Why it was refused, the line at fault, and what to do about it.
    pub fn said(&self) -> String {
        let words = coloured(RED, &self.words, io::stderr().is_terminal());
        let why = self.why.as_ref().map(|why| because(self.refused, why));
        let advice = advice(self.refused.refusal);
        let lines = [&words[..]].into_iter().chain(why.as_deref());
        let lines = lines.chain(self.below.iter().map(String::as_str)).chain(advice);
        lines.map(|line| format!("{line}\n")).collect()
    }
}

/// A line with the name of its text and its number.
pub fn line_shown(file: &str, line: usize, bytes: &[u8]) -> String {
    format!("{file}:{line}: {}", shown(bytes))
}

/// The check program's two lines.
fn verdict(refused: Refused) -> String {
    let place = refused.place.map_or(-1, |place| place as i64);
    format!("answer place nodes links\n{} {place} 0 0\n", refused.refusal.number())
}

pub const RED: &str = "\x1b[31m";
pub const GREEN: &str = "\x1b[32m";

/// The words in colour, if they go to a terminal and NO_COLOR is not set.
pub fn coloured(colour: &str, words: &str, is_terminal: bool) -> String {
    let wanted = is_terminal && std::env::var_os("NO_COLOR").is_none_or(|value| value.is_empty());
    if wanted {
        format!("{colour}{words}\x1b[0m")
    } else {
        words.to_string()
    }
}

/// Writes to standard output, and to its end.
pub fn print(bytes: &[u8]) -> Result<(), Stop> {
    let mut output = io::stdout().lock();
    output.write_all(bytes).and_then(|()| output.flush()).map_err(unprinted)
}

/// Why standard output could not be written.
pub fn unprinted(error: io::Error) -> Stop {
    match error.kind() {
        io::ErrorKind::BrokenPipe => Stop::Unread,
        _ => Stop::Wrong(format!("standard output: {error}")),
    }
}

/// Says it on standard error; false if that cannot be written.
pub fn say(words: &str) -> bool {
    words.is_empty() || io::stderr().write_all(words.as_bytes()).is_ok()
}
