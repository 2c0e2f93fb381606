//! `show DIR`: a record, a schema, a wide schema or a model in words.

use crate::end::{Ended, Stop};
use crate::texts::number;
use std::ffi::{c_int, c_ulong, OsStr};
use std::io::{self, IsTerminal};
use std::ops::RangeInclusive;
use std::path::Path;
use zorambi::files::enter;
use zorambi::shown_name;
use zorambi_commands::Given;
use zorambi_pages::{beside, html, svg, Picture, Subject};
use zorambi_show::{Options, Style, Texts};

/// Columns where nothing else is known.
const WIDTH: usize = 100;
/// Columns that can be asked for; of a narrower terminal the least are taken.
const WIDTHS: RangeInclusive<usize> = 40..=10_000;

pub fn show(given: &Given) -> Result<Ended, Stop> {
    let folder = Path::new(&given.names[0]);
    let options = Options {
        style: if given.has("--ascii") { Style::Ascii } else { Style::Unicode },
        with_sets: given.has("--sets"),
        width: width(given.value("--width"))?,
        is_older: given.has("--older"),
    };
    enter(folder).map_err(|why| Stop::Wrong(why.to_string()))?;
    if let [None, None] = ["--html", "--svg"].map(|option| given.value(option)) {
        return Ok(in_words(folder, given, &options));
    }
    drawn(folder, given)
}

fn in_words(folder: &Path, given: &Given, options: &Options) -> Ended {
    let shown = zorambi_show::show(&Texts::load(folder, given.has("--follow")), options);
    let said = shown.told.iter().map(|line| format!("{line}\n")).collect();
    Ended { printed: shown.text.into_bytes(), said, status: u8::from(!shown.is_whole) }
}

/// The record as a page and as a drawing.
fn drawn(folder: &Path, given: &Given) -> Result<Ended, Stop> {
    let [page, drawing] = ["--html", "--svg"].map(|option| given.value(option).map(Path::new));
    if page == drawing {
        return Err(Stop::Wrong("--html and --svg name the same file".to_string()));
    }
    let subject = Subject::of_folder(folder, given.has("--older"), given.has("--follow"));
    let picture = Picture::new(&subject);
    if let Some(path) = page {
        beside::write(path, html::KIND, &html::page(&picture, None)).map_err(Stop::Wrong)?;
    }
    if let Some(path) = drawing {
        beside::write(path, svg::KIND, &svg::file(&picture)).map_err(Stop::Wrong)?;
    }
    let said = subject.notes.iter().map(|line| format!("{line}\n")).collect();
    Ok(Ended { said, status: u8::from(!subject.is_whole), ..Ended::default() })
}

/// Columns of a line: those that are asked for, or those of COLUMNS or the terminal.
fn width(asked: Option<&OsStr>) -> Result<usize, Stop> {
    let Some(word) = asked else {
        let found = columns().or_else(of_terminal).unwrap_or(WIDTH);
        return Ok(found.clamp(*WIDTHS.start(), *WIDTHS.end()));
    };
    let asked = usize::try_from(number(word)?).ok().filter(|columns| WIDTHS.contains(columns));
    asked.ok_or_else(|| Stop::Wrong(format!("a width is 40 to 10,000 columns: {}", shown_name(word))))
}

/// What COLUMNS says, if it is a number.
fn columns() -> Option<usize> {
    std::env::var("COLUMNS").ok()?.parse().ok().filter(|columns| *columns > 0)
}

extern "C" {
    fn ioctl(file: c_int, request: c_ulong, ...) -> c_int;
}

/// Asks a terminal for its rows, columns and size in pixels.
const TIOCGWINSZ: c_ulong = 0x5413;

/// The columns of the terminal that is written to.
fn of_terminal() -> Option<usize> {
    if !io::stdout().is_terminal() {
        return None;
    }
    let mut size = [0_u16; 4];
    // SAFETY: the call fills four numbers of 16 bits, which are lent to it.
    let answer = unsafe { ioctl(1, TIOCGWINSZ, size.as_mut_ptr()) };
    Some(usize::from(size[1])).filter(|columns| answer == 0 && *columns > 0)
}
