//! The page of a catalogue and the pages of its records.

use crate::table::{Of, Part, Row, Sort};
use crate::totals::Totals;
use crate::walk::{Item, What};
use std::fs;
use std::path::{Path, PathBuf};
use zorambi::shown_name;
use zorambi_commands::Given;
use zorambi_pages::beside::write;
use zorambi_pages::links::{page_name, relative};
use zorambi_pages::listing::{Entry, Summary};
use zorambi_pages::subject::Texts;
use zorambi_pages::{html, Picture, Subject};

/// Where pages are written.
pub struct Site {
    /// The page of the catalogue.
    pub html: PathBuf,
    /// The folder of its records' pages.
    pages: Option<PathBuf>,
    /// How the one leads to the other, and back.
    there: String,
    back: String,
}

impl Site {
    /// What `--html` and `--pages` name. The folder is made if it is not there.
    pub fn new(given: &Given) -> Result<Option<Site>, String> {
        let [html, pages] = ["--html", "--pages"].map(|option| given.value(option).map(PathBuf::from));
        let Some(html) = html else {
            return match pages {
                None => Ok(None),
                Some(_) => Err("--pages goes with --html FILE, the page that leads to them".to_string()),
            };
        };
        let Some(pages) = pages else {
            return Ok(Some(Site { html, pages: None, there: String::new(), back: String::new() }));
        };
        fs::create_dir_all(&pages).map_err(|error| format!("{} cannot be made: {error}", shown_name(&pages)))?;
        let (folder, name) = (whole(folder_of(&html))?, html.file_name().unwrap_or_default());
        let of_pages = whole(&pages)?;
        let (there, back) = (relative(&folder, &of_pages), relative(&of_pages, &folder.join(name)));
        Ok(Some(Site { html, pages: Some(pages), there, back }))
    }

    /// How the page of the catalogue leads to the folder of the others.
    pub fn to_pages(&self) -> Option<String> {
        self.pages.as_ref().map(|_| self.there.trim_end_matches('/').to_string())
    }

    /// Writes the page of a record, if there are to be such: its name.
    pub fn write(&self, item: &Item, follow: bool) -> Result<Option<String>, String> {
        let (Some(folder), What::Record { older }) = (&self.pages, &item.what) else { return Ok(None) };
        let subject = Subject::of_texts(&item.name, &Texts::load(&item.path, *older, follow));
        let name = page_name(&item.name);
        write(&folder.join(&name), html::KIND, &html::page(&Picture::new(&subject), Some(&self.back)))?;
        Ok(Some(name))
    }
}

/// The folder that a file is in.
fn folder_of(file: &Path) -> &Path {
    match file.parent() {
        Some(parent) if parent != Path::new("") => parent,
        _ => Path::new("."),
    }
}

fn whole(folder: &Path) -> Result<PathBuf, String> {
    fs::canonicalize(folder).map_err(|error| format!("{}: {error}", shown_name(folder)))
}

/// A row as the page has it.
pub fn entry(row: &Row, page: Option<String>) -> Entry {
    let place = match (&row.file[..], &row.line[..], &row.text[..]) {
        ("", ..) => String::new(),
        (file, "", _) => file.to_string(),
        (file, line, "") => format!("{file}:{line}"),
        (file, line, text) => format!("{file}:{line}: {text}"),
    };
    Entry {
        name: row.name.clone(),
        verdict: row.sort.word().to_string(),
        answer: (row.sort == Sort::Refused).then_some(row.numbers[0]),
        counts: (row.sort == Sort::Accepted).then_some([row.numbers[2], row.numbers[3]]),
        words: if row.why.is_empty() { row.words.clone() } else { row.why.clone() },
        place,
        older: row.older,
        page,
    }
}

/// What is said of the whole.
pub fn summary(of: &Of, totals: &Totals) -> Summary {
    let always = ["records", "accepted", "refused"];
    let counts = totals.counts().into_iter().filter(|(name, count)| *count > 0 || always.contains(name));
    let counts = counts.map(|(name, count)| (name.replace('_', " "), count)).collect();
    let part = if of.part == Part::WHOLE { String::new() } else { format!("part {}, ", of.part) };
    Summary { counts, refusals: totals.refusals(), judged: format!("{part}judged by {}", of.library) }
}
