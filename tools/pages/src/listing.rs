//! The page of a catalogue: totals, how often each refusal came, and a line for each record. It is written as the records come, so that
//! a large one takes no room: its rows stand in it as data, from which the script makes the lines that are looked at.

use crate::beside::Kind;
use crate::escape::{string, text};
use crate::html::head;
use crate::links::encoded;
use std::fmt::Write;
use zorambi::Refusal;

const START: &str = "<!DOCTYPE html>\n<!-- a catalogue, listed by zorambi -->\n";
/// A page of a catalogue, known again by its start.
pub const KIND: Kind = Kind { start: START, what: "page of a catalogue" };

const STYLE: &str = include_str!("listing.css");
const SCRIPT: &str = include_str!("listing.js");

/// So many lines are there without the script.
const WITHOUT_SCRIPT: usize = 1000;

/// A line of the catalogue.
#[derive(Clone, Debug, Default)]
pub struct Entry {
    /// The record, as it is shown.
    pub name: String,
    /// accepted, refused, not listed and so on.
    pub verdict: String,
    /// The number of a refusal.
    pub answer: Option<i64>,
    /// Of an accepted record: its nodes and its links.
    pub counts: Option<[i64; 2]>,
    /// Why, and where: `proof.txt:12: 4 8`.
    pub words: String,
    pub place: String,
    pub older: bool,
    /// How the folder of the pages, and the name there, lead to the record's own page.
    pub page: Option<String>,
}

/// What is said of the whole.
pub struct Summary {
    /// Things and how many there are.
    pub counts: Vec<(String, usize)>,
    /// The refusals that came, and how often.
    pub refusals: Vec<(u8, usize)>,
    /// Which library judged, and which part it is.
    pub judged: String,
}

/// The page while it is written.
#[derive(Default)]
pub struct Listing {
    /// What it is a catalogue of.
    title: String,
    written: usize,
    /// The lines that are there without the script.
    first: String,
    /// How the page leads to the folder of the records' pages.
    pages: Option<String>,
}

impl Listing {
    /// `pages` is how the page leads to the folder with the pages of records, if there is one.
    pub fn new(title: &str, pages: Option<String>) -> Listing {
        Listing { title: title.to_string(), pages, ..Listing::default() }
    }

    /// The start, before any line.
    pub fn start(&self) -> String {
        format!(
            "{START}<html lang=\"en\">\n<head>\n{}<title>{}</title>\n<style>\n{STYLE}</style>\n</head>\n<body>\n\
             <script type=\"application/json\" id=\"pages\">{}</script>\n<script type=\"application/json\" id=\"rows\">\n[",
            head(SCRIPT, ""),
            text(&self.title),
            self.pages.as_deref().map_or("null".to_string(), string),
        )
    }

    pub fn line(&mut self, entry: &Entry) -> String {
        if self.written < WITHOUT_SCRIPT {
            self.first += &self.table_row(entry);
        }
        let comma = if self.written == 0 { "" } else { ",\n" };
        self.written += 1;
        let number = |number: Option<i64>| number.map_or("null".to_string(), |number| number.to_string());
        let verdict = if entry.older { format!("older, {}", entry.verdict) } else { entry.verdict.clone() };
        format!(
            "{comma}[{},{},{},{},{},{},{},{}]",
            string(&entry.name),
            string(&verdict),
            number(entry.counts.map(|counts| counts[0])),
            number(entry.counts.map(|counts| counts[1])),
            number(entry.answer),
            string(&entry.words),
            string(&entry.place),
            entry.page.as_deref().map_or("0".to_string(), string),
        )
    }

    pub fn end(self, summary: &Summary) -> String {
        let more = self.written.saturating_sub(WITHOUT_SCRIPT);
        let more = if more > 0 {
            format!("<noscript><p class=\"hint\">Without its script this page has the first {WITHOUT_SCRIPT} lines; {more} more are in its data.</p></noscript>\n")
        } else {
            String::new()
        };
        format!(
            "]\n</script>\n<header>\n<h1>{title}</h1>\n<p class=\"judged\">{judged}</p>\n<ul class=\"counts\">\n{counts}</ul>\n</header>\n<main>\n{refusals}\
             <section aria-label=\"records\">\n<div class=\"tools\"><h2>Records</h2><input id=\"filter\" type=\"search\" placeholder=\"Filter\" \
             aria-label=\"filter the records by text\" autocomplete=\"off\" spellcheck=\"false\" hidden><p id=\"shown\" aria-live=\"polite\"></p></div>\n\
             <table id=\"records\">\n<thead><tr>{heads}</tr></thead>\n<tbody id=\"lines\">\n{first}</tbody>\n</table>\n{more}<div id=\"more\"></div>\n\
             </section>\n</main>\n<script>{SCRIPT}</script>\n</body>\n</html>\n",
            title = text(&self.title),
            judged = text(&summary.judged),
            counts = counts(&summary.counts),
            refusals = refusals(&summary.refusals),
            heads = heads(),
            first = self.first,
        )
    }

    fn table_row(&self, entry: &Entry) -> String {
        let number = |number: Option<i64>| number.map_or(String::new(), |number| number.to_string());
        let name = match (&self.pages, &entry.page) {
            (Some(folder), Some(page)) => {
                format!("<a href=\"{}/{}\">{}</a>", text(folder), encoded(page.as_bytes()), text(&entry.name))
            }
            _ => text(&entry.name),
        };
        let older = if entry.older { "older, " } else { "" };
        let place = if entry.place.is_empty() {
            String::new()
        } else {
            format!("<span class=\"line\">{}</span>", text(&entry.place))
        };
        format!(
            "<tr><td>{name}</td><td><span class=\"verdict {class}\">{older}{verdict}</span></td><td class=\"number\">{}</td>\
             <td class=\"number\">{}</td><td class=\"number\">{}</td><td>{}{place}</td></tr>\n",
            number(entry.counts.map(|counts| counts[0])),
            number(entry.counts.map(|counts| counts[1])),
            number(entry.answer),
            text(&entry.words),
            verdict = text(&entry.verdict),
            class = class(&entry.verdict),
        )
    }
}

/// How a verdict is coloured.
fn class(verdict: &str) -> &'static str {
    match verdict {
        "accepted" => "accepted",
        "refused" => "refused",
        _ => "other",
    }
}

fn counts(counts: &[(String, usize)]) -> String {
    let item = |(thing, count): &(String, usize)| {
        format!("<li class=\"{}\"><strong>{count}</strong> {}</li>\n", class(thing), text(thing))
    };
    counts.iter().map(item).collect()
}

fn heads() -> String {
    let columns =
        [("Record", ""), ("Verdict", ""), ("Nodes", "number"), ("Links", "number"), ("No.", "number"), ("Why", "")];
    let head = |(at, (name, class)): (usize, &(&str, &str))| {
        format!("<th class=\"{class}\" scope=\"col\" aria-sort=\"none\"><button type=\"button\" data-column=\"{at}\">{name}</button></th>")
    };
    columns.iter().enumerate().map(head).collect()
}

/// The refusals by number, with a bar that says how often each came.
fn refusals(refusals: &[(u8, usize)]) -> String {
    if refusals.is_empty() {
        return String::new();
    }
    let most = refusals.iter().map(|(_, times)| *times).max().unwrap_or(1).max(1);
    let mut rows = String::new();
    for (number, times) in refusals {
        let words = Refusal::of_number(u64::from(*number)).map_or(String::new(), |refusal| refusal.to_string());
        let _ = writeln!(
            rows,
            "<tr><td class=\"number\">{number}</td><td><button type=\"button\" class=\"refusal\" data-answer=\"{number}\" \
             aria-pressed=\"false\">{}</button></td><td class=\"bar\"><progress max=\"{most}\" value=\"{times}\" aria-hidden=\"true\"></progress></td>\
             <td class=\"number\">{times}</td></tr>",
            text(&words)
        );
    }
    format!(
        "<section class=\"refusals\" aria-label=\"refusals\">\n<h2>Refusals</h2>\n<table>\n<thead><tr><th class=\"number\" scope=\"col\">No.</th>\
         <th scope=\"col\">What</th><th></th><th class=\"number\" scope=\"col\">Records</th></tr></thead>\n<tbody>\n{rows}</tbody>\n</table>\n</section>\n"
    )
}

#[cfg(test)]
mod tests {
    use super::*;

    fn whole(entries: &[Entry]) -> String {
        let mut listing = Listing::new("<i>", Some("./pages".to_string()));
        let mut page = listing.start();
        entries.iter().for_each(|entry| page += &listing.line(entry));
        let summary = Summary {
            counts: vec![("records".to_string(), entries.len())],
            refusals: vec![(14, 1)],
            judged: "\"lib\"".to_string(),
        };
        page + &listing.end(&summary)
    }

    #[test]
    fn nothing_of_a_record_is_markup() {
        let bad = "</script><b>\"'&".to_string();
        let [name, verdict, words, place] = [const { String::new() }; 4].map(|_| bad.clone());
        let page = whole(&[Entry { name, verdict, words, place, page: Some(bad), ..Entry::default() }]);
        assert!(!page.contains("<b>") && !page.contains("<i>") && !page.contains("\"lib\""));
        // What ends a script is there as often as a script starts.
        assert_eq!(page.matches("<script").count(), page.matches("</script").count());
    }

    #[test]
    fn lines_without_the_script_are_bounded() {
        let entry = Entry { name: "a".to_string(), verdict: "accepted".to_string(), ..Entry::default() };
        let page = whole(&vec![entry; WITHOUT_SCRIPT + 5]);
        assert_eq!(page.matches("<tr><td>a</td>").count(), WITHOUT_SCRIPT);
        assert_eq!(page.matches("[\"a\",\"accepted\"").count(), WITHOUT_SCRIPT + 5);
        assert!(page.contains("5 more"));
    }
}
