//! The command `catalogue`.

use crate::each::each;
use crate::judge::Texts;
use crate::pages::Site;
use crate::report::Report;
use crate::since::{Earlier, News};
use crate::stop::Stop;
use crate::table::{tree, Of, Part, Row, Sort};
use crate::totals::Totals;
use crate::walk::{walk, Item, What};
use crate::writing::Tables;
use std::collections::BTreeMap;
use std::ffi::OsStr;
use std::path::Path;
use std::thread;
use zorambi::files::enter;
use zorambi::{shown_name, IDENTITY};
use zorambi_commands::Given;

/// The number that an option gives, from 1 on.
fn number(option: &str, value: &OsStr) -> Result<usize, String> {
    let number = value.to_str().and_then(|value| value.parse().ok()).filter(|number| *number > 0);
    number.ok_or_else(|| format!("{option} wants a number from 1 on, not '{}'", shown_name(value)))
}

fn part(given: &Given) -> Result<Part, String> {
    let Some(value) = given.value("--shard") else { return Ok(Part::WHOLE) };
    let part = value.to_str().and_then(|value| value.parse().ok());
    part.ok_or_else(|| format!("--shard wants K/N with K from 1 to N, not '{}'", shown_name(value)))
}

/// Says whether everything found was accepted.
pub fn catalogue(given: &Given) -> Result<bool, Stop> {
    let folder = Path::new(&given.names[0]);
    let (part, follow) = (part(given)?, given.has("--follow"));
    let jobs = given.value("--jobs").map(|value| number("--jobs", value)).transpose()?;
    let jobs = jobs.unwrap_or_else(|| thread::available_parallelism().map_or(1, usize::from));
    let earlier = given.value("--since").map(|table| Earlier::read(Path::new(table), part)).transpose()?;
    enter(folder).map_err(|error| error.to_string())?;
    let site = Site::new(given)?;
    let tables = Tables::new(given)?.with_page(site.as_ref(), &shown_name(folder))?;
    let mut report = Report::new(given.has("--quiet"));
    let items = walk(folder, follow, &mut |found| report.found(found));
    report.start();
    let items = items.map_err(|error| format!("{} cannot be listed: {error}", shown_name(folder)))?;
    if !items.iter().any(|item| matches!(item.what, What::Record { .. })) {
        return Err(Stop::Told(format!("no record folder in {}", shown_name(folder))));
    }
    let of = Of { library: IDENTITY.to_string(), part, tree: tree(items.iter().map(|item| &item.name[..])) };
    let items: Vec<Item> = items.into_iter().filter(|item| part.has(&item.name)).collect();
    if let Some(other) = earlier.as_ref().and_then(Earlier::of_another_library) {
        report.note(&format!("the earlier table is another library's ({other}): everything is checked"));
    }
    let mut run =
        Run { report, tables, totals: Totals::default(), news: BTreeMap::new(), failed: given.has("--failed") };
    let look = |item: &Item| {
        let page = site.as_ref().map_or(Ok(None), |site| site.write(item, follow))?;
        Ok(Outcome { page, ..outcome(item, follow, earlier.as_ref()) })
    };
    each(&items, jobs, look, |item, outcome: Result<Outcome, String>| run.take(item, outcome?, items.len()))?;
    if let Some(earlier) = &earlier {
        let gone = earlier.gone(items.iter().map(|item| &item.name[..]));
        run.gone(folder, &gone)?;
    }
    run.end(&of)
}

/// What was found out about an item.
struct Outcome {
    row: Row,
    words: String,
    news: News,
    /// The name of its page, if one was written.
    page: Option<String>,
}

/// Looks at an item, and checks it if it is a record, unless the earlier table has the same library's verdict on the same texts.
fn outcome(item: &Item, follow: bool, earlier: Option<&Earlier>) -> Outcome {
    let before = earlier.and_then(|earlier| earlier.row(&item.name));
    let (row, words) = match &item.what {
        What::Other(sort, why) => (Row { words: why.clone(), ..Row::new(&item.name, *sort) }, why.clone()),
        What::Record { older } => {
            let texts = Texts::load(&item.path, *older, follow);
            let known = before.filter(|row| earlier.is_some_and(|earlier| earlier.vouches_for(row, &texts)));
            match known {
                Some(row) => (row.clone(), String::new()),
                None => texts.judge(&item.name),
            }
        }
    };
    let news = earlier.map_or(News::Unasked, |_| News::of(before, &row));
    let words = match before {
        Some(before) if news != News::Same => format!("{words}; before: {}", before.verdict()),
        _ => words,
    };
    Outcome { row, words, news, page: None }
}

/// A run over records.
struct Run {
    report: Report,
    tables: Tables,
    totals: Totals,
    /// What an earlier table said of them, and how often.
    news: BTreeMap<News, usize>,
    /// Only what was not accepted has its line.
    failed: bool,
}

impl Run {
    fn take(&mut self, item: &Item, outcome: Outcome, of: usize) -> Result<(), Stop> {
        let Outcome { row, words, news, page } = outcome;
        self.tables.row(&row, IDENTITY, page)?;
        self.totals.count(&row);
        *self.news.entry(news).or_default() += 1;
        if news != News::Same && !(self.failed && row.sort == Sort::Accepted) {
            self.report.line(&format!("{}: {}{words}", shown_name(&item.path), news.start()))?;
        }
        self.report.done(self.totals.all(), of);
        Ok(())
    }

    /// Tells what the earlier table has and is no longer there, and how the rest stands to it.
    fn gone(&mut self, folder: &Path, gone: &[&Row]) -> Result<(), Stop> {
        for row in gone {
            let path = format!("{}/{}", shown_name(folder), row.name);
            self.report.line(&format!("{path}: gone; before: {}", row.verdict()))?;
        }
        let counts = News::COUNTED.map(|news| format!("{} {}", self.news.get(&news).unwrap_or(&0), news.word()));
        self.report.line(&format!("since then: {}, {} gone", counts.join(", "), gone.len()))
    }

    fn end(mut self, of: &Of) -> Result<bool, Stop> {
        self.report.totals(&self.totals)?;
        self.tables.end(of, &self.totals)?;
        Ok(self.totals.all_accepted())
    }
}
