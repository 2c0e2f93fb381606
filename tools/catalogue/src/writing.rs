//! What is written of a catalogue: tables as CSV and JSON, and a page.

use crate::pages::{entry, summary, Site};
use crate::table::{heading, heading_start, Of, Row};
use crate::totals::Totals;
use std::path::Path;
use std::sync::LazyLock;
use zorambi_commands::Given;
use zorambi_pages::beside::{Beside, Kind};
use zorambi_pages::listing::{self, Listing};

static CSV_START: LazyLock<String> = LazyLock::new(heading_start);
const JSON_START: &str = "{\"record\":";

#[derive(Default)]
pub struct Tables {
    csv: Option<Beside>,
    json: Option<Beside>,
    page: Option<(Beside, Listing)>,
}

impl Tables {
    /// Those that `--csv` and `--json` name.
    pub fn new(given: &Given) -> Result<Tables, String> {
        let options = ["--csv", "--json", "--html"];
        let [csv, json, html] = options.map(|option| given.value(option).map(Path::new));
        for (one, other, words) in [
            (csv, json, "--csv and --json name the same file"),
            (csv, html, "--csv and --html name the same file"),
            (json, html, "--json and --html name the same file"),
        ] {
            if one.is_some() && one == other {
                return Err(words.to_string());
            }
        }
        let begin = |path: Option<&Path>, start| {
            path.map(|path| Beside::new(path, Kind { start, what: "table of a catalogue" })).transpose()
        };
        let mut tables = Tables { csv: begin(csv, &CSV_START)?, json: begin(json, JSON_START)?, page: None };
        if let Some(csv) = &mut tables.csv {
            csv.write(&heading())?;
        }
        Ok(tables)
    }

    /// The page that `--html` names, of a folder with this shown name.
    pub fn with_page(mut self, site: Option<&Site>, folder: &str) -> Result<Tables, String> {
        if let Some(site) = site {
            let mut page = Beside::new(&site.html, listing::KIND)?;
            let listing = Listing::new(&format!("Catalogue of {folder}"), site.to_pages());
            page.write(&listing.start())?;
            self.page = Some((page, listing));
        }
        Ok(self)
    }

    /// A row, and the name of the record's own page if it has one.
    pub fn row(&mut self, row: &Row, library: &str, page: Option<String>) -> Result<(), String> {
        if let Some((file, listing)) = &mut self.page {
            file.write(&listing.line(&entry(row, page)))?;
        }
        self.write(|| row.csv(library), || row.json(library))
    }

    /// The end row, with which the tables are whole and get their names.
    pub fn end(mut self, of: &Of, totals: &Totals) -> Result<(), String> {
        self.write(|| of.csv(totals), || of.json(totals))?;
        self.csv.map_or(Ok(()), Beside::finish)?;
        self.json.map_or(Ok(()), Beside::finish)?;
        let Some((mut file, listing)) = self.page else { return Ok(()) };
        file.write(&listing.end(&summary(of, totals)))?;
        file.finish()
    }

    fn write(&mut self, csv: impl FnOnce() -> String, json: impl FnOnce() -> String) -> Result<(), String> {
        if let Some(table) = &mut self.csv {
            table.write(&csv())?;
        }
        if let Some(table) = &mut self.json {
            table.write(&json())?;
        }
        Ok(())
    }
}
