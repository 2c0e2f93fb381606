//! The table of a catalogue: a row for each record, each folder that cannot be listed and each link to a folder, in the order of
//! their names, and an end row, which says what the table is of. As CSV it is read again; as JSON it has an object a line.

use crate::csv;
use crate::totals::Totals;
use crate::walk::order;
use std::fs;
use std::path::Path;
use std::str::FromStr;
use zorambi::{hex, json_string, sha256, shown_name};

pub const COLUMNS: [&str; 17] = [
    "record",
    "verdict",
    "answer",
    "place",
    "nodes",
    "links",
    "refusal",
    "file",
    "line",
    "text",
    "check",
    "schema_sha256",
    "proof_sha256",
    "library",
    "part",
    "tree",
    "why",
];

/// Columns of a table from before refusals were explained; it is still read.
const EARLIER_COLUMNS: usize = 16;

/// What the verdict column says of the end row.
const END: &str = "end";

/// What a row is of.
#[derive(Clone, Copy, Debug, PartialEq, Eq)]
pub enum Sort {
    Accepted,
    Refused,
    /// A folder that cannot be listed.
    Unlisted,
    /// A link to a folder, which is not followed.
    Link,
    /// A link to a folder that has a row, or whose records have, under another name.
    Elsewhere,
}

impl Sort {
    const ALL: [Sort; 5] = [Sort::Accepted, Sort::Refused, Sort::Unlisted, Sort::Link, Sort::Elsewhere];

    pub fn word(self) -> &'static str {
        match self {
            Sort::Accepted => "accepted",
            Sort::Refused => "refused",
            Sort::Unlisted => "not listed",
            Sort::Link => "not followed",
            Sort::Elsewhere => "listed elsewhere",
        }
    }

    pub fn is_record(self) -> bool {
        matches!(self, Sort::Accepted | Sort::Refused)
    }
}

#[derive(Clone, Debug, PartialEq, Eq)]
pub struct Row {
    pub name: String,
    pub sort: Sort,
    /// Of a record: answer, place, nodes, links, as the check program prints them.
    pub numbers: [i64; 4],
    /// Why it was refused, not listed or not followed.
    pub words: String,
    pub file: String,
    pub line: String,
    pub text: String,
    pub older: bool,
    /// The hashes of the texts; empty for one that could not be read, or not whole.
    pub schema: String,
    pub proof: String,
    /// Of a refusal: what does not fit, in a sentence; empty in a table from before refusals were explained.
    pub why: String,
}

impl Row {
    pub fn new(name: &str, sort: Sort) -> Row {
        let [words, file, line, text, schema, proof, why] = [const { String::new() }; 7];
        Row { name: name.to_string(), sort, numbers: [0; 4], words, file, line, text, older: false, schema, proof, why }
    }

    /// What became of it, in a word or two.
    pub fn verdict(&self) -> String {
        match self.sort {
            Sort::Refused => format!("refused ({})", self.numbers[0]),
            sort => sort.word().to_string(),
        }
    }

    /// The cells of the first 13 columns.
    fn cells(&self) -> [String; 13] {
        let record = self.sort.is_record();
        let number = |at: usize| if record { self.numbers[at].to_string() } else { String::new() };
        let check = match (record, self.older) {
            (false, _) => "",
            (true, true) => "older",
            (true, false) => "present",
        };
        [
            self.name.clone(),
            self.sort.word().to_string(),
            number(0),
            number(1),
            number(2),
            number(3),
            self.words.clone(),
            self.file.clone(),
            self.line.clone(),
            self.text.clone(),
            check.to_string(),
            self.schema.clone(),
            self.proof.clone(),
        ]
    }

    pub fn csv(&self, library: &str) -> String {
        let mut cells = self.cells().to_vec();
        cells.extend([library, "", "", &self.why].map(str::to_string));
        csv::row(&cells)
    }

    /// One JSON object; what is empty in the CSV table is null.
    pub fn json(&self, library: &str) -> String {
        let mut object = String::from("{");
        for (at, (column, cell)) in COLUMNS.iter().zip(self.cells()).enumerate() {
            let is_number = (2..6).contains(&at) || at == 8;
            let value = match &cell[..] {
                "" => "null".to_string(),
                number if is_number => number.to_string(),
                text => json_string(text),
            };
            object += &format!("\"{column}\":{value},");
        }
        let why = if self.why.is_empty() { "null".to_string() } else { json_string(&self.why) };
        object + &format!("\"library\":{},\"why\":{why}}}\n", json_string(library))
    }

    /// The row with these cells, if it could have been written so.
    fn of_cells(cells: &[String]) -> Option<Row> {
        let sort = Sort::ALL.into_iter().find(|sort| sort.word() == cells[1])?;
        let mut row = Row::new(&cells[0], sort);
        if sort.is_record() {
            for (number, cell) in row.numbers.iter_mut().zip(&cells[2..6]) {
                *number = cell.parse().ok()?;
            }
        }
        row.older = cells[10] == "older";
        row.why.clone_from(&cells[16]);
        let texts = [&mut row.words, &mut row.file, &mut row.line, &mut row.text];
        texts.into_iter().zip(&cells[6..10]).for_each(|(text, cell)| text.clone_from(cell));
        [&mut row.schema, &mut row.proof]
            .into_iter()
            .zip(&cells[11..13])
            .for_each(|(hash, cell)| hash.clone_from(cell));
        let accepted = (sort == Sort::Accepted) == (row.numbers[0] == 0) || !sort.is_record();
        (accepted && !row.name.is_empty() && row.cells()[..] == cells[..13]).then_some(row)
    }
}

/// Part `number` of `of`, 1 of 1 being the whole.
#[derive(Clone, Copy, Debug, PartialEq, Eq, PartialOrd, Ord)]
pub struct Part {
    pub number: usize,
    pub of: usize,
}

impl Part {
    pub const WHOLE: Part = Part { number: 1, of: 1 };

    /// The row of this name belongs to this part: the first 8 bytes of the name's SHA-256 hash, as a number, modulo the number of
    /// parts, say to which.
    pub fn has(self, name: &str) -> bool {
        let hash = sha256(name.as_bytes());
        let start = *hash.first_chunk().expect("a hash has 32 bytes");
        u64::from_be_bytes(start) % self.of as u64 == self.number as u64 - 1
    }
}

impl FromStr for Part {
    type Err = ();

    fn from_str(text: &str) -> Result<Part, ()> {
        let digits = |text: &str| text.bytes().all(|byte| byte.is_ascii_digit()) && !text.starts_with('0');
        let (number, of) = text.split_once('/').filter(|(number, of)| digits(number) && digits(of)).ok_or(())?;
        let part = Part { number: number.parse().map_err(drop)?, of: of.parse().map_err(drop)? };
        if part.number <= part.of {
            Ok(part)
        } else {
            Err(())
        }
    }
}

impl std::fmt::Display for Part {
    fn fmt(&self, f: &mut std::fmt::Formatter<'_>) -> std::fmt::Result {
        write!(f, "{}/{}", self.number, self.of)
    }
}

/// What a table is of.
#[derive(Clone, Debug, PartialEq, Eq)]
pub struct Of {
    pub library: String,
    pub part: Part,
    /// The hash of all names below the folder, those of other parts too.
    pub tree: String,
}

impl Of {
    /// The end row of a table with these totals.
    pub fn csv(&self, totals: &Totals) -> String {
        let mut cells = vec![String::new(); COLUMNS.len()];
        cells[1] = END.to_string();
        cells[9] = totals.to_string();
        cells[13].clone_from(&self.library);
        cells[14] = self.part.to_string();
        cells[15].clone_from(&self.tree);
        csv::row(&cells)
    }

    pub fn json(&self, totals: &Totals) -> String {
        let counts: String = totals.counts().iter().map(|(name, count)| format!("\"{name}\":{count},")).collect();
        format!(
            "{{\"record\":null,\"verdict\":\"{END}\",{counts}\"library\":{},\"part\":\"{}\",\"tree\":\"{}\"}}\n",
            json_string(&self.library),
            self.part,
            self.tree
        )
    }
}

/// The hash of names in their order, each as a line.
pub fn tree<'a>(names: impl Iterator<Item = &'a str>) -> String {
    let mut lines = String::new();
    for name in names {
        lines += name;
        lines.push('\n');
    }
    hex(&sha256(lines.as_bytes()))
}

/// The first line of a CSV table.
pub fn heading() -> String {
    csv::row(&COLUMNS)
}

/// What every CSV table starts with, also one from before refusals were explained.
pub fn heading_start() -> String {
    COLUMNS[..EARLIER_COLUMNS].join(",")
}

/// A table that was read.
pub struct Table {
    pub rows: Vec<Row>,
    pub of: Of,
}

impl Table {
    /// Reads a CSV table, whole and unaltered as far as can be told.
    pub fn read(path: &Path) -> Result<Table, String> {
        let shown = shown_name(path);
        let text = fs::read_to_string(path).map_err(|error| format!("{shown} cannot be read: {error}"))?;
        Table::of_text(&text).map_err(|why| format!("{shown} {why}"))
    }

    fn of_text(text: &str) -> Result<Table, String> {
        let sorts = [COLUMNS.len(), EARLIER_COLUMNS].map(|columns| (columns, csv::row(&COLUMNS[..columns])));
        let table = sorts.iter().find_map(|(columns, heading)| Some((*columns, text.strip_prefix(&heading[..])?)));
        let Some((columns, mut rest)) = table else {
            return Err("is no table of a catalogue (CSV)".to_string());
        };
        let (mut rows, mut totals, mut libraries) = (Vec::<Row>::new(), Totals::default(), None);
        loop {
            let not_whole = || "is no whole table: its last line, 'end', is missing".to_string();
            let wrong = |what: &str| format!("is no whole table: {what} at row {}", rows.len() + 1);
            let (mut cells, after) = csv::first_row(rest).ok_or_else(not_whole)?;
            rest = after;
            if cells.len() != columns {
                return Err(wrong("another number of columns"));
            }
            cells.resize(COLUMNS.len(), String::new());
            if libraries.get_or_insert_with(|| cells[13].clone()) != &cells[13] {
                return Err(wrong("another library"));
            }
            if cells[1] == END {
                let part = cells[14].parse().map_err(|()| wrong("no part"))?;
                let of = Of { library: cells[13].clone(), part, tree: cells[15].clone() };
                if of.csv(&totals) != csv::row(&cells) || !rest.is_empty() {
                    return Err(wrong("an end that does not fit it"));
                }
                return Ok(Table { rows, of });
            }
            let row = Row::of_cells(&cells).ok_or_else(|| wrong("no verdict"))?;
            if rows.last().is_some_and(|last| !order(&last.name).lt(order(&row.name))) {
                return Err(wrong("a name out of order"));
            }
            totals.count(&row);
            rows.push(row);
        }
    }
}
