//! A folder as it is shown: its wide schema, its schema, its tableau, its model, each as far as it can be.

use crate::formulas::{self, for_n, listed, named, RefusedRow};
use crate::model;
use crate::sheet::{As, Sheet};
use crate::tree::Tableau;
use std::path::Path;
use zorambi::files::{load, Loaded, Unread};
use zorambi::words::{about, because, counted, told, Known};
use zorambi::{
    check_model_texts, check_older_texts, check_texts, convert, line, read_model, read_proof, read_schema, shown,
    Growing, Judgement, Model, Proof, Record, Refusal, Refused, Row, Schema, Text, Verdict, MAX_TEXT,
};
use zorambi_explain::{Sort, Tables, Voice, Why};
use zorambi_notation::bounds::{self, Bound};
use zorambi_notation::names::Names;
use zorambi_notation::notation::{all_rows, Notation, Style};

/// How it is to be shown.
#[derive(Clone, Copy, Debug, Default)]
pub struct Options {
    pub style: Style,
    /// With the sets of nodes.
    pub with_sets: bool,
    /// Columns of a line.
    pub width: usize,
    /// The record is an older one.
    pub is_older: bool,
}

/// The texts of a folder.
pub struct Texts {
    pub wide: Loaded,
    pub schema: Loaded,
    pub proof: Loaded,
    pub model: Loaded,
    pub names: Loaded,
}

/// What is shown of a folder.
pub struct Shown {
    pub text: String,
    /// What is told of it besides: bad lines of `names.txt`.
    pub told: Vec<String>,
    /// All texts that are there could be read.
    pub is_whole: bool,
}

/// Lines of `names.txt` that are told of.
const MOST_TOLD: usize = 20;

impl Texts {
    pub fn load(folder: &Path, follow: bool) -> Texts {
        let text = |name| load(folder, name, follow);
        Texts {
            wide: text("wide.txt"),
            schema: text("schema.txt"),
            proof: text("proof.txt"),
            model: text("model.txt"),
            names: text("names.txt"),
        }
    }
}

fn is_there(text: &Loaded) -> bool {
    !matches!(text.unread, Some(Unread::Missing))
}

/// The names that a folder gives, and what is told of bad lines.
pub fn read_names(text: &Loaded) -> (Names, Vec<String>) {
    let nothing = |why: String| (Names::default(), vec![format!("names.txt {why}: no name is taken from it")]);
    match &text.unread {
        Some(Unread::Missing) => (Names::default(), Vec::new()),
        Some(unread) => nothing(unread.to_string()),
        None if text.bytes.len() > MAX_TEXT => nothing("has over 65,536 bytes".to_string()),
        None => {
            let (names, mut told) = Names::read(&text.bytes);
            let others = told.len().saturating_sub(MOST_TOLD);
            told.truncate(MOST_TOLD);
            if others > 0 {
                told.push(format!("names.txt: {} more that name nothing", counted(others, "line")));
            }
            (names, told)
        }
    }
}

/// Shows the texts of a folder.
pub fn show(texts: &Texts, options: &Options) -> Shown {
    let (names, told) = read_names(&texts.names);
    let sheet = Sheet::new(options.style, options.width);
    let mut showing = Showing { texts, options, names: &names, sheet, is_whole: true };
    showing.all();
    Shown { text: showing.sheet.into_text(), told, is_whole: showing.is_whole }
}

struct Showing<'a> {
    texts: &'a Texts,
    options: &'a Options,
    names: &'a Names,
    sheet: Sheet,
    is_whole: bool,
}

impl<'a> Showing<'a> {
    fn all(&mut self) {
        let Texts { wide, schema, proof, model, .. } = self.texts;
        let has_wide = is_there(wide);
        if has_wide {
            self.wide();
        }
        if is_there(schema) || !has_wide || is_there(proof) || is_there(model) {
            self.schema(if has_wide { As::Comment } else { As::Language });
        }
        if is_there(proof) {
            self.tableau();
        }
        if is_there(model) {
            self.model();
        }
    }

    fn notation<'r>(&self, rows: &'r [Row]) -> Notation<'r>
    where
        'a: 'r,
    {
        Notation::new(rows, self.names, self.options.style)
    }

    /// How an explanation writes its formulas: as they are shown.
    fn voice(&self) -> Voice {
        Voice { names: self.names.clone(), style: self.options.style }
    }

    fn heading(&mut self, words: &str) {
        self.sheet.gap();
        self.sheet.words(words);
        self.sheet.gap();
    }

    /// A text that cannot be read, with the library's refusal.
    fn unread(&mut self, sort: Sort, text: &Loaded, refused: Refused) {
        let file = sort.file();
        self.is_whole = false;
        self.heading(&format!("{file} cannot be shown"));
        let why = zorambi_explain::text(&zorambi_explain::Text::new(sort, text), refused);
        self.refused(refused, Some((file, text)), refused.place.unwrap_or(0), &why);
    }

    /// A refusal, why, and the line of a text that it points to, if it is not 0.
    fn refused(&mut self, refused: Refused, of: Option<(&str, &Loaded)>, number: usize, why: &Why) {
        let bytes = of.map(|(_, text)| line(&text.bytes, number)).filter(|_| number > 0);
        let unread = of.and_then(|(_, text)| text.unread.as_ref());
        let file = of.map(|(file, _)| file);
        let known = Known { file, unread, line: bytes, growing: false };
        self.sheet.words(&told(refused, &known));
        self.sheet.words(&because(refused, &why.line));
        if let (Some(file), Some(bytes), None) = (file, bytes, unread) {
            self.line_of(file, number, bytes);
        }
    }

    /// A line of a text, as much of it as there is room for.
    fn line_of(&mut self, file: &str, number: usize, bytes: &[u8]) {
        let start = format!("{file}:{number}: ");
        let room = self.sheet.width().saturating_sub(start.len());
        let text = shown(bytes);
        match text.len() > room {
            true => self.sheet.line(format!("{start}{}..", &text[..room.saturating_sub(2)])),
            false => self.sheet.line(format!("{start}{text}")),
        }
    }

    fn wide(&mut self) {
        let texts = self.texts;
        let wide = match read_schema(&texts.wide.bytes) {
            Ok(wide) => wide,
            Err(refused) => return self.unread(Sort::Wide, &texts.wide, refused),
        };
        self.heading(&format!("wide schema: row {}, {}", wide.root, for_n(&wide, self.options.style)));
        self.formula(&wide, As::Language);
        match convert(&wide) {
            Ok(plain) => self.sheet.words(&converted(&plain, &texts.schema)),
            Err(refused) => {
                let why = zorambi_explain::convert(&(&wide).into(), refused, &self.voice());
                self.refused_row(&wide.rows, refused, Sort::Wide, &texts.wide, &why);
            }
        }
    }

    fn formula(&mut self, schema: &Schema, shown_as: As) {
        let notation = self.notation(&schema.rows);
        formulas::schema(schema, &notation, shown_as, &mut self.sheet);
        self.sheet.gap();
    }

    /// A refusal of a schema's rows: the row at fault, marked, then the refusal. Row r is line 4 + r.
    fn refused_row(&mut self, rows: &[Row], refused: Refused, sort: Sort, text: &Loaded, why: &Why) {
        let row = row_at_fault(refused);
        if let Some(row) = row.filter(|row| *row < rows.len()) {
            let notation = self.notation(rows);
            let shared = notation.shared(&[row as i32]);
            let refused_row = Some((row, marked(refused, None)));
            listed(&[row].into(), &shared, &notation, &refused_row, &mut self.sheet);
            self.sheet.gap();
        }
        self.refused(refused, Some((sort.file(), text)), row.map_or(0, |row| 4 + row), why);
    }

    fn schema(&mut self, shown_as: As) {
        let texts = self.texts;
        let schema = match read_schema(&texts.schema.bytes) {
            Ok(schema) => schema,
            Err(refused) => return self.unread(Sort::Schema, &texts.schema, refused),
        };
        self.heading(&format!("schema: row {}, {}", schema.root, for_n(&schema, self.options.style)));
        self.formula(&schema, shown_as);
        let has_verdict = is_there(&texts.proof) && read_proof(&texts.proof.bytes).is_ok();
        match Growing::begin(schema.clone(), Vec::new()) {
            _ if has_verdict => {}
            Ok(_) => self.sheet.line("well formed"),
            Err(refused) => {
                let record = Record { schema, proof: Proof::default() };
                let why = zorambi_explain::check(&Tables::from(&record), refused, &self.voice());
                self.refused_row(&record.schema.rows, refused, Sort::Schema, &texts.schema, &why);
            }
        }
    }

    fn tableau(&mut self) {
        let texts = self.texts;
        let proof = match read_proof(&texts.proof.bytes) {
            Ok(proof) => proof,
            Err(refused) => return self.unread(Sort::Proof, &texts.proof, refused),
        };
        match read_schema(&texts.schema.bytes) {
            Ok(schema) => self.record(&Record { schema, proof }),
            Err(_) => self.without_schema(&proof),
        }
    }

    /// Without the schema the numbers of rows and what nodes know of n are not known.
    fn without_schema(&mut self, proof: &Proof) {
        self.heading("tableau, of which nothing is judged without its schema");
        self.tree(proof, &vec![None; proof.nodes.len()], &[], None);
    }

    fn record(&mut self, record: &Record) {
        let check = if self.options.is_older { check_older_texts } else { check_texts };
        let Judgement { verdict, fault } = check(&self.texts.schema.bytes, &self.texts.proof.bytes);
        let refused = match verdict {
            Verdict::Refused { refusal, place } => Some(Refused { refusal, place }),
            Verdict::Accepted { .. } => None,
        };
        let faulty = fault.map(|(text, number)| {
            let (file, text) = self.text(text);
            (file, text, number)
        });
        let node_line = faulty.map(|(_, text, number)| line(&text.bytes, number));
        let rows = all_rows(record);
        let row = refused.and_then(|refused| Some((row_at_fault(refused)?, marked(refused, node_line))));
        let node = refused.and_then(|refused| Some((node_at_fault(refused)?, marked(refused, node_line))));
        self.rows(record, &rows, &row);
        if !record.proof.nodes.is_empty() {
            self.heading("tableau");
            self.tree(&record.proof, &bounds::work_out(record), &rows, node);
        }
        self.sheet.gap();
        match refused {
            None => self.sheet.words(&verdict.to_string()),
            Some(refused) => {
                let (of, number) = faulty.map_or((None, 0), |(file, text, number)| (Some((file, text)), number));
                let why = zorambi_explain::check(&Tables::from(record), refused, &self.voice());
                self.refused(refused, of, number, &why);
            }
        }
    }

    fn text(&self, text: Text) -> (&'static str, &'a Loaded) {
        match text {
            Text::Schema => ("schema.txt", &self.texts.schema),
            Text::Proof => ("proof.txt", &self.texts.proof),
            Text::Model => ("model.txt", &self.texts.model),
        }
    }

    /// The rows that the tableau names, and a refused one, each under its number.
    fn rows(&mut self, record: &Record, rows: &[Row], refused: &RefusedRow) {
        let mut named = named(&record.proof, self.options.with_sets, rows);
        named.extend(refused.iter().map(|(row, _)| *row).filter(|row| *row < rows.len()));
        if named.is_empty() {
            return;
        }
        let notation = self.notation(rows);
        let formulas: Vec<i32> = named.iter().map(|row| *row as i32).collect();
        let mut shared = notation.shared(&formulas);
        shared.extend(&named);
        self.heading("rows of the tableau");
        listed(&shared, &shared, &notation, refused, &mut self.sheet);
    }

    fn tree(&mut self, proof: &Proof, bounds: &[Option<Bound>], rows: &[Row], refused: Option<(usize, String)>) {
        let notation = self.notation(rows);
        let (with_sets, width) = (self.options.with_sets, self.sheet.width());
        let tableau = Tableau { proof, bounds, notation: &notation, with_sets, width, refused };
        tableau.lines().iter().for_each(|line| self.sheet.line(line));
    }

    fn model(&mut self) {
        let texts = self.texts;
        let model = match read_model(&texts.model.bytes) {
            Ok(model) => model,
            Err(refused) => return self.unread(Sort::Model, &texts.model, refused),
        };
        self.heading(&format!("model: n = {}", model.n));
        for pairs in model::pairs(&model, self.names) {
            self.sheet.indented("  ", &pairs);
        }
        self.sheet.line(if model.pairs.is_empty() { "  every pair is false" } else { "  every other pair is false" });
        let Ok(schema) = read_schema(&texts.schema.bytes) else { return };
        let Judgement { verdict, fault } = check_model_texts(&texts.schema.bytes, &texts.model.bytes);
        match verdict {
            Verdict::Accepted { .. } => {
                self.values(&schema, &model);
                self.sheet.words(&format!("{verdict}: the schema is true in this model"));
            }
            Verdict::Refused { refusal, place } => {
                if refusal == Refusal::False {
                    self.values(&schema, &model);
                }
                self.sheet.gap();
                let refused = Refused { refusal, place };
                let pairs = (model.pairs.as_flattened(), model.pairs.len());
                let why = zorambi_explain::model(&(&schema).into(), model.n, pairs, refused, &self.voice());
                let (of, number) = fault.map_or((None, 0), |(text, number)| (Some(self.text(text)), number));
                self.refused(refused, of, number, &why);
            }
        }
    }

    /// Each iteration that the root reaches, and what it comes to.
    fn values(&mut self, schema: &Schema, model: &Model) {
        let notation = self.notation(&schema.rows);
        let iterations = model::iterations(schema, model);
        self.sheet.gap();
        for iteration in &iterations {
            let formula = notation.brief(iteration.row as i32, self.sheet.width().saturating_sub(16));
            self.sheet.line(format!("  {} = {formula}", notation.row_name(iteration.row)));
            self.sheet.indented("      ", &format!("is {}", iteration.text(&notation)));
        }
        self.sheet.gap();
    }
}

/// What is said of the plain schema of a wide one.
fn converted(plain: &Schema, beside: &Loaded) -> String {
    let rows = counted(plain.rows.len(), "row");
    match read_schema(&beside.bytes) {
        _ if !is_there(beside) => format!("well formed: its plain schema has {rows}"),
        Ok(schema) if schema == *plain => format!("well formed: its plain schema, of {rows}, is the one in schema.txt"),
        _ => format!("well formed: its plain schema has {rows}, and is not the one in schema.txt"),
    }
}

/// What is said below what is refused.
fn marked(refused: Refused, line: Option<&[u8]>) -> String {
    let known = Known { line, ..Known::default() };
    format!("refused: {} ({})", about(refused, &known), refused.refusal.number())
}

fn row_at_fault(refused: Refused) -> Option<usize> {
    refused.place.filter(|_| refused.refusal.place_counts() == Some("row"))
}

fn node_at_fault(refused: Refused) -> Option<usize> {
    refused.place.filter(|_| refused.refusal.place_counts() == Some("node"))
}
