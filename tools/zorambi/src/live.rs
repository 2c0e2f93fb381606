//! `grow --json DIR`: the same tableau for a page. Each line is answered by one object on one line. Besides the words of grow there are
//! `draw`, the drawing of what is held; `draw ROW`, an enquiry with the drawing as it would be; `offers UP`, what can be done below a
//! node (-1: the first one); and `page`, the page that draws all this.

use crate::end::Stop;
use crate::grow::{no_word, Line};
use crate::held::{line_of, standing_words, Held, Not};
use crate::offers::{offers, Field, Offer, Offers};
use std::ffi::OsStr;
use std::path::Path;
use zorambi::files::load;
use zorambi::words::{told, Known, RULES};
use zorambi::{hex, sha256, shown_name, Growing, Refused, Standing};
use zorambi_explain::{needed, Needed, Tables, Voice};
use zorambi_pages::escape::string;
use zorambi_pages::explained::Explained;
use zorambi_pages::json::{list, numbers, object, or_null};
use zorambi_pages::picture::GLYPHS;
use zorambi_pages::{data, html, Picture, Subject};
use zorambi_show::{read_names, Style};

pub struct Live {
    held: Held,
    /// The folder's name as it is shown.
    name: String,
    /// What is told of bad lines of names.txt.
    notes: Vec<String>,
    /// The hashes of the texts as they were read; of a text that there is not, none.
    texts: [Option<String>; 2],
}

type Members = Vec<(&'static str, String)>;

impl Live {
    pub fn begun(folder: &OsStr, follow: bool, anew: bool) -> Result<Live, Stop> {
        let path = Path::new(folder);
        let (names, notes) = read_names(&load(path, "names.txt", follow));
        let hashed = |file: &str| Some(load(path, file, follow)).filter(|text| text.unread.is_none());
        let texts = ["schema.txt", "proof.txt"].map(|file| hashed(file).map(|text| hex(&sha256(&text.bytes))));
        let held = Held::begun(folder, follow, anew, Voice { names, style: Style::Unicode })?;
        Ok(Live { held, name: shown_name(path.file_name().unwrap_or(folder)), notes, texts })
    }

    /// What is said before the first line.
    pub fn first(&self) -> String {
        let mut members = self.stands(None);
        members.push(("name", string(&self.name)));
        members.push(("notes", list(self.notes.iter().map(|note| string(note)))));
        members.push(("schema_sha256", or_null(self.texts[0].as_deref())));
        members.push(("proof_sha256", or_null(self.texts[1].as_deref())));
        object(&members)
    }

    pub fn answer(&mut self, line: &[u8], number: usize) -> String {
        let now = match Line::of(line) {
            Line::Held | Line::Help => Ok(self.held.growing.standing()),
            Line::Rows => return object(&self.rows()),
            Line::Open => return object(&self.open()),
            Line::Save(file) => match self.held.save(file) {
                Ok(_) => Ok(self.held.growing.standing()),
                Err(not) => Err(not),
            },
            Line::Ask(row) => return object(&self.asked(row, number)),
            Line::Add(row) => self.held.row(Growing::add, row, number),
            Line::Back => self.held.word(Growing::take_back),
            Line::Commit => self.held.word(Growing::commit),
            Line::Formula(rows) => self.held.write_formulas(rows, number),
            Line::FormulaBack => self.held.take_formula_back(),
            Line::Other(line) => return object(&self.other(line, number)),
        };
        object(&match now {
            Ok(_) => self.stands(None),
            Err(not) => self.not(&not),
        })
    }

    /// The words that are for a page alone.
    fn other(&mut self, line: &[u8], number: usize) -> Members {
        match line {
            b"page" => vec![("page", string(&html::editor()))],
            b"draw" => self.drawn(None, number),
            [b'd', b'r', b'a', b'w', b' ', row @ ..] => self.drawn(Some(row), number),
            [b'o', b'f', b'f', b'e', b'r', b's', b' ', up @ ..] => self.offered(up),
            line => self.not(&no_word(line)),
        }
    }

    /// How the tableau stands, and how it would with a row that is asked about.
    fn stands(&self, then: Option<Standing>) -> Members {
        let mut members = vec![("answer", "0".to_string()), ("place", "0".to_string())];
        members.extend(self.counts());
        members.push(("words", string(&self.held.words())));
        if let Some(then) = then {
            let Standing { nodes, links, closed } = then;
            let counts = [("nodes", nodes.to_string()), ("links", links.to_string()), ("closed", closed.to_string())];
            let words = ("words", string(&standing_words(then)));
            members.push(("then", object(&[&counts[..], &[words]].concat())));
        }
        members
    }

    /// What is held, from the library's word.
    fn counts(&self) -> Members {
        let Standing { nodes, links, closed } = self.held.growing.standing();
        vec![
            ("nodes", nodes.to_string()),
            ("links", links.to_string()),
            ("closed", closed.to_string()),
            ("unsaved", self.held.is_unsaved().to_string()),
        ]
    }

    /// Why something was not done.
    fn not(&self, not: &Not) -> Members {
        let answer = not.refused.map_or("null".to_string(), |refused| refused.refusal.number().to_string());
        let place = not.refused.and_then(|refused| refused.place).map_or("null".to_string(), |place| place.to_string());
        let mut members = vec![("answer", answer), ("place", place)];
        members.extend(self.counts());
        members.push(("words", string(&not.words)));
        if let Some(why) = &not.why {
            members.push(("why", string(&why.line)));
            members.push(("context", list(why.context.iter().map(|line| string(line)))));
            members.push(("mend", string(&why.mend)));
        }
        members
    }

    fn asked(&mut self, row: &[u8], number: usize) -> Members {
        match self.held.row(Growing::enquire, row, number) {
            Ok(then) => self.stands(Some(then)),
            Err(not) => self.not(&not),
        }
    }

    /// The formula rows and the node rows that are held, as the texts have them.
    fn rows(&self) -> Members {
        let formulas = self.held.growing.record().proof.rows;
        let formula = |row: &[i32; 4]| string(&row.map(|number| number.to_string()).join(" "));
        let nodes = self.held.node_rows();
        vec![
            ("formulas", list(formulas.iter().map(formula))),
            ("rows", list(nodes.iter().map(|(row, set)| string(&line_of(*row, set))))),
        ]
    }

    /// The nodes that want children.
    fn open(&self) -> Members {
        let node = |open: &crate::held::Open| {
            let words = format!("has {} of {} children", open.has, open.wants);
            object(&[("node", open.node.to_string()), ("words", string(&words))])
        };
        vec![("open", list(self.held.open().iter().map(node)))]
    }

    /// The drawing of what is held, with the row that is asked about and what the library says of it.
    fn drawn(&mut self, row: Option<&[u8]>, number: usize) -> Members {
        let mut record = self.held.growing.record();
        let (mut members, mut explained, mut asked) = (self.stands(None), None, None);
        if let Some(line) = row {
            match self.held.row(Growing::enquire, line, number) {
                Ok(then) => members = self.stands(Some(then)),
                Err(not) => {
                    members = self.not(&not);
                    explained = not.refused.map(|refused| explained_row(refused, line, &not));
                }
            }
            if let Ok((row, set)) = self.held.read(line, number) {
                asked = Some(record.proof.nodes.len());
                record.proof.push_node(row, &set);
            }
        }
        let needs = asked.map_or(Vec::new(), |node| needed(&Tables::from(&record), node, &self.held.voice));
        members.push(("needed", list(needs.iter().map(|needed| object(&needed_members(needed))))));
        members.push(("asked", asked.map_or("null".to_string(), |node| node.to_string())));
        members.extend(self.open());
        let names = self.held.voice.names.clone();
        let subject = Subject::growing(&self.name, record, names, self.held.words(), explained);
        let picture = Picture::new(&subject);
        let schema = picture.schema().unwrap_or_default();
        members.push(("schema", list(schema.iter().map(|text| string(text)))));
        members.push(("tableau", data::object(&picture)));
        members
    }

    fn offered(&self, up: &[u8]) -> Members {
        let up = std::str::from_utf8(up).ok().and_then(|up| up.parse::<i32>().ok());
        let parent = up.map(|up| usize::try_from(up).ok());
        let Some(Offers { child, ticked, rules }) = parent.and_then(|parent| offers(&self.held, parent)) else {
            return self.not(&Not::said("offers wants the number of a node, or -1 for the first one"));
        };
        vec![
            ("up", up.unwrap_or(-1).to_string()),
            ("set", numbers(&child.set)),
            ("given", numbers(&child.given)),
            ("gives", string(&child.gives)),
            ("ticked", numbers(&ticked)),
            ("rules", list(rules.iter().map(|offer| object(&offer_members(offer))))),
        ]
    }
}

/// What the drawing says of a row that is refused: its place there is the row itself, whatever the refusal speaks of.
fn explained_row(refused: Refused, line: &[u8], not: &Not) -> Explained {
    let known = Known { line: Some(line), growing: true, ..Known::default() };
    let why = not.why.as_ref();
    Explained {
        refused,
        words: told(refused, &known),
        why: why.map_or(String::new(), |why| why.line.clone()),
        mend: why.map_or(String::new(), |why| why.mend.clone()),
        line: None,
    }
}

fn needed_members(needed: &Needed) -> Members {
    let rows = needed.rows.iter().map(|row| numbers(row));
    vec![
        ("field", or_null(needed.field)),
        ("what", string(&needed.what)),
        ("text", string(&needed.text)),
        ("there", needed.there.map_or("null".to_string(), |row| row.to_string())),
        ("rows", list(rows)),
    ]
}

fn offer_members(offer: &Offer) -> Members {
    let field = |field: &Field| {
        object(&[
            ("name", string(field.name)),
            ("wants", string(&field.wants)),
            ("choices", numbers(&field.choices)),
            ("first", field.first.to_string()),
        ])
    };
    vec![
        ("rule", offer.rule.to_string()),
        ("name", string(RULES[offer.rule])),
        ("sign", string(GLYPHS[offer.rule])),
        ("whyNot", or_null(offer.why_not.as_deref())),
        ("fields", list(offer.fields.iter().map(field))),
    ]
}
