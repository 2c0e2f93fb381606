//! A tableau that grows, as it is held: its rows, what was saved of it, and why a row is not taken. Its formula rows may grow too:
//! then it is begun again with one more, and the rows that were held are added again, each judged by the library.

use crate::end::Stop;
use crate::out::write_new;
use crate::texts::Text;
use std::ffi::OsStr;
use std::io;
use std::os::unix::ffi::OsStrExt;
use std::path::Path;
use zorambi::words::{counted, told, Known};
use zorambi::{
    check_texts, read_proof, shown, write_proof, Growing, Node, Proof, Record, Refused, Row, Standing, MAX_TEXT,
};
use zorambi_explain::{Sort, Tables, Voice, Why, CHILDREN};

const ROW_HEADING: &[u8] = b"kind a b c\n";
const NODE_HEADING: &[u8] = b"up rule on with other to by set\n";

/// A node row with its set.
pub type NodeRow = ([i32; 7], Vec<i32>);

/// What is done with a row: it is added, or asked about.
pub type Call = fn(&mut Growing, [i32; 7], &[i32]) -> Result<Standing, Refused>;

/// Why something was not done: a refusal in words and its explanation, or words alone.
pub struct Not {
    pub refused: Option<Refused>,
    pub words: String,
    pub why: Option<Box<Why>>,
}

impl Not {
    pub fn said(words: impl Into<String>) -> Not {
        Not { refused: None, words: words.into(), why: None }
    }

    /// The line is the row's own.
    fn refused(refused: Refused, line: Option<&[u8]>, why: Option<Why>) -> Not {
        let words = told(refused, &Known { line, growing: true, ..Known::default() });
        Not { refused: Some(refused), words, why: why.map(Box::new) }
    }
}

/// A node that wants children.
pub struct Open {
    pub node: usize,
    pub rule: usize,
    pub has: usize,
    pub wants: usize,
}

pub struct Held {
    pub growing: Growing,
    /// The proof that the folder held, or that was saved last.
    saved: Proof,
    pub voice: Voice,
}

impl Held {
    /// What a folder holds: the schema and, if there is one, the proof, its nodes added row by row. Anew it is the schema alone.
    pub fn begun(folder: &OsStr, follow: bool, anew: bool, voice: Voice) -> Result<Held, Stop> {
        let schema = Text::load(folder, Sort::Schema, follow)?;
        let no_rows = [ROW_HEADING, NODE_HEADING].concat();
        let proof = if anew {
            Text::given(&no_rows, Sort::Proof)
        } else {
            Text::load_or(&no_rows, folder, Sort::Proof, follow)?
        };
        let texts = [schema, proof];
        let record = Text::record(&texts)?;
        let Record { schema, proof } = record.clone();
        let row_count = proof.rows.len();
        let mut growing = Growing::begin(schema, proof.rows.clone()).map_err(|refused| {
            let why = zorambi_explain::check(&Tables::from(&record), refused, &voice);
            let fault = check_texts(texts[0].bytes(), texts[1].bytes()).fault;
            Text::refused_at_fault(fault, &texts, refused, Some(why))
        })?;
        for (number, node) in proof.nodes.iter().enumerate() {
            let (row, set) = row_of(node, &proof.members);
            growing.add(row, &set).map_err(|refused| {
                let why = why_not(&growing, row, &set, refused, &voice);
                texts[1].refused_node(refused, row_count, number, why)
            })?;
        }
        Ok(Held { growing, saved: proof, voice })
    }

    /// How much is held.
    pub fn words(&self) -> String {
        standing_words(self.growing.standing())
    }

    pub fn is_unsaved(&self) -> bool {
        self.growing.record().proof != self.saved
    }

    /// The node rows that are held.
    pub fn node_rows(&self) -> Vec<NodeRow> {
        (0..).map_while(|number| self.growing.row(number).map(|(row, set)| (row, set.to_vec()))).collect()
    }

    /// Each node that has fewer children than its rule wants.
    pub fn open(&self) -> Vec<Open> {
        let rows = self.node_rows();
        let children = |node: usize| rows.iter().filter(|(row, _)| row[0] == node as i32).count();
        let nodes = rows.iter().enumerate().map(|(node, (row, _))| {
            let rule = row[1] as usize;
            Open { node, rule, has: children(node), wants: CHILDREN[rule] }
        });
        nodes.filter(|node| node.has < node.wants).collect()
    }

    /// A row is read as the one row of a proof text. One that cannot be read is refused at its line.
    pub fn read(&self, line: &[u8], number: usize) -> Result<NodeRow, Not> {
        match read_proof(&[ROW_HEADING, NODE_HEADING, line, b"\n"].concat()) {
            Ok(proof) => Ok(row_of(&proof.nodes[0], &proof.members)),
            Err(refused) => Err(unread(line, number, refused)),
        }
    }

    /// Adds a row, or asks about it.
    pub fn row(&mut self, call: Call, line: &[u8], number: usize) -> Result<Standing, Not> {
        let (row, set) = self.read(line, number)?;
        call(&mut self.growing, row, &set).map_err(|refused| {
            let why = why_not(&self.growing, row, &set, refused, &self.voice);
            Not::refused(refused, Some(line), Some(why))
        })
    }

    /// Commits, or takes back.
    pub fn word(&mut self, call: fn(&mut Growing) -> Result<Standing, Refused>) -> Result<Standing, Not> {
        call(&mut self.growing).map_err(|refused| {
            let why = zorambi_explain::grow(&self.growing.record(), 0, refused);
            Not::refused(refused, None, Some(why))
        })
    }

    /// Puts formula rows, with a comma between, after those that are there.
    pub fn write_formulas(&mut self, line: &[u8], number: usize) -> Result<Standing, Not> {
        let lines = String::from_utf8_lossy(line).replace(", ", "\n");
        let text = [ROW_HEADING, lines.as_bytes(), b"\n", NODE_HEADING].concat();
        let read = read_proof(&text).map_err(|refused| {
            let refused = at_line(number, refused);
            let why = Why::new("a formula row is four numbers, KIND A B C", "write rows so, with a comma between two");
            Not::refused(refused, None, Some(why))
        })?;
        if read.rows.is_empty() || !read.nodes.is_empty() {
            return Err(Not::said("formula wants rows KIND A B C, with a comma between"));
        }
        let mut rows = self.growing.record().proof.rows;
        rows.extend(read.rows);
        self.begin_again(rows)
    }

    /// Takes the last formula row of the proof back.
    pub fn take_formula_back(&mut self) -> Result<Standing, Not> {
        let mut rows = self.growing.record().proof.rows;
        match rows.pop() {
            Some(_) => self.begin_again(rows),
            None => Err(Not::said("the proof has no formula row to take back; those of the schema stay")),
        }
    }

    /// Begins again with these formula rows of the proof. Where a row is refused all stays as it was.
    fn begin_again(&mut self, rows: Vec<Row>) -> Result<Standing, Not> {
        let schema = self.growing.record().schema;
        let mut again = Growing::begin(schema.clone(), rows.clone()).map_err(|refused| {
            let record = Record { schema, proof: Proof { rows, ..Proof::default() } };
            let why = zorambi_explain::check(&Tables::from(&record), refused, &self.voice);
            Not::refused(refused, None, Some(why))
        })?;
        for (row, set) in self.node_rows() {
            again.add(row, &set).map_err(|refused| {
                let why = why_not(&again, row, &set, refused, &self.voice);
                Not::refused(refused, Some(line_of(row, &set).as_bytes()), Some(why))
            })?;
        }
        self.growing = again;
        Ok(self.growing.standing())
    }

    /// Writes the proof text of what is there. A file that exists is not written over.
    pub fn save(&mut self, file: &OsStr) -> Result<String, Not> {
        let name = shown(file.as_bytes());
        let held = self.growing.record();
        let text = write_proof(&held.proof).map_err(|refused| {
            let why = zorambi_explain::write_proof(&Tables::from(&held), MAX_TEXT, refused);
            Not::refused(refused, None, Some(why))
        })?;
        match write_new(Path::new(file), &text) {
            Ok(()) => {
                self.saved = held.proof;
                Ok(format!("saved {name}"))
            }
            Err(why) if why.kind() == io::ErrorKind::AlreadyExists => {
                Err(Not::said(format!("not saved: {name} exists and is not written over")))
            }
            Err(why) => Err(Not::said(format!("not saved: {name}: {why}"))),
        }
    }
}

/// `5 nodes, 0 links, open`.
pub fn standing_words(Standing { nodes, links, closed }: Standing) -> String {
    let state = if closed { "closed" } else { "open" };
    format!("{}, {}, {state}", counted(nodes, "node"), counted(links, "link"))
}

/// A node row as a proof text has it.
pub fn line_of(row: [i32; 7], set: &[i32]) -> String {
    let numbers: Vec<String> = row.iter().chain(set).map(i32::to_string).collect();
    numbers.join(" ")
}

/// Why a row is refused while a tableau grows.
pub fn why_not(growing: &Growing, row: [i32; 7], set: &[i32], refused: Refused, voice: &Voice) -> Why {
    let mut held = growing.record();
    match refused.refusal.number() {
        24..=26 => zorambi_explain::grow(&held, set.len(), refused),
        _ => {
            held.proof.push_node(row, set);
            zorambi_explain::growing(&Tables::from(&held), refused, voice)
        }
    }
}

/// A line that cannot be read.
fn unread(line: &[u8], number: usize, refused: Refused) -> Not {
    let refused = at_line(number, refused);
    Not::refused(refused, None, zorambi_explain::row(line, number, refused))
}

/// A refusal in reading is at the line that was said; place 0 is the whole text, one too long.
fn at_line(number: usize, Refused { refusal, place }: Refused) -> Refused {
    Refused { refusal, place: place.filter(|place| *place > 0).map(|_| number).or(place) }
}

/// A node that was read, as a row and its set.
fn row_of(&[up, rule, on, with, other, to, by, start, length]: &Node, members: &[i32]) -> NodeRow {
    ([up, rule, on, with, other, to, by], members[start as usize..][..length as usize].to_vec())
}
