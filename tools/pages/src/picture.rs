//! A record as it is drawn: its nodes with their places and texts, its links, the refused node with a note beside it.

use crate::layout::{Layout, Size};
use crate::subject::Subject;
use zorambi::words::RULES;
use zorambi::Node;
use zorambi_show::notation::all_rows;
use zorambi_show::{bounds, rules, Bound, Notation, Style};

/// The sign of each rule, and of what is none.
pub const GLYPHS: [&str; 10] = ["∧", "∨", "≶", "⋀", "⋁", "⊥", "×", "∅", "↺", "?"];

/// Columns of a formula in the panel; what finds no room in it stands under its number.
const COLUMNS: usize = 160;
/// Columns of the schema's formula.
const SCHEMA: usize = 320;
/// Columns of a formula in a node's box.
const DETAIL: usize = 22;
/// With at most so many nodes their boxes have a formula.
const DETAILED: usize = 40;
/// With at most so many links each has a label.
const LABELLED: usize = 40;
/// Columns and lines of a note.
const NOTE: usize = 46;
const NOTE_LINES: usize = 8;

/// A node as it is drawn.
pub struct Drawn {
    /// The row as the proof has it.
    pub row: Node,
    pub set: Vec<i32>,
    /// What it knows of n.
    pub bound: String,
    /// Its rule in words, with its formulas.
    pub says: String,
    /// What its rule looks at, for its box.
    pub detail: String,
}

impl Drawn {
    /// The rule's number, or 9 if there is no such rule.
    pub fn class(&self) -> usize {
        usize::try_from(self.row[1]).ok().filter(|rule| *rule < RULES.len()).unwrap_or(RULES.len())
    }

    pub fn rule_words(&self) -> String {
        RULES.get(self.class()).map_or_else(|| format!("rule {}", self.row[1]), |rule| rule.to_string())
    }

    pub fn is_link(&self) -> bool {
        self.class() == 8
    }
}

/// A link between two nodes that are there.
#[derive(Clone, Copy)]
pub struct Link {
    pub from: usize,
    pub to: usize,
    pub by: i32,
}

/// What a refusal points to.
#[derive(Clone, Copy, Debug, PartialEq, Eq)]
pub enum Place {
    Node(usize),
    Row(usize),
    /// The whole, or a line of a text.
    Elsewhere,
}

pub struct Picture<'a> {
    pub subject: &'a Subject,
    pub layout: Layout,
    pub nodes: Vec<Drawn>,
    pub links: Vec<Link>,
    /// Each formula row as text.
    pub rows: Vec<String>,
    /// The verdict in one line.
    pub words: String,
    /// Lines of the note beside the refused node, and how many of them say what is refused.
    pub note: Vec<String>,
    pub note_firsts: usize,
}

impl<'a> Picture<'a> {
    pub fn new(subject: &'a Subject) -> Picture<'a> {
        let rows = all_rows(&subject.record);
        let notation = Notation::new(&rows, &subject.names, Style::Unicode);
        let nodes = nodes(subject, &notation);
        let links = links(&nodes);
        let words = subject.words();
        let note = note(subject, &words);
        let note_firsts = wrapped(&words).len();
        let node = place(subject, nodes.len()).node();
        let parents: Vec<Option<usize>> = nodes.iter().map(|node| usize::try_from(node.row[0]).ok()).collect();
        let ends: Vec<(usize, usize)> = links.iter().map(|link| (link.from, link.to)).collect();
        let layout = Layout::new(&parents, &ends, box_size(nodes.len()), node.map(|node| (node, note_size(&note))));
        let rows = (0..rows.len()).map(|row| notation.brief(row as i32, COLUMNS)).collect();
        Picture { subject, layout, nodes, links, rows, words, note, note_firsts }
    }

    pub fn title(&self) -> String {
        format!("{}: {}", self.subject.name, self.words)
    }

    pub fn place(&self) -> Place {
        place(self.subject, self.nodes.len())
    }

    pub fn refused_node(&self) -> Option<usize> {
        self.place().node()
    }

    /// `node 5: loop, n ≥ 2`
    pub fn node_title(&self, number: usize) -> String {
        let node = &self.nodes[number];
        let refused = if self.refused_node() == Some(number) { ", refused" } else { "" };
        format!("node {number}: {}, {}{refused}", node.rule_words(), node.bound)
    }

    /// What stands on each link; nothing where there are many.
    pub fn link_labels(&self) -> Vec<String> {
        let label = |link: &Link| if self.links.len() > LABELLED { String::new() } else { format!("n-{}", link.by) };
        self.links.iter().map(label).collect()
    }

    /// What n the schema is about, and its formula.
    pub fn schema(&self) -> Option<[String; 2]> {
        let schema = &self.subject.record.schema;
        usize::try_from(schema.root).ok().filter(|root| *root < schema.rows.len())?;
        let notation = Notation::new(&schema.rows, &self.subject.names, Style::Unicode);
        Some([format!("n ≥ {}", schema.least), notation.brief(schema.root, SCHEMA)])
    }
}

impl Place {
    fn node(self) -> Option<usize> {
        match self {
            Place::Node(node) => Some(node),
            _ => None,
        }
    }
}

/// What the refusal points to, of so many nodes.
fn place(subject: &Subject, nodes: usize) -> Place {
    let Some(explained) = &subject.explained else { return Place::Elsewhere };
    let refused = explained.refused;
    match (refused.refusal.place_counts(), refused.place) {
        (Some("node"), Some(node)) if node < nodes => Place::Node(node),
        (Some("row"), Some(row)) => Place::Row(row),
        _ => Place::Elsewhere,
    }
}

fn box_size(nodes: usize) -> Size {
    if nodes <= DETAILED {
        Size { width: 176, height: 54 }
    } else {
        Size { width: 140, height: 36 }
    }
}

fn nodes(subject: &Subject, notation: &Notation) -> Vec<Drawn> {
    let proof = &subject.record.proof;
    let detailed = proof.nodes.len() <= DETAILED;
    let drawn = |(row, bound): (&Node, Option<Bound>)| Drawn {
        row: *row,
        set: set(row, &proof.members),
        bound: bound.map_or_else(|| "n unknown".to_string(), |bound| bound.text(Style::Unicode)),
        says: rules::rule(row, bound, notation),
        detail: if detailed { detail(row, bound, notation) } else { String::new() },
    };
    proof.nodes.iter().zip(bounds::work_out(&subject.record)).map(drawn).collect()
}

/// The members of a node's set, as far as there are any.
fn set(row: &Node, members: &[i32]) -> Vec<i32> {
    let number = |at: usize| usize::try_from(row[at]).unwrap_or(usize::MAX);
    members.iter().skip(number(7)).take(number(8)).copied().collect()
}

/// What a rule looks at.
fn detail(&[_, rule, on, with, _, to, by, ..]: &Node, bound: Option<Bound>, notation: &Notation) -> String {
    let formula = |row: i32, columns: usize| shortened(&notation.brief(row, columns), columns);
    match rule {
        0 | 1 | 3 | 4 | 5 | 7 => formula(on, DETAIL),
        2 => bound.map_or(String::new(), |bound| bound.split(by).map(|part| part.text(Style::Unicode)).join(" or ")),
        6 => format!("{}, {}", formula(on, DETAIL / 2 - 1), formula(with, DETAIL / 2 - 1)),
        8 => format!("to node {to}, n-{by}"),
        _ => String::new(),
    }
}

/// A text of at most so many letters.
fn shortened(text: &str, most: usize) -> String {
    if text.chars().count() <= most {
        return text.to_string();
    }
    text.chars().take(most - 1).chain(['…']).collect()
}

fn links(nodes: &[Drawn]) -> Vec<Link> {
    let link = |(from, node): (usize, &Drawn)| {
        let to = usize::try_from(node.row[5]).ok().filter(|to| *to < nodes.len())?;
        node.is_link().then_some(Link { from, to, by: node.row[6] })
    };
    nodes.iter().enumerate().filter_map(link).collect()
}

/// The lines of the note: what is refused, then why.
fn note(subject: &Subject, words: &str) -> Vec<String> {
    let Some(explained) = &subject.explained else { return Vec::new() };
    let mut lines = wrapped(words);
    lines.extend(wrapped(&explained.why));
    if lines.len() > NOTE_LINES {
        lines.truncate(NOTE_LINES);
        if let Some(last) = lines.last_mut() {
            last.push_str(" …");
        }
    }
    lines
}

fn note_size(lines: &[String]) -> Size {
    let widest = lines.iter().map(|line| line.chars().count()).max().unwrap_or(0);
    Size { width: (widest as i32 * 13 / 2 + 24).max(80) / 2 * 2, height: lines.len() as i32 * 16 + 14 }
}

/// Words in lines; a word that is longer than a line is cut.
fn wrapped(text: &str) -> Vec<String> {
    let mut lines: Vec<String> = Vec::new();
    for word in text.split_whitespace() {
        let word = shortened(word, NOTE);
        match lines.last_mut() {
            Some(line) if line.chars().count() + 1 + word.chars().count() <= NOTE => {
                line.push(' ');
                line.push_str(&word);
            }
            _ => lines.push(word),
        }
    }
    lines
}
