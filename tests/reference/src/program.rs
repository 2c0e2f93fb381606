//! The check programs, without their files: two texts in, the four numbers out, and the line that a refusal speaks of.

use crate::tableau::Record;
use crate::text::Named;
use crate::{
    model, tableau, text, Verdict, MAX_MEMBERS, MAX_NODES, MAX_PAIRS, MAX_ROWS, NODE_WIDTH, PAIR_WIDTH, ROW_WIDTH,
};

/// What is said of two texts.
#[derive(Clone, Copy, Debug, PartialEq, Eq)]
pub struct Judgement {
    pub verdict: Verdict,
    pub fault: Fault,
}

/// The line that a refusal speaks of, from 1, and whether it stands in the second text; line 0 is none.
#[derive(Clone, Copy, Debug, Default, PartialEq, Eq)]
pub struct Fault {
    pub second: bool,
    pub line: usize,
}

impl Fault {
    /// The line of a text's row or node.
    fn at(line: Option<(Named, usize)>) -> Fault {
        line.map_or(Fault::default(), |(named, line)| Fault { second: named == Named::Proof, line })
    }
}

/// A text refused in reading gives its answer and place with counts 0, and nothing is checked. The place is the line.
fn unread(answer: u8, place: i32, second: bool) -> Judgement {
    let line = usize::try_from(place).unwrap_or(0);
    Judgement { verdict: Verdict { answer, place, nodes: 0, links: 0 }, fault: Fault { second, line } }
}

/// A check of tables, present or older.
type Check = fn(&Record) -> Verdict;

/// Reads the schema text, then the proof text, and checks.
pub fn check_texts(schema_text: &[u8], proof_text: &[u8]) -> Judgement {
    check_by(tableau::check, schema_text, proof_text)
}

/// The same with the older check.
pub fn check_older_texts(schema_text: &[u8], proof_text: &[u8]) -> Judgement {
    check_by(tableau::check_older, schema_text, proof_text)
}

fn check_by(check: Check, schema_text: &[u8], proof_text: &[u8]) -> Judgement {
    let mut schema = vec![0; MAX_ROWS * ROW_WIDTH];
    let s = text::read_schema(schema_text, &mut schema);
    if s.answer != 0 {
        return unread(s.answer, s.place, false);
    }
    let mut proof = vec![0; MAX_ROWS * ROW_WIDTH];
    let mut nodes = vec![0; MAX_NODES * NODE_WIDTH];
    let mut members = vec![0; MAX_MEMBERS];
    let p = text::read_proof(proof_text, &mut proof, &mut nodes, &mut members);
    if p.answer != 0 {
        return unread(p.answer, p.place, true);
    }
    let verdict = check(&Record {
        root: s.root,
        least: s.least,
        schema: &schema,
        schema_count: s.rows,
        proof: &proof,
        proof_count: p.rows,
        nodes: &nodes,
        node_count: p.nodes,
        members: &members,
        member_count: p.members,
    });
    // A formula row and a node have the lines that the paper gives: "Schema row r is line 4 + r; with S schema and P proof
    // rows, proof row r is line 2 + r - S and node j line 3 + P + j."
    let place = usize::try_from(verdict.place).ok();
    let line = match verdict.answer {
        7 | 8 | 27 => place.and_then(|row| text::row_line(s.rows, p.rows, row)),
        9..=17 => place.and_then(|node| Some((Named::Proof, text::node_line(p.rows, node)?))),
        _ => None,
    };
    Judgement { verdict, fault: Fault::at(line) }
}

/// The same with a model text and the model check. A model's pairs come after three lines: "Model: `n`, one line,
/// `symbol index`, rows."
pub fn check_model_texts(schema_text: &[u8], model_text: &[u8]) -> Judgement {
    let mut schema = vec![0; MAX_ROWS * ROW_WIDTH];
    let s = text::read_schema(schema_text, &mut schema);
    if s.answer != 0 {
        return unread(s.answer, s.place, false);
    }
    let mut pairs = vec![0; MAX_PAIRS * PAIR_WIDTH];
    let m = text::read_model(model_text, &mut pairs);
    if m.answer != 0 {
        return unread(m.answer, m.place, true);
    }
    let verdict = model::check_model(s.root, s.least, &schema, s.rows, m.n, &pairs, m.pairs);
    let place = usize::try_from(verdict.place).unwrap_or(0);
    let fault = match verdict.answer {
        7 | 8 => Fault::at(text::row_line(s.rows, 0, place)),
        18 => Fault { second: true, line: 3 + place + 1 },
        _ => Fault::default(),
    };
    Judgement { verdict, fault }
}
