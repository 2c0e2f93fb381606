//! Texts of schemata, proofs and models: read, written, and checked at once, and the line at fault.

use crate::entries;
use crate::record::{Model, Proof, Schema};
use crate::verdict::{refused, Refused, Verdict};

/// A text has at most this many bytes.
pub const MAX_TEXT: usize = 65_536;
pub(crate) const MAX_ROWS: usize = 1024;
pub(crate) const MAX_NODES: usize = 1024;
pub(crate) const MAX_MEMBERS: usize = 8192;
/// A model has at most this many true pairs.
pub const MAX_PAIRS: usize = 4096;

/// The first `count` rows of a table.
pub(crate) fn rows<const WIDTH: usize>(table: &[i32], count: i32) -> Vec<[i32; WIDTH]> {
    table.as_chunks().0[..count as usize].to_vec()
}

fn done(packed: u64) -> Result<u64, Refused> {
    match refused(packed) {
        None => Ok(packed & 0x3ff_ffff),
        Some(refused) => Err(refused),
    }
}

/// Reads a schema text.
pub fn read_schema(text: &[u8]) -> Result<Schema, Refused> {
    let mut table = vec![0; MAX_ROWS * 4];
    let mut results = [0; 3];
    done(entries::read_schema(text, &mut table, &mut results))?;
    let [root, least, count] = results;
    Ok(Schema { root, least, rows: rows(&table, count) })
}

/// Reads a proof text.
pub fn read_proof(text: &[u8]) -> Result<Proof, Refused> {
    filled_proof(|table, nodes, members, results| entries::read_proof(text, table, nodes, members, results))
}

/// The proof that `fill` puts into tables of full size; its results are the numbers of rows, nodes and
/// members.
pub(crate) fn filled_proof(
    fill: impl FnOnce(&mut [i32], &mut [i32], &mut [i32], &mut [i32; 3]) -> u64,
) -> Result<Proof, Refused> {
    let mut table = vec![0; MAX_ROWS * 4];
    let mut nodes = vec![0; MAX_NODES * 9];
    let mut members = vec![0; MAX_MEMBERS];
    let mut results = [0; 3];
    done(fill(&mut table, &mut nodes, &mut members, &mut results))?;
    let [row_count, node_count, member_count] = results;
    members.truncate(member_count as usize);
    Ok(Proof { rows: rows(&table, row_count), nodes: rows(&nodes, node_count), members })
}

/// Reads a model text.
pub fn read_model(text: &[u8]) -> Result<Model, Refused> {
    let mut table = vec![0; MAX_PAIRS * 2];
    let mut results = [0; 2];
    done(entries::read_model(text, &mut table, &mut results))?;
    let [n, count] = results;
    Ok(Model { n, pairs: rows(&table, count) })
}

/// The text that `write` puts into an output of full size.
fn written(write: impl FnOnce(&mut [u8]) -> u64) -> Result<Vec<u8>, Refused> {
    let mut out = vec![0; MAX_TEXT];
    let bytes = done(write(&mut out))?;
    out.truncate(bytes as usize);
    Ok(out)
}

/// Writes a schema text.
pub fn write_schema(schema: &Schema) -> Result<Vec<u8>, Refused> {
    let Schema { root, least, rows } = schema;
    written(|out| entries::write_schema(rows.as_flattened(), rows.len(), *root, *least, out))
}

/// Writes a proof text.
pub fn write_proof(proof: &Proof) -> Result<Vec<u8>, Refused> {
    let Proof { rows, nodes, members } = proof;
    written(|out| {
        entries::write_proof(
            rows.as_flattened(),
            rows.len(),
            nodes.as_flattened(),
            nodes.len(),
            members,
            members.len(),
            out,
        )
    })
}

/// Writes a model text.
pub fn write_model(model: &Model) -> Result<Vec<u8>, Refused> {
    let Model { n, pairs } = model;
    written(|out| entries::write_model(*n, pairs.as_flattened(), pairs.len(), out))
}

/// Line `number` of a text, from 1, without its byte 10; the text's empty start if there is no such
/// finished line.
pub fn line(text: &[u8], number: usize) -> &[u8] {
    let [start, length] = entries::line(text, number);
    &text[start..start + length]
}

/// A text of a record or of a model.
#[derive(Clone, Copy, Debug, PartialEq, Eq, Hash)]
pub enum Text {
    Schema,
    Proof,
    Model,
}

/// What a check of texts says.
#[must_use]
#[derive(Clone, Copy, Debug, PartialEq, Eq, Hash)]
pub struct Judgement {
    pub verdict: Verdict,
    /// The text and the line, from 1, that a refusal points to: the line refused in reading, or that of the
    /// row, node or pair at fault. `None` of an acceptance, and of a refusal of the whole.
    pub fault: Option<(Text, usize)>,
}

impl Judgement {
    /// What a number of the library stands for: above the verdict's own, twice the line, and 1 more in the
    /// second text.
    fn of_packed(packed: u64, second: Text) -> Judgement {
        let (line, text) = ((packed >> 45) as usize, if packed >> 44 & 1 == 1 { second } else { Text::Schema });
        Judgement { verdict: Verdict::of_packed(packed), fault: (line > 0).then_some((text, line)) }
    }
}

/// Reads a schema text, then a proof text, and checks the record. A text refused in reading gives its
/// refusal, and nothing is checked.
pub fn check_texts(schema: &[u8], proof: &[u8]) -> Judgement {
    Judgement::of_packed(entries::check_texts(schema, proof), Text::Proof)
}

/// The same with [`check_older`](crate::check_older).
pub fn check_older_texts(schema: &[u8], proof: &[u8]) -> Judgement {
    Judgement::of_packed(entries::check_older_texts(schema, proof), Text::Proof)
}

/// Reads a schema text, then a model text, and checks the model.
pub fn check_model_texts(schema: &[u8], model: &[u8]) -> Judgement {
    Judgement::of_packed(entries::check_model_texts(schema, model), Text::Model)
}
