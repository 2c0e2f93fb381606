//! One record for either fault.

use crate::entries;
use crate::record::{on_records, Proof, Record, Schema};
use crate::text::{rows, MAX_MEMBERS, MAX_NODES, MAX_ROWS};
use crate::verdict::{counts, Refused};

/// One record for two: its schema has the first's rows, the second's, then the or of both roots, which is
/// its root. Its tableau starts with rule 1 on that or, then has the first's nodes and the second's; their
/// proof rows follow one another, tidied as by [`tidy`](crate::tidy). [`check`](crate::check) accepts it, with
/// one node more than both have, and with as many links.
///
/// If `check` refuses the first record its refusal is given, and otherwise the second's. Then it is refused
/// if the least values differ, or if the joined record passes a limit.
pub fn join(first: &Record, second: &Record) -> Result<Record, Refused> {
    let [mut schema, mut proof] = [(); 2].map(|()| vec![0; MAX_ROWS * 4]);
    let mut nodes = vec![0; MAX_NODES * 9];
    let mut members = vec![0; MAX_MEMBERS];
    let mut results = [0; 6];
    counts(on_records!(
        entries::join,
        [first, second],
        &mut schema,
        &mut proof,
        &mut nodes,
        &mut members,
        &mut results
    ))?;
    let [root, least, schema_rows, proof_rows, node_rows, member_count] = results;
    members.truncate(member_count as usize);
    Ok(Record {
        schema: Schema { root, least, rows: rows(&schema, schema_rows) },
        proof: Proof { rows: rows(&proof, proof_rows), nodes: rows(&nodes, node_rows), members },
    })
}
