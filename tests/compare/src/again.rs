//! Ways there and back, by two entries of the library: the text of a reading case is written again from what was read of
//! it, the rows of a writing case are read again from what was written. Both come back as they were.

use crate::calls::{pack, read_model, read_proof, read_schema, written, Seen};
use zorambi::entries;
use zorambi_generate::Input;

/// The ways, by their first step.
pub const WAYS: [&str; 6] = ["read schema", "read proof", "read model", "write schema", "write proof", "write model"];

/// What the second step has to give.
fn text_seen(text: &[u8]) -> Seen {
    Seen { packed: pack(0, 0, text.len()), out: text.to_vec(), ..Seen::default() }
}

fn rows_seen<const N: usize>(results: Vec<i32>, tables: [(&[i32], usize); N]) -> Seen {
    let padded = |(table, length): (&[i32], usize)| [table, &vec![0; length - table.len()]].concat();
    Seen { packed: pack(0, 0, 0), results, tables: tables.map(padded).to_vec(), ..Seen::default() }
}

/// A case that the library has answered goes back: its way among [`WAYS`], what the second step gives, and what it has to
/// give. `None` if the first step was refused, or is neither reading nor writing.
pub fn way(input: &Input, seen: &Seen) -> Option<(usize, Seen, Seen)> {
    if seen.answer() != 0 {
        return None;
    }
    let count = |number: usize| number as i32;
    let read = |at: usize| seen.results[at] as usize;
    let text = &seen.out[..seen.out.len().min((seen.packed & 0x3ff_ffff) as usize)];
    Some(match input {
        Input::ReadSchema { text, .. } => {
            let [root, least] = [seen.results[0], seen.results[1]];
            let back = written(text.len(), |out| entries::write_schema(&seen.tables[0], read(2), root, least, out));
            (0, back, text_seen(text))
        }
        Input::ReadProof { text, .. } => {
            let [rows, nodes, members] = [0, 1, 2].map(|at| &seen.tables[at][..]);
            let back =
                written(text.len(), |out| entries::write_proof(rows, read(0), nodes, read(1), members, read(2), out));
            (1, back, text_seen(text))
        }
        Input::ReadModel { text, .. } => {
            let back = written(text.len(), |out| entries::write_model(seen.results[0], &seen.tables[0], read(1), out));
            (2, back, text_seen(text))
        }
        Input::WriteSchema { root, least, rows, row_count, .. } => {
            let expected = rows_seen(vec![*root, *least, count(*row_count)], [(&rows[..4 * row_count], 4096)]);
            (3, read_schema(text, 4096), expected)
        }
        Input::WriteProof { proof: t, .. } => {
            let results = [t.proof_count, t.node_count, t.member_count].map(count).to_vec();
            let tables = [
                (&t.proof[..4 * t.proof_count], 4096),
                (&t.nodes[..9 * t.node_count], 9216),
                (&t.members[..t.member_count], 8192),
            ];
            (4, read_proof(text, [4096, 9216, 8192]), rows_seen(results, tables))
        }
        Input::WriteModel { n, pairs, pair_count, .. } => {
            let expected = rows_seen(vec![*n, count(*pair_count)], [(&pairs[..2 * pair_count], 8192)]);
            (5, read_model(text, 8192), expected)
        }
        _ => return None,
    })
}
