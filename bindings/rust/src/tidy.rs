//! Older records made present.

use crate::entries;
use crate::record::{on_records, Proof, Record};
use crate::text::filled_proof;
use crate::verdict::Refused;

/// The proof of an older record without the rows that are written twice: each is folded into the earliest
/// row that equals it, sets and fields get the new numbers, each set is sorted anew. If
/// [`check_older`](crate::check_older) accepts the record, [`check`](crate::check) accepts its schema with
/// this proof, with the same counts; otherwise its refusal is given. Tidying again changes nothing.
pub fn tidy(record: &Record) -> Result<Proof, Refused> {
    filled_proof(|rows, nodes, members, results| on_records!(entries::tidy, [record], rows, nodes, members, results))
}
