//! Connectives as designers write them.

use crate::entries;
use crate::record::Schema;
use crate::text::{rows, MAX_ROWS};
use crate::verdict::{counts, Refused};

/// The plain schema of a wide one, whose rows may also be of kinds 8 not (a), 9 implies, 10 equivalent and
/// 11 exclusive or (a, b). The plain root is true exactly where the wide root is, so a tableau for the
/// plain schema that [`check`](crate::check) accepts refutes the wide one.
///
/// A wide row gives one plain row for itself and one for its negation, kinds 10 and 11 three and three, and
/// kind 8 none. [`read_schema`](crate::read_schema) reads the text of a wide schema too.
pub fn convert(wide: &Schema) -> Result<Schema, Refused> {
    let mut plain = vec![0; MAX_ROWS * 4];
    let mut results = [0; 3];
    let table = wide.rows.as_flattened();
    counts(entries::convert(table, wide.rows.len(), wide.root, wide.least, &mut plain, &mut results))?;
    let [root, least, count] = results;
    Ok(Schema { root, least, rows: rows(&plain, count) })
}
