//! A model at a width that is named.

use crate::entries;
use crate::record::{Model, Schema};
use crate::text::{rows, MAX_PAIRS};
use crate::verdict::{counts, Refused};

/// A model of the schema at `n`, or `None` if no assignment makes it true there. Of the pairs that occur
/// in the schema at `n`, at most 16, the ascending first is the most significant, and false comes before
/// true: the model given is the first in that order. [`check_model`](crate::check_model) accepts it.
pub fn find_model(schema: &Schema, n: i32) -> Result<Option<Model>, Refused> {
    let Schema { root, least, rows: table } = schema;
    let mut pairs = vec![0; MAX_PAIRS * 2];
    let mut results = [0; 2];
    let packed = entries::find_model(table.as_flattened(), table.len(), *root, *least, n, &mut pairs, &mut results);
    let [given, _] = counts(packed)?;
    let [n, count] = results;
    Ok((given == 1).then(|| Model { n, pairs: rows(&pairs, count) }))
}
