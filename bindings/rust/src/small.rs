//! All small schemata, one after another.

use crate::entries;
use crate::record::{Row, Schema};
use crate::text::rows;
use crate::verdict::{counts, Refused};
use std::iter::FusedIterator;

/// The small table after the given one, of as many rows; `None` if it is the last.
///
/// The small tables of 1, 2 or 3 rows are all well-formed ones with symbol 0, literal offsets -1 to 1, iterations
/// from 0 with c 0 or 1, and an outer last row, which is the root. They ascend by their numbers, read row
/// after row, and the first is all 0. Any other table is refused.
pub fn next_small(table: &[Row]) -> Result<Option<Vec<Row>>, Refused> {
    let mut next = vec![0; table.len() * 4];
    let [given, _] = counts(entries::next_small(table.as_flattened(), table.len(), &mut next))?;
    Ok((given == 1).then(|| rows(&next, table.len() as i32)))
}

/// All small schemata of this many rows, 1 to 3, each with its last row as the root and least value 0: 14, 340
/// or 10,384 of them, in the order of [`next_small`].
///
/// ```
/// assert_eq!(zorambi::small(2)?.count(), 340);
/// assert_eq!(zorambi::small(1)?.next().unwrap().rows, [[0, 0, 0, 0]]);
/// assert!(zorambi::small(4).is_err());
/// # Ok::<(), zorambi::Refused>(())
/// ```
pub fn small(rows: usize) -> Result<Small, Refused> {
    // More than 3 rows are refused, however many there are.
    let first = vec![[0; 4]; rows.min(4)];
    next_small(&first)?;
    Ok(Small { next: Some(first) })
}

/// What [`small`] gives.
#[derive(Clone, Debug)]
pub struct Small {
    next: Option<Vec<Row>>,
}

impl Iterator for Small {
    type Item = Schema;

    fn next(&mut self) -> Option<Schema> {
        let rows = self.next.take()?;
        self.next = next_small(&rows).expect("a table on the list is not refused");
        Some(Schema { root: rows.len() as i32 - 1, least: 0, rows })
    }
}

impl FusedIterator for Small {}
