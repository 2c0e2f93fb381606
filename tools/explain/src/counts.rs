//! Tables and their counts: 2 a table shorter than its count says, 5 more rows, nodes, members or pairs than are allowed.

use crate::rows::MAX_ROWS;
use crate::tableau::{MAX_MEMBERS, MAX_NODES};
use crate::why::Why;
use zorambi::words::grouped;

pub const MAX_PAIRS: usize = 4096;

/// A lent table: how many numbers it has, how many rows it is said to have, and the numbers of a row.
pub struct Lent {
    pub name: &'static str,
    pub length: usize,
    pub rows: usize,
    pub width: usize,
}

impl Lent {
    fn needs(&self) -> u128 {
        self.rows as u128 * self.width as u128
    }
}

pub fn too_short(tables: &[Lent]) -> Option<Why> {
    let table = tables.iter().find(|table| (table.length as u128) < table.needs())?;
    let Lent { name, length, rows, width } = table;
    let needs = table.needs();
    let rows = match width {
        1 => format!("{rows} are counted"),
        width => format!("{rows} rows of {width} need {needs}"),
    };
    let line = format!("the {name} table has {length} numbers; {rows}: {} short", needs - *length as u128);
    Some(Why::new(line, "count only the rows that the table has, or lend it whole"))
}

/// A result table that is under its full size.
pub fn result_too_short(tables: &[(&str, usize, usize)]) -> Option<Why> {
    let (name, length, full) = tables.iter().find(|(_, length, full)| length < full)?;
    let line = format!(
        "the {name} table lent for results has {} numbers, {} short of {}",
        grouped(*length as u64),
        grouped((full - length) as u64),
        grouped(*full as u64)
    );
    Some(Why::new(line, "lend every result table in its full size"))
}

/// Formula rows are counted together, then the tables after the proof's.
pub fn too_many(schema_rows: usize, proof_rows: usize, tables: &[Lent]) -> Option<Why> {
    let rows = schema_rows as u128 + proof_rows as u128;
    if rows > MAX_ROWS as u128 {
        let parts = if proof_rows == 0 {
            String::new()
        } else {
            format!(" (the schema's {schema_rows}, the proof's {proof_rows})")
        };
        return Some(over(
            &format!("formula rows{parts}"),
            rows,
            MAX_ROWS,
            "write fewer rows: parts that are equal need one row",
        ));
    }
    tables.iter().find_map(|table| {
        let (what, most, mend) = match table.name {
            "node" => ("nodes", MAX_NODES, "close branches sooner, or link to a node that refutes the same"),
            "member" => ("members of all sets", MAX_MEMBERS, "leave rows out of sets that are not needed below"),
            "pair" => ("pairs", MAX_PAIRS, "list only the pairs that occur in the schema"),
            _ => return None,
        };
        (table.rows > most).then(|| over(what, table.rows as u128, most, mend))
    })
}

fn over(what: &str, count: u128, most: usize, mend: &str) -> Why {
    let number = |count: u128| u64::try_from(count).map_or_else(|_| count.to_string(), grouped);
    let line = format!(
        "there are {} {what}, {} allowed: {} too many",
        number(count),
        grouped(most as u64),
        number(count - most as u128)
    );
    Why::new(line, mend)
}
