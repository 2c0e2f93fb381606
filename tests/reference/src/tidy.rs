//! Tidying older records: document 02, No. 10. First each row is told which row stands for it, in the numbers that are
//! there; what stays then takes its new number by counting.

use crate::formula::{with_parts, Row};
use crate::tableau::{self, Record};
use crate::{refuse, Refusal, Verdict, MAX_MEMBERS, MAX_NODES, MAX_ROWS, NODE_WIDTH, ROW_WIDTH};
use std::collections::HashMap;

/// What comes back: as in reading a proof.
#[derive(Clone, Copy, Debug, Default, PartialEq, Eq)]
pub struct Tidied {
    pub answer: u8,
    pub place: i32,
    pub rows: usize,
    pub nodes: usize,
    pub members: usize,
}

/// Fills the tables with the tidied proof; they are 0 past it, and all 0 after a refusal.
pub fn tidy(record: &Record, proof: &mut [i32], nodes: &mut [i32], members: &mut [i32]) -> Tidied {
    let long_enough =
        proof.len() >= MAX_ROWS * ROW_WIDTH && nodes.len() >= MAX_NODES * NODE_WIDTH && members.len() >= MAX_MEMBERS;
    [&mut *proof, nodes, members].into_iter().for_each(|table| table.fill(0));
    let tidied = if long_enough { tidied(record) } else { refuse(2, 0) };
    match tidied {
        Err(Refusal { answer, place }) => Tidied { answer, place, ..Tidied::default() },
        Ok(tables) => {
            proof[..tables.proof.len()].copy_from_slice(&tables.proof);
            nodes[..tables.nodes.len()].copy_from_slice(&tables.nodes);
            members[..tables.members.len()].copy_from_slice(&tables.members);
            Tidied {
                answer: 0,
                place: 0,
                rows: tables.proof.len() / ROW_WIDTH,
                nodes: tables.nodes.len() / NODE_WIDTH,
                members: tables.members.len(),
            }
        }
    }
}

fn tidied(r: &Record) -> Result<ProofTables, Refusal> {
    let Verdict { answer, place, .. } = tableau::check_older(r);
    if answer != 0 {
        return refuse(answer, place);
    }
    let rows: Vec<Row> = table_rows(r.schema, r.schema_count).chain(table_rows(r.proof, r.proof_count)).collect();
    let nodes = r.nodes.chunks_exact(NODE_WIDTH).take(r.node_count);
    Ok(tidied_tables(&rows, r.schema_count, nodes.map(|node| (node, set(node, r.members)))))
}

pub(crate) fn table_rows(table: &[i32], count: usize) -> impl Iterator<Item = Row> + '_ {
    table.chunks_exact(ROW_WIDTH).take(count).map(|row| [row[0], row[1], row[2], row[3]])
}

/// The set of a node whose place is right.
pub(crate) fn set<'a>(node: &[i32], members: &'a [i32]) -> &'a [i32] {
    &members[node[7] as usize..(node[7] + node[8]) as usize]
}

/// The tables of a proof.
pub(crate) struct ProofTables {
    pub proof: Vec<i32>,
    pub nodes: Vec<i32>,
    pub members: Vec<i32>,
}

/// Tidies rows, of which the first `schema_count` are the schema's and stay, and nodes with their sets. Parts are
/// earlier rows.
pub(crate) fn tidied_tables<'a, N: AsRef<[i32]>>(
    rows: &[Row],
    schema_count: usize,
    nodes: impl Iterator<Item = (N, &'a [i32])>,
) -> ProofTables {
    let standing = standing(rows, schema_count);
    // A row that stands for itself is as many rows on as there are such rows before it.
    let mut next = 0;
    let mut new_number: Vec<i32> = Vec::with_capacity(rows.len());
    for (number, stands) in standing.iter().enumerate() {
        let stays = *stands == number;
        new_number.push(if stays { next } else { new_number[*stands] });
        next += i32::from(stays);
    }
    let renumbered = |row: i32| if row < 0 { row } else { new_number[row as usize] };

    let mut tables = ProofTables { proof: Vec::new(), nodes: Vec::new(), members: Vec::new() };
    for number in (schema_count..rows.len()).filter(|number| standing[*number] == *number) {
        tables.proof.extend(with_parts(rows[number], renumbered));
    }
    for (node, set) in nodes {
        let [up, rule, on, with, other, to, by] = std::array::from_fn(|field| node.as_ref()[field]);
        let start = tables.members.len();
        let mut set: Vec<i32> = set.iter().map(|row| renumbered(*row)).collect();
        set.sort_unstable();
        set.dedup();
        tables.nodes.extend([up, rule, renumbered(on), renumbered(with), renumbered(other), to, by]);
        tables.nodes.extend([start as i32, set.len() as i32]);
        tables.members.extend(set);
    }
    tables
}

/// Which row stands for each: a schema row for itself, a proof row's earliest equal for it, parts being taken for the
/// rows that stand for them.
fn standing(rows: &[Row], schema_count: usize) -> Vec<usize> {
    let mut earliest: HashMap<Row, usize> = HashMap::with_capacity(rows.len());
    let mut standing: Vec<usize> = Vec::with_capacity(rows.len());
    for (number, row) in rows.iter().enumerate() {
        let row = with_parts(*row, |part| standing[part as usize] as i32);
        let first = *earliest.entry(row).or_insert(number);
        standing.push(if number < schema_count { number } else { first });
    }
    standing
}

#[cfg(test)]
mod tests {
    use super::*;
    use crate::paper::{nodes, tables, Nodes, PROOF, SCHEMA};

    type Answer = Result<[Vec<i32>; 3], (u8, i32)>;

    /// What comes of the record with these proof rows and nodes.
    fn tidied(proof: &[[i32; 4]], node_rows: &Nodes) -> Answer {
        let [nodes, members] = tables(node_rows);
        let (schema, proof) = (SCHEMA.concat(), proof.concat());
        let record = Record {
            root: 4,
            least: 1,
            schema: &schema,
            schema_count: 5,
            proof: &proof,
            proof_count: proof.len() / 4,
            nodes: &nodes,
            node_count: node_rows.len(),
            members: &members,
            member_count: members.len(),
        };
        let mut out = [4096, 9216, 8192].map(|length| vec![7; length + 3]);
        let [rows, nodes, members] = &mut out;
        let found = tidy(&record, rows, nodes, members);
        let lengths = [found.rows * 4, found.nodes * 9, found.members];
        for (table, length) in out.iter_mut().zip(lengths) {
            assert!(table[length..].iter().all(|number| *number == 0));
            table.truncate(length);
        }
        if found.answer == 0 {
            Ok(out)
        } else {
            assert_eq!(lengths, [0; 3]);
            Err((found.answer, found.place))
        }
    }

    fn expected(proof: &[[i32; 4]], node_rows: &Nodes) -> Answer {
        let [nodes, members] = tables(node_rows);
        Ok([proof.concat(), nodes, members])
    }

    #[test]
    fn nothing_to_do() {
        assert_eq!(tidied(&PROOF, &nodes()), expected(&PROOF, &nodes()));
    }

    #[test]
    fn a_row_again_at_the_end() {
        // Row 9 is row 6 again; nodes 4 and 6 use it.
        let mut node_rows = nodes();
        node_rows[4].0[4] = 9;
        node_rows[6] = ([4, 6, 9, 8, -1, -1, 0], vec![8, 9]);
        assert_eq!(tidied(&[&PROOF[..], &[[2, 0, 1, 0]]].concat(), &node_rows), expected(&PROOF, &nodes()));
    }

    #[test]
    fn a_row_again_in_the_middle() {
        // Row 5 is schema row 2 again, so that the others are one on: 6 to 9. Row 10 is row 7 again.
        let proof = [&[[7, 0, 2, 0]], &PROOF[..], &[[2, 0, 1, 0], [3, 7, 0, 0]]].concat();
        let mut node_rows = nodes();
        node_rows[3].0 = [1, 3, 3, 8, 9, -1, 0];
        node_rows[4] = ([3, 4, 2, 6, 10, -1, 0], vec![2, 8, 9]);
        node_rows[5].1 = vec![6, 8];
        node_rows[6] = ([4, 6, 10, 9, -1, -1, 0], vec![9, 10]);
        let rest = [&PROOF[..], &[[3, 7, 0, 0]]].concat();
        assert_eq!(tidied(&proof, &node_rows), expected(&rest, &nodes()));
    }

    #[test]
    fn rows_that_are_equal_after_renumbering() {
        // 9 is 6 and 8; 10 is 6 again; 11 is 10 and 8, so 9; 12 is 11 or 9, so 9 or 9.
        let more = [[4, 6, 8, 0], [2, 0, 1, 0], [4, 10, 8, 0], [5, 11, 9, 0], [5, 12, 11, 0]];
        let rest = [[4, 6, 8, 0], [5, 9, 9, 0], [5, 10, 9, 0]];
        let found = tidied(&[&PROOF[..], &more].concat(), &nodes());
        assert_eq!(found, expected(&[&PROOF[..], &rest].concat(), &nodes()));
        // Sides are not swapped, and columns that are no rows stay: 6 and 8 are no row numbers in a literal.
        let more = [[4, 8, 6, 0], [4, 6, 8, 0], [2, 6, 1, 8], [2, 6, 1, 8]];
        let found = tidied(&[&PROOF[..], &more].concat(), &nodes());
        assert_eq!(found, expected(&[&PROOF[..], &more[..3]].concat(), &nodes()));
    }

    #[test]
    fn members_that_become_equal() {
        // Row 9 is row 7 again, with which node 3 may be unfolded too: node 4's set keeps one of both.
        let proof = [&PROOF[..], &[[6, 1, 2, 1]]].concat();
        let mut node_rows = nodes();
        node_rows[3].0[3] = 9;
        node_rows[4].1 = vec![2, 8, 9];
        node_rows[5].1 = vec![5, 9];
        assert_eq!(tidied(&proof, &node_rows), expected(&PROOF, &nodes()));
        // Unfolded with 7 and, once more, with 9: both stand in the sets below.
        let mut node_rows = nodes();
        node_rows.insert(4, ([3, 3, 3, 9, 8, -1, 0], vec![2, 3, 7, 8]));
        node_rows[5] = ([4, 4, 2, 5, 6, -1, 0], vec![2, 7, 8, 9]);
        node_rows[6] = ([5, 8, -1, -1, -1, 1, 1], vec![5, 7, 9]);
        node_rows[7].0[0] = 5;
        let mut rest = node_rows.clone();
        rest[4].0[3] = 7;
        rest[5].1 = vec![2, 7, 8];
        rest[6].1 = vec![5, 7];
        assert_eq!(tidied(&proof, &node_rows), expected(&PROOF, &rest));
    }

    #[test]
    fn refusals_of_the_older_check() {
        let mut node_rows = nodes();
        node_rows[5].0[6] = 2;
        assert_eq!(tidied(&PROOF, &node_rows), Err((14, 5)));
        assert_eq!(tidied(&[&PROOF[..], &[[8, 0, 0, 0]]].concat(), &nodes()), Err((7, 9)));
        assert_eq!(tidied(&[&PROOF[..], &PROOF[..]].concat(), &nodes()), expected(&PROOF, &nodes()));
    }

    #[test]
    fn result_tables_too_short() {
        let record = Record {
            root: 0,
            least: 0,
            schema: &[],
            schema_count: 1,
            proof: &[],
            proof_count: 0,
            nodes: &[],
            node_count: 0,
            members: &[],
            member_count: 0,
        };
        for short in 0..4 {
            let length = |table: usize, full: usize| full - usize::from(table == short);
            let mut out = [(0, 4096), (1, 9216), (2, 8192)].map(|(table, full)| vec![7; length(table, full)]);
            let [rows, nodes, members] = &mut out;
            let found = tidy(&record, rows, nodes, members);
            assert_eq!((found.answer, found.place), if short < 3 { (2, 0) } else { (2, -1) });
            assert!(out.iter().flatten().all(|number| *number == 0));
        }
    }
}
