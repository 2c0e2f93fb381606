//! One record for either fault: document 02, No. 11. Both records are moved to where they stand in the join, and the
//! whole is tidied.

use crate::formula::{with_parts, Formulas, Row, OR};
use crate::tableau::{self, Record};
use crate::tidy::{set, table_rows, tidied_tables, ProofTables};
use crate::{refuse, Refusal, Verdict, MAX_MEMBERS, MAX_NODES, MAX_ROWS, NODE_WIDTH, ROW_WIDTH};

/// What comes back: as in reading a schema and a proof.
#[derive(Clone, Copy, Debug, Default, PartialEq, Eq)]
pub struct Joined {
    pub answer: u8,
    pub place: i32,
    pub root: i32,
    pub least: i32,
    pub schema_rows: usize,
    pub proof_rows: usize,
    pub nodes: usize,
    pub members: usize,
}

/// Fills the tables with the join of two records; they are 0 past it, and all 0 after a refusal.
pub fn join(
    first: &Record,
    second: &Record,
    schema: &mut [i32],
    proof: &mut [i32],
    nodes: &mut [i32],
    members: &mut [i32],
) -> Joined {
    let mut out = [schema, proof, nodes, members];
    let full = [MAX_ROWS * ROW_WIDTH, MAX_ROWS * ROW_WIDTH, MAX_NODES * NODE_WIDTH, MAX_MEMBERS];
    let long_enough = out.iter().zip(full).all(|(table, full)| table.len() >= full);
    out.iter_mut().for_each(|table| table.fill(0));
    let joined = if long_enough { joined(first, second) } else { refuse(2, 0) };
    match joined {
        Err(Refusal { answer, place }) => Joined { answer, place, ..Joined::default() },
        Ok((schema, ProofTables { proof, nodes, members })) => {
            let found = Joined {
                answer: 0,
                place: 0,
                root: schema.len() as i32 - 1,
                least: first.least,
                schema_rows: schema.len(),
                proof_rows: proof.len() / ROW_WIDTH,
                nodes: nodes.len() / NODE_WIDTH,
                members: members.len(),
            };
            for (table, numbers) in out.iter_mut().zip([schema.concat(), proof, nodes, members]) {
                table[..numbers.len()].copy_from_slice(&numbers);
            }
            found
        }
    }
}

fn joined(first: &Record, second: &Record) -> Result<(Vec<Row>, ProofTables), Refusal> {
    for record in [first, second] {
        let Verdict { answer, place, .. } = tableau::check(record);
        if answer != 0 {
            return refuse(answer, place);
        }
    }
    if first.least != second.least {
        return refuse(28, -1);
    }
    // In the join the schema rows of both come first, then the or, then the proof rows of both; the or's node, then
    // the nodes of both.
    let root = (first.schema_count + second.schema_count) as i32;
    let after = root + 1;
    let of_first = Moved { record: first, schema: 0, proof: after, nodes: 1 };
    let of_second = Moved {
        record: second,
        schema: first.schema_count as i32,
        proof: after + first.proof_count as i32,
        nodes: 1 + first.node_count as i32,
    };
    let both = [of_first, of_second];
    let [left, right] = [&both[0], &both[1]].map(|moved| moved.row(moved.record.root));
    let mut rows: Vec<Row> = both.iter().flat_map(Moved::schema).collect();
    rows.push([OR, left, right, 0]);
    let schema = rows.clone();
    rows.extend(both.iter().flat_map(Moved::proof));

    let nodes: Vec<([i32; 7], Vec<i32>)> = both.iter().flat_map(Moved::nodes).collect();
    let root_node = ([-1, 1, root, -1, -1, -1, 0], vec![root]);
    let nodes = [vec![root_node], nodes].concat();
    let tables = tidied_tables(&rows, schema.len(), nodes.iter().map(|(fields, set)| (fields, &set[..])));

    let formulas = Formulas::new(&schema.concat(), schema.len(), &[], 0).unwrap_or_default();
    let small_enough = formulas.facts(root).is_some_and(|facts| facts.within_limits());
    let row_count = schema.len() + tables.proof.len() / ROW_WIDTH;
    if row_count > MAX_ROWS || nodes.len() > MAX_NODES || tables.members.len() > MAX_MEMBERS || !small_enough {
        return refuse(29, -1);
    }
    Ok((schema, tables))
}

/// A record, and where its schema rows, its proof rows and its nodes begin in the join.
struct Moved<'a> {
    record: &'a Record<'a>,
    schema: i32,
    proof: i32,
    nodes: i32,
}

impl Moved<'_> {
    /// The number of a row in the join; -1 stays.
    fn row(&self, row: i32) -> i32 {
        let schema_count = self.record.schema_count as i32;
        match row {
            ..0 => row,
            row if row < schema_count => row + self.schema,
            row => row - schema_count + self.proof,
        }
    }

    fn schema(&self) -> impl Iterator<Item = Row> + '_ {
        table_rows(self.record.schema, self.record.schema_count).map(|row| with_parts(row, |part| self.row(part)))
    }

    fn proof(&self) -> impl Iterator<Item = Row> + '_ {
        table_rows(self.record.proof, self.record.proof_count).map(|row| with_parts(row, |part| self.row(part)))
    }

    /// The nodes: the first goes below the or's, and an unused `to` stays.
    fn nodes(&self) -> impl Iterator<Item = ([i32; 7], Vec<i32>)> + '_ {
        let nodes = self.record.nodes.chunks_exact(NODE_WIDTH).take(self.record.node_count);
        nodes.map(|node| {
            let [up, rule, on, with, other, to, by] = std::array::from_fn(|field| node[field]);
            let up = if up < 0 { 0 } else { up + self.nodes };
            let to = if to < 0 { to } else { to + self.nodes };
            let fields = [up, rule, self.row(on), self.row(with), self.row(other), to, by];
            (fields, set(node, self.record.members).iter().map(|row| self.row(*row)).collect())
        })
    }
}

#[cfg(test)]
mod tests {
    use super::*;
    use crate::paper::{self, tables, Nodes};

    struct Owned {
        root: i32,
        least: i32,
        schema: Vec<Row>,
        proof: Vec<Row>,
        nodes: Nodes,
    }

    /// The record of document 01.
    fn paper() -> Owned {
        let [schema, proof] = [paper::SCHEMA.to_vec(), paper::PROOF.to_vec()];
        Owned { root: 4, least: 1, schema, proof, nodes: paper::nodes() }
    }

    /// False, closed at once.
    fn no(least: i32) -> Owned {
        let nodes = vec![([-1, 5, 0, -1, -1, -1, 0], vec![0])];
        Owned { root: 0, least, schema: vec![[1, 0, 0, 0]], proof: vec![], nodes }
    }

    /// The join and its tables.
    fn joined(first: &Owned, second: &Owned) -> (Joined, [Vec<i32>; 4]) {
        let tables = [first, second].map(|r| (r.schema.concat(), r.proof.concat(), tables(&r.nodes)));
        let record = |owned: &Owned, at: usize| {
            let (schema, proof, [nodes, members]) = &tables[at];
            Record {
                root: owned.root,
                least: owned.least,
                schema,
                schema_count: owned.schema.len(),
                proof,
                proof_count: owned.proof.len(),
                nodes,
                node_count: owned.nodes.len(),
                members,
                member_count: members.len(),
            }
        };
        let mut out = [4096, 4096, 9216, 8192].map(|length| vec![7; length]);
        let [schema, proof, nodes, members] = &mut out;
        let found = join(&record(first, 0), &record(second, 1), schema, proof, nodes, members);
        let lengths = [found.schema_rows * 4, found.proof_rows * 4, found.nodes * 9, found.members];
        for (table, length) in out.iter_mut().zip(lengths) {
            assert!(table[length..].iter().all(|number| *number == 0));
            table.truncate(length);
        }
        (found, out)
    }

    fn refusal(first: &Owned, second: &Owned) -> (u8, i32) {
        let (found, out) = joined(first, second);
        assert_eq!((found.root, found.least), (0, 0));
        assert!(out.iter().all(Vec::is_empty));
        (found.answer, found.place)
    }

    #[test]
    fn false_or_the_record() {
        let (found, out) = joined(&no(1), &paper());
        assert_eq!((found.answer, found.place, found.root, found.least), (0, 0, 6, 1));
        let schema: [Row; 7] =
            [[1, 0, 0, 0], [2, 0, 2, 0], [3, 0, 2, 0], [7, 1, 2, 0], [6, 2, 2, 0], [4, 3, 4, 0], [5, 0, 5, 0]];
        let proof: [Row; 4] = [[7, 1, 2, 1], [2, 0, 1, 0], [6, 2, 2, 1], [3, 0, 1, 0]];
        let [nodes, members] = tables(&vec![
            ([-1, 1, 6, -1, -1, -1, 0], vec![6]),
            ([0, 5, 0, -1, -1, -1, 0], vec![0]),
            ([0, 0, 5, -1, -1, -1, 0], vec![5]),
            ([2, 2, -1, -1, -1, -1, 0], vec![3, 4]),
            ([3, 7, 3, -1, -1, -1, 0], vec![3, 4]),
            ([3, 3, 4, 9, 10, -1, 0], vec![3, 4]),
            ([5, 4, 3, 7, 8, -1, 0], vec![3, 9, 10]),
            ([6, 8, -1, -1, -1, 3, 1], vec![7, 9]),
            ([6, 6, 8, 10, -1, -1, 0], vec![8, 10]),
        ]);
        assert_eq!(out, [schema.concat(), proof.concat(), nodes, members]);
    }

    #[test]
    fn the_record_or_itself() {
        let (found, [schema, proof, nodes, members]) = joined(&paper(), &paper());
        assert_eq!((found.answer, found.place, found.root, found.least), (0, 0, 10, 1));
        assert_eq!(schema[40..], [5, 4, 9, 0]);
        // The second's literals on n are the first's.
        let rows: [Row; 6] = [[7, 0, 2, 1], [2, 0, 1, 0], [6, 1, 2, 1], [3, 0, 1, 0], [7, 5, 2, 1], [6, 6, 2, 1]];
        assert_eq!(proof, rows.concat());
        // Node 12 is the second's node 4, after 15 members and its nodes' 1, 2, 2 and 2. Its row 8 is row 14 now, before
        // its row 7.
        assert_eq!(nodes[12 * 9..13 * 9], [11, 4, 7, 15, 12, -1, 0, 22, 3]);
        assert_eq!(members[22..25], [7, 14, 16]);
        // Node 13 links to node 9, the second's node 1.
        assert_eq!(nodes[13 * 9..14 * 9], [12, 8, -1, -1, -1, 9, 1, 25, 2]);
        let (root, least, schema_count, proof_count) = (found.root, found.least, found.schema_rows, found.proof_rows);
        let (schema, proof, nodes, members, member_count) = (&schema, &proof, &nodes, &members, members.len());
        let node_count = 15;
        let record =
            Record { root, least, schema, schema_count, proof, proof_count, nodes, node_count, members, member_count };
        assert_eq!(tableau::check(&record), Verdict::accepted(15, 2));
    }

    #[test]
    fn refusals_in_their_order() {
        let mut other = paper();
        other.nodes[5].0[6] = 2;
        let mut twice = no(1);
        twice.proof.push([1, 0, 0, 0]);
        assert_eq!(refusal(&other, &twice), (14, 5));
        assert_eq!(refusal(&twice, &other), (27, 1));
        assert_eq!(refusal(&no(1), &other), (14, 5));
        assert_eq!(refusal(&no(2), &twice), (27, 1));
        assert_eq!(refusal(&no(2), &no(1)), (28, -1));
        // 28 comes before 29.
        let mut many = no(1);
        many.schema.resize(1023, [0, 0, 0, 0]);
        assert_eq!(refusal(&many, &no(2)), (28, -1));
        assert_eq!(refusal(&many, &no(1)), (29, -1));
        many.schema.pop();
        assert_eq!(joined(&many, &no(1)).0.schema_rows, 1024);
    }

    #[test]
    fn rows_are_counted_after_tidying() {
        let with_rows = |count: i32, from: i32| {
            let mut record = no(0);
            record.proof = (from..from + count).map(|offset| [2, 0, 1, offset]).collect();
            record
        };
        // Three schema rows, and the same 1,000 rows in both.
        assert_eq!(joined(&with_rows(1000, 0), &with_rows(1000, 0)).0.proof_rows, 1000);
        assert_eq!(joined(&with_rows(1000, 0), &with_rows(1000, 21)).0.proof_rows, 1021);
        assert_eq!(refusal(&with_rows(1000, 0), &with_rows(1000, 22)), (29, -1));
        // The first has true as row 1 and false or true as row 2; in the second, true is schema row 0.
        let mut first = no(0);
        first.proof = vec![[0, 0, 0, 0], [5, 0, 1, 0]];
        let mut second = no(0);
        second.schema = vec![[0, 0, 0, 0], [1, 0, 0, 0]];
        (second.root, second.nodes) = (1, vec![([-1, 5, 1, -1, -1, -1, 0], vec![1])]);
        let (found, [_, proof, ..]) = joined(&first, &second);
        assert_eq!((found.root, found.proof_rows), (3, 1));
        // True is folded into row 1 of the join, and false or true stays.
        assert_eq!(proof, [5, 0, 1, 0]);
    }

    #[test]
    fn rows_like_the_others_and_like_the_or() {
        // False with p, not p, both, and false or both; then p and not p.
        let mut first = no(0);
        first.proof = vec![[2, 0, 1, 0], [3, 0, 1, 0], [4, 1, 2, 0], [5, 0, 3, 0]];
        let second = Owned {
            root: 2,
            least: 0,
            schema: vec![[2, 0, 1, 0], [3, 0, 1, 0], [4, 0, 1, 0]],
            proof: vec![],
            nodes: vec![([-1, 0, 2, -1, -1, -1, 0], vec![2]), ([0, 6, 0, 1, -1, -1, 0], vec![0, 1])],
        };
        let (found, [schema, ..]) = joined(&first, &second);
        assert_eq!((found.root, found.schema_rows, found.proof_rows), (4, 5, 0));
        assert_eq!(schema[16..], [5, 0, 3, 0]);
        // The other way round the or is of row 2 and false, row 3.
        let (found, [_, proof, ..]) = joined(&second, &first);
        assert_eq!((found.root, found.proof_rows), (4, 1));
        assert_eq!(proof, [5, 3, 2, 0]);
    }

    #[test]
    fn size_and_depth_of_the_or() {
        let chain = |depth: i32| {
            let mut record = no(0);
            record.schema = vec![[1, 0, 0, 0]];
            record.schema.extend((0..depth - 1).map(|row| [4, row, 0, 0]));
            record.root = depth - 1;
            record.nodes = vec![];
            let mut up = -1;
            for row in (1..depth).rev() {
                record.nodes.push(([up, 0, row, -1, -1, -1, 0], vec![row]));
                up += 1;
            }
            record.nodes.push(([up, 5, 0, -1, -1, -1, 0], vec![0]));
            record
        };
        assert_eq!(joined(&chain(63), &chain(1)).0.answer, 0);
        assert_eq!(refusal(&chain(1), &chain(64)), (29, -1));
    }
}
