//! Two records joined: the joined rows and nodes, the counts of the check, the limits and refusals.

mod common;

use common::{record, records};
use zorambi::{check, join, tidy, Node, Proof, Record, Refusal, Refused, Row, Schema, Verdict};

/// The paper's record.
fn paper() -> Record {
    let rows = vec![[2, 0, 2, 0], [3, 0, 2, 0], [7, 0, 2, 0], [6, 1, 2, 0], [4, 2, 3, 0]];
    let schema = Schema { root: 4, least: 1, rows };
    let mut proof = Proof { rows: vec![[7, 0, 2, 1], [2, 0, 1, 0], [6, 1, 2, 1], [3, 0, 1, 0]], ..Proof::default() };
    proof.push_node([-1, 0, 4, -1, -1, -1, 0], &[4]);
    proof.push_node([0, 2, -1, -1, -1, -1, 0], &[2, 3]);
    proof.push_node([1, 7, 2, -1, -1, -1, 0], &[2, 3]);
    proof.push_node([1, 3, 3, 7, 8, -1, 0], &[2, 3]);
    proof.push_node([3, 4, 2, 5, 6, -1, 0], &[2, 7, 8]);
    proof.push_node([4, 8, -1, -1, -1, 1, 1], &[5, 7]);
    proof.push_node([4, 6, 6, 8, -1, -1, 0], &[6, 8]);
    Record { schema, proof }
}

/// False, closed at once, with further rows.
fn no(least: i32, schema: &[Row], proof: &[Row]) -> Record {
    let schema = Schema { root: 0, least, rows: [&[[1, 0, 0, 0]], schema].concat() };
    let mut proof = Proof { rows: proof.to_vec(), ..Proof::default() };
    proof.push_node([-1, 5, 0, -1, -1, -1, 0], &[0]);
    Record { schema, proof }
}

fn away(first: &Record, second: &Record) -> Result<(), (Refusal, Option<usize>)> {
    join(first, second).map(|_| ()).map_err(|Refused { refusal, place }| (refusal, place))
}

#[test]
fn rows_and_nodes() {
    let joined = join(&no(1, &[], &[]), &paper()).unwrap();
    let rows = vec![[1, 0, 0, 0], [2, 0, 2, 0], [3, 0, 2, 0], [7, 1, 2, 0], [6, 2, 2, 0], [4, 3, 4, 0], [5, 0, 5, 0]];
    assert_eq!(joined.schema, Schema { root: 6, least: 1, rows });
    let mut proof = Proof { rows: vec![[7, 1, 2, 1], [2, 0, 1, 0], [6, 2, 2, 1], [3, 0, 1, 0]], ..Proof::default() };
    proof.push_node([-1, 1, 6, -1, -1, -1, 0], &[6]);
    proof.push_node([0, 5, 0, -1, -1, -1, 0], &[0]);
    proof.push_node([0, 0, 5, -1, -1, -1, 0], &[5]);
    proof.push_node([2, 2, -1, -1, -1, -1, 0], &[3, 4]);
    proof.push_node([3, 7, 3, -1, -1, -1, 0], &[3, 4]);
    proof.push_node([3, 3, 4, 9, 10, -1, 0], &[3, 4]);
    proof.push_node([5, 4, 3, 7, 8, -1, 0], &[3, 9, 10]);
    proof.push_node([6, 8, -1, -1, -1, 3, 1], &[7, 9]);
    proof.push_node([6, 6, 8, 10, -1, -1, 0], &[8, 10]);
    assert_eq!(joined.proof, proof);
    assert_eq!(check(&joined), Verdict::Accepted { nodes: 9, links: 1 });
}

#[test]
fn rows_that_both_have() {
    // The literals on n stay in the first's rows 12 and 14, so that the second's set 2 7 8 is sorted anew.
    let joined = join(&paper(), &paper()).unwrap();
    assert_eq!((joined.schema.root, joined.schema.rows[10]), (10, [5, 4, 9, 0]));
    let rows = [[7, 0, 2, 1], [2, 0, 1, 0], [6, 1, 2, 1], [3, 0, 1, 0], [7, 5, 2, 1], [6, 6, 2, 1]];
    assert_eq!(joined.proof.rows, rows);
    let node: Node = [11, 4, 7, 15, 12, -1, 0, 22, 3];
    assert_eq!((joined.proof.nodes[12], &joined.proof.members[22..25]), (node, &[7, 14, 16][..]));
    assert_eq!(check(&joined), Verdict::Accepted { nodes: 15, links: 2 });
    // p and false or p in the first's proof, p in the second's schema: p goes, and false or p gets its number.
    let (p, not_p) = ([2, 0, 1, 0], [3, 0, 1, 0]);
    let joined = join(&no(0, &[], &[p, [5, 0, 1, 0]]), &no(0, &[p], &[])).unwrap();
    assert_eq!(joined.schema.rows, [[1, 0, 0, 0], [1, 0, 0, 0], p, [5, 0, 1, 0]]);
    assert_eq!(joined.proof.rows, [[5, 0, 2, 0]]);
    // False or both p and not p in the first's proof, both in the second's schema, as its root: the row is the or.
    let schema = Schema { root: 2, least: 0, rows: vec![p, not_p, [4, 0, 1, 0]] };
    let mut both = Record { schema, proof: Proof::default() };
    both.proof.push_node([-1, 0, 2, -1, -1, -1, 0], &[2]);
    both.proof.push_node([0, 6, 0, 1, -1, -1, 0], &[0, 1]);
    let first = no(0, &[], &[p, not_p, [4, 1, 2, 0], [5, 0, 3, 0]]);
    let joined = join(&first, &both).unwrap();
    assert_eq!((joined.schema.rows[4], joined.proof.rows.len()), ([5, 0, 3, 0], 0));
    // The other way round the or has its sides the other way round.
    let joined = join(&both, &first).unwrap();
    assert_eq!((joined.schema.rows[4], joined.proof.rows.as_slice()), ([5, 2, 3, 0], &[[5, 3, 2, 0]][..]));
}

#[test]
fn shipped_records() {
    let accepted: Vec<Record> = records("accepted").iter().map(|folder| record(folder)).collect();
    let counts = |record: &Record| match check(record) {
        Verdict::Accepted { nodes, links } => (nodes, links),
        verdict => panic!("{verdict}"),
    };
    for first in &accepted {
        for second in &accepted {
            if first.schema.least != second.schema.least {
                assert_eq!(away(first, second), Err((Refusal::Leasts, None)));
                continue;
            }
            let joined = join(first, second).unwrap();
            let [one, other] = [first, second].map(counts);
            assert_eq!(counts(&joined), (1 + one.0 + other.0, one.1 + other.1));
            assert_eq!(tidy(&joined).as_ref(), Ok(&joined.proof));
        }
    }
    for folder in records("refused") {
        let faulty = record(&folder);
        let Verdict::Refused { refusal, place } = check(&faulty) else { panic!() };
        let expected = Err((refusal, place));
        assert_eq!(away(&faulty, &accepted[0]), expected);
        assert_eq!(away(&accepted[0], &faulty), expected);
        assert_eq!(away(&faulty, &Record::default()), expected);
    }
}

#[test]
fn refusals_in_their_order() {
    let mut other = paper();
    other.proof.nodes[5][6] = 2;
    let twice = no(1, &[], &[[1, 0, 0, 0]]);
    assert_eq!(away(&other, &twice), Err((Refusal::Bound, Some(5))));
    assert_eq!(away(&twice, &other), Err((Refusal::Repeated, Some(1))));
    assert_eq!(away(&no(2, &[], &[]), &twice), Err((Refusal::Repeated, Some(1))));
    assert_eq!(away(&no(2, &[], &[]), &no(1, &[], &[])), Err((Refusal::Leasts, None)));
    // 28 comes before 29.
    let many = vec![[0; 4]; 1022];
    assert_eq!(away(&no(1, &many, &[]), &no(2, &[], &[])), Err((Refusal::Leasts, None)));
    assert_eq!(away(&no(1, &many, &[]), &no(1, &[], &[])), Err((Refusal::Joint, None)));
    assert_eq!(away(&no(1, &many[1..], &[]), &no(1, &[], &[])), Ok(()));
    assert_eq!(away(&Record::default(), &Record::default()), Err((Refusal::Root, None)));
    let told = |first: &Record, second: &Record| join(first, second).unwrap_err().to_string();
    assert_eq!(told(&no(1, &[], &[]), &no(0, &[], &[])), "refused: the least values differ (28)");
    assert_eq!(told(&no(1, &many, &[]), &no(1, &[], &[])), "refused: the joined record passes a limit (29)");
}

#[test]
fn rows_are_counted_after_tidying() {
    let literals = |from: i32| -> Vec<Row> { (from..from + 1000).map(|offset| [2, 0, 1, offset]).collect() };
    let rows = |from: i32| join(&no(0, &[], &literals(0)), &no(0, &[], &literals(from)));
    assert_eq!(rows(0).unwrap().proof.rows.len(), 1000);
    assert_eq!(rows(21).unwrap().proof.rows.len(), 1021);
    assert_eq!(rows(22).unwrap_err().refusal, Refusal::Joint);
}

/// An and of false with ors of parts, closed after one step. Part k up to 10 has size 2 ^ (k + 1) - 1, part 11 is an iteration of
/// size 2.
fn large(parts: &[i32]) -> Record {
    let mut record = no(0, &[[0; 4]], &[]);
    let rows = &mut record.schema.rows;
    rows.extend((1..11).map(|row| [5, row, row, 0]));
    rows.push([6, 1, 0, 0]);
    let mut row = 1 + parts[0];
    for part in &parts[1..] {
        rows.push([5, row, 1 + part, 0]);
        row = rows.len() as i32 - 1;
    }
    rows.push([4, 0, row, 0]);
    let root = rows.len() as i32 - 1;
    record.schema.root = root;
    record.proof = Proof::default();
    record.proof.push_node([-1, 0, root, -1, -1, -1, 0], &[root]);
    record.proof.push_node([0, 5, 0, -1, -1, -1, 0], &[0]);
    assert!(check(&record).is_accepted());
    record
}

#[test]
fn size_and_depth_of_the_or() {
    let too_large = Err((Refusal::Joint, None));
    // 2,049 and 2,045, 2,046 and 2,047, and 1 for the or.
    for (parts, expected) in [
        (&[9, 8, 7, 6, 5, 4, 3, 2, 1][..], Ok(())),
        (&[9, 8, 7, 6, 5, 4, 3, 2, 11, 0], Ok(())),
        (&[9, 8, 7, 6, 5, 4, 3, 2, 1, 0], too_large),
    ] {
        assert_eq!(away(&large(&[10]), &large(parts)), expected);
        assert_eq!(away(&large(parts), &large(&[10])), expected);
    }
    // A depth of 63 is 64 with the or.
    for (count, expected) in [(62, Ok(())), (63, too_large)] {
        let deep = large(&vec![0; count]);
        assert_eq!(away(&deep, &no(0, &[], &[])), expected);
        assert_eq!(away(&no(0, &[], &[]), &deep), expected);
    }
}

/// False through splits, 2 nodes each, after one and, or none: all sets but the root's have these rows.
fn splits(splits: usize, and: bool, held: &[i32]) -> Record {
    let mut record = no(0, &[[0; 4], [4, 0, 1, 0]], &[]);
    record.schema.root = if and { 2 } else { 0 };
    record.proof = Proof::default();
    let mut up = -1;
    if and {
        record.proof.push_node([-1, 0, 2, -1, -1, -1, 0], &[2]);
        up = 0;
    }
    for _ in 0..splits {
        record.proof.push_node([up, 2, -1, -1, -1, -1, 0], held);
        up = record.proof.nodes.len() as i32 - 1;
        record.proof.push_node([up, 5, 0, -1, -1, -1, 0], held);
    }
    record.proof.push_node([up, 5, 0, -1, -1, -1, 0], held);
    assert!(check(&record).is_accepted());
    record
}

#[test]
fn nodes_and_members() {
    // 511 and 512 nodes and 1, then 512 and 512.
    let joined = join(&splits(255, false, &[0]), &splits(255, true, &[0, 1, 2])).unwrap();
    assert_eq!(check(&joined), Verdict::Accepted { nodes: 1024, links: 0 });
    assert_eq!(joined.proof.members.len(), 1 + 511 + 1 + 3 * 511);
    let one_more = away(&splits(255, true, &[0]), &splits(255, true, &[0]));
    assert_eq!(one_more, Err((Refusal::Joint, None)));
}
