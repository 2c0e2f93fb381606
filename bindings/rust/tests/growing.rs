//! A tableau that grows: every shipped record row by row, wrong rows in between, and what is taken back.

mod common;

use common::{record, records};
use zorambi::{check, Growing, Proof, Record, Refusal, Refused, Row, Schema, Standing, Verdict};

fn node_rows(proof: &Proof) -> Vec<([i32; 7], &[i32])> {
    let row = |node: &[i32; 9]| {
        let set = &proof.members[node[7] as usize..][..node[8] as usize];
        (std::array::from_fn(|field| node[field]), set)
    };
    proof.nodes.iter().map(row).collect()
}

fn place(refused: Refused) -> (Refusal, Option<usize>) {
    (refused.refusal, refused.place)
}

#[test]
fn shipped_records_row_by_row() {
    for folder in records("accepted") {
        let record = record(&folder);
        let rows = node_rows(&record.proof);
        let mut growing = Growing::begin(record.schema.clone(), record.proof.rows.clone()).unwrap();
        assert_eq!(growing.standing(), Standing::default());
        assert_eq!(place(growing.take_back().unwrap_err()), (Refusal::NoRow, None));
        let mut links = 0;
        for (number, (row, set)) in rows.iter().enumerate() {
            // A row that is its own parent.
            let mut wrong = *row;
            wrong[0] = number as i32;
            assert_eq!(place(growing.add(wrong, set).unwrap_err()), (Refusal::Parent, Some(number)));
            links += usize::from(row[1] == 8);
            let closed = number + 1 == rows.len();
            let standing = Standing { nodes: number + 1, links, closed };
            assert_eq!(growing.add(*row, set), Ok(standing), "{} {number}", folder.display());
            assert_eq!(growing.standing(), standing);
            assert_eq!(growing.row(number), Some((*row, *set)));
        }
        assert_eq!(growing.row(rows.len()), None);
        assert_eq!(growing.record(), record);
        assert_eq!(check(&record), Verdict::Accepted { nodes: rows.len(), links });

        // A row too many changes nothing, and the tableau is closed as before.
        let (last, set) = rows[rows.len() - 1];
        assert_eq!(place(growing.add(last, set).unwrap_err()), (Refusal::Children, Some(rows.len())));
        assert_eq!(growing.standing(), Standing { nodes: rows.len(), links, closed: true });
        growing.take_back().unwrap();
        assert!(!growing.standing().closed);
        assert_eq!(growing.row(rows.len() - 1), None);
        assert_eq!(growing.record().proof.nodes, record.proof.nodes[..rows.len() - 1]);
        assert!(growing.add(last, set).unwrap().closed);
        for left in (0..rows.len()).rev() {
            assert_eq!(growing.take_back().unwrap().nodes, left);
        }
        let without_nodes = Proof { rows: record.proof.rows, ..Proof::default() };
        assert_eq!(growing.record(), Record { schema: record.schema, proof: without_nodes });
    }
}

#[test]
fn refused_records() {
    // The first row that is refused is where the check refuses, but for missing children and formula rows.
    for folder in records("refused") {
        let record = record(&folder);
        let Verdict::Refused { refusal, place: at } = check(&record) else { panic!("{}", folder.display()) };
        let grown = Growing::begin(record.schema.clone(), record.proof.rows.clone()).and_then(|mut growing| {
            node_rows(&record.proof).into_iter().try_for_each(|(row, set)| growing.add(row, set).map(|_| ()))
        });
        assert_eq!(grown.map_err(place), Err((refusal, at)), "{}", folder.display());
    }
}

#[test]
fn formula_rows() {
    let begun = |root: i32, least: i32, rows: &[Row], more: &[Row]| {
        Growing::begin(Schema { root, least, rows: rows.to_vec() }, more.to_vec()).map(|_| ()).map_err(place)
    };
    let rows = [[2, 0, 2, 0], [6, 0, 0, 0]];
    assert_eq!(begun(1, 0, &rows, &[]), Ok(()));
    assert_eq!(begun(0, 0, &rows, &[]), Err((Refusal::Root, None)));
    assert_eq!(begun(1, 10_000, &rows, &[]), Err((Refusal::Root, None)));
    assert_eq!(begun(1, 0, &rows, &[[4, 0, 1, 0]]), Err((Refusal::IllFormed, Some(2))));
    assert_eq!(begun(1, 0, &rows, &[[0; 4], [0; 4]]), Err((Refusal::Repeated, Some(3))));
    assert_eq!(begun(1, 0, &rows, &[[0; 4]; 1023]), Err((Refusal::TooMany, None)));
    let doubled: Vec<Row> = (1..13).map(|row| [4, row, row, 0]).collect();
    assert_eq!(begun(1, 0, &rows, &doubled), Err((Refusal::TooLarge, Some(12))));
    assert_eq!(begun(0, 0, &[], &[]), Err((Refusal::Root, None)));
}

#[test]
fn no_room() {
    // True and true, unfolded from itself for ever.
    let schema = Schema { root: 1, least: 0, rows: vec![[0; 4], [4, 0, 0, 0]] };
    let mut growing = Growing::begin(schema, vec![]).unwrap();
    for up in -1..1023 {
        assert!(!growing.add([up, 0, 1, -1, -1, -1, 0], &[1]).unwrap().closed);
    }
    assert_eq!(place(growing.add([1023, 0, 1, -1, -1, -1, 0], &[1]).unwrap_err()), (Refusal::Room, None));
    growing.take_back().unwrap();
    assert_eq!(place(growing.add([1022, 0, 1, -1, -1, -1, 0], &[1; 8192]).unwrap_err()), (Refusal::Room, None));
    assert_eq!(place(growing.add([1022, 0, 1, -1, -1, -1, 0], &[1; 7169]).unwrap_err()), (Refusal::Set, Some(1023)));
}

#[test]
fn enquiries_and_commits() {
    for folder in records("accepted") {
        let record = record(&folder);
        let rows = node_rows(&record.proof);
        let mut growing = Growing::begin(record.schema.clone(), record.proof.rows.clone()).unwrap();
        for (number, (row, set)) in rows.iter().enumerate() {
            assert_eq!(place(growing.commit().unwrap_err()), (Refusal::Waiting, None));
            let before = (growing.standing(), growing.record());
            let standing = growing.enquire(*row, set).unwrap();
            assert_eq!((standing.nodes, standing.closed), (number + 1, number + 1 == rows.len()));
            assert_eq!((growing.standing(), growing.record()), before);

            // An enquiry that says no leaves nothing to commit.
            let mut wrong = *row;
            wrong[0] = number as i32;
            assert_eq!(place(growing.enquire(wrong, set).unwrap_err()), (Refusal::Parent, Some(number)));
            assert_eq!(place(growing.commit().unwrap_err()), (Refusal::Waiting, None));

            // A refused addition leaves the row waiting.
            assert_eq!(growing.enquire(*row, set), Ok(standing));
            assert_eq!(place(growing.add(wrong, set).unwrap_err()), (Refusal::Parent, Some(number)));
            assert_eq!(growing.commit(), Ok(standing));
            assert_eq!(growing.standing(), standing);
        }
        assert_eq!(growing.record(), record);

        // A take-back or an addition leaves nothing to commit.
        let (last, set) = rows[rows.len() - 1];
        growing.take_back().unwrap();
        growing.enquire(last, set).unwrap();
        growing.add(last, set).unwrap();
        assert_eq!(place(growing.commit().unwrap_err()), (Refusal::Waiting, None));
        growing.take_back().unwrap();
        growing.enquire(last, set).unwrap();
        growing.take_back().unwrap();
        assert_eq!(place(growing.commit().unwrap_err()), (Refusal::Waiting, None));
        assert_eq!(growing.standing().nodes, rows.len() - 2);
    }
}
