//! Older records tidied: what is folded, and that the check accepts what the older check did.

mod common;

use common::{record, records, shipped, texts};
use std::fs;
use zorambi::{
    check, check_older, check_older_texts, tidy, write_proof, Proof, Record, Refusal, Refused, Row, Schema, Verdict,
};

#[test]
fn shipped_records() {
    for (older, tidied) in [("tidy/rows_twice", "tidy/rows_once"), ("refused/row_written_twice", "accepted/rca_zero")] {
        let (older, tidied) = (record(&shipped(older)), record(&shipped(tidied)));
        assert_eq!(tidy(&older), Ok(tidied.proof.clone()));
        assert_eq!(check_older(&older), check(&tidied));
        assert!(check(&tidied).is_accepted());
        assert_eq!(tidy(&tidied), Ok(tidied.proof));
    }
    // A record that repeats no row and is accepted stays as it is; a refused one is refused alike.
    for sort in ["accepted", "refused"] {
        for folder in records(sort) {
            let record = record(&folder);
            match (tidy(&record), check_older(&record)) {
                (Ok(proof), Verdict::Accepted { .. }) if check(&record).is_accepted() => {
                    assert_eq!(proof, record.proof)
                }
                (Ok(proof), verdict @ Verdict::Accepted { .. }) => {
                    assert!(proof.rows.len() < record.proof.rows.len());
                    assert_eq!(check(&Record { proof, ..record }), verdict);
                }
                (Err(Refused { refusal, place }), verdict) => assert_eq!(verdict, Verdict::Refused { refusal, place }),
                (tidied, verdict) => panic!("{tidied:?} {verdict:?}"),
            }
        }
    }
}

/// A schema that is false at once, with these proof rows and a node that names the root alone.
fn with_rows(rows: &[Row]) -> Record {
    let schema = Schema { root: 0, least: 0, rows: vec![[1, 0, 0, 0], [2, 0, 2, 0], [2, 0, 2, 0]] };
    let mut proof = Proof { rows: rows.to_vec(), ..Proof::default() };
    proof.push_node([-1, 5, 0, -1, -1, -1, 0], &[0]);
    Record { schema, proof }
}

fn tidied_rows(rows: &[Row]) -> Vec<Row> {
    let record = with_rows(rows);
    let proof = tidy(&record).unwrap();
    assert_eq!(proof.nodes, record.proof.nodes);
    let after = Record { proof, ..record };
    assert_eq!(check(&after), Verdict::Accepted { nodes: 1, links: 0 });
    after.proof.rows
}

#[test]
fn rows_after_renumbering() {
    assert_eq!(tidied_rows(&[]), [[0; 4]; 0]);
    // Row 3 is row 1, the earlier of two equal schema rows; what stands on it and on row 2 stays different.
    assert_eq!(tidied_rows(&[[2, 0, 2, 0]]), [[0; 4]; 0]);
    assert_eq!(tidied_rows(&[[2, 0, 2, 0], [6, 3, 0, 0], [6, 1, 0, 0], [6, 2, 0, 0]]), [[6, 1, 0, 0], [6, 2, 0, 0]]);
    // Equal only once their parts are: rows 5 and 6 by row 4, which is row 3.
    let rows = [[2, 7, 1, 0], [2, 7, 1, 0], [4, 3, 4, 0], [4, 4, 3, 0], [5, 5, 6, 0], [7, 1, 4, 4]];
    assert_eq!(tidied_rows(&rows), [[2, 7, 1, 0], [4, 3, 3, 0], [5, 4, 4, 0], [7, 1, 4, 4]]);
    // Columns that are no parts stay: a symbol, an offset, a range that look like row numbers.
    let rows = [[0; 4], [0; 4], [2, 4, 1, 4], [6, 1, 4, 4]];
    assert_eq!(tidied_rows(&rows), [[0; 4], [2, 4, 1, 4], [6, 1, 4, 4]]);
    // A row that differs in one column.
    let rows = [[2, 0, 1, 0], [3, 0, 1, 0], [2, 1, 1, 0], [2, 0, 0, 0], [2, 0, 1, 1]];
    assert_eq!(tidied_rows(&rows), rows);
}

#[test]
fn sets_and_fields() {
    let older = record(&shipped("tidy/rows_twice"));
    let tidied = tidy(&older).unwrap();
    // Row 12 is row 7 anew, row 10 row 8: sorted, and doubles gone, so that later sets start earlier.
    assert_eq!(older.proof.nodes[5][7..], [11, 5]);
    assert_eq!(tidied.nodes[5], [4, 4, 2, 5, 6, -1, 0, 11, 3]);
    assert_eq!(tidied.members[11..14], [2, 7, 8]);
    // to and by stay, and on, with and other follow.
    assert_eq!(tidied.nodes[6], [5, 8, -1, -1, -1, 1, 1, 14, 2]);
    assert_eq!(tidied.nodes[7], [5, 6, 6, 8, -1, -1, 0, 16, 3]);
    assert_eq!(tidied.members[14..], [5, 7, 6, 7, 8]);
}

#[test]
fn what_the_older_check_refuses() {
    let away = |record: &Record| tidy(record).map_err(|refused| (refused.refusal, refused.place)).map(|_| ());
    let mut changed = with_rows(&[[2, 0, 2, 0], [9, 0, 0, 0]]);
    assert_eq!(away(&changed), Err((Refusal::IllFormed, Some(4))));
    changed = with_rows(&[[2, 0, 2, 0]]);
    changed.proof.nodes[0][1] = 9;
    assert_eq!(away(&changed), Err((Refusal::Fields, Some(0))));
    changed.proof = Proof::default();
    assert_eq!(away(&changed), Err((Refusal::Parent, None)));
    assert_eq!(away(&Record::default()), Err((Refusal::Root, None)));
    changed = with_rows(&vec![[2, 0, 2, 0]; 1022]);
    assert_eq!(away(&changed), Err((Refusal::TooMany, None)));
    changed = with_rows(&vec![[2, 0, 2, 0]; 1021]);
    assert_eq!(tidy(&changed).map(|proof| proof.rows.len()), Ok(0));
}

#[test]
fn as_texts() {
    let folder = shipped("tidy/rows_twice");
    let [schema, proof] = texts(&folder);
    assert_eq!(check_older_texts(&schema, &proof).verdict, Verdict::Accepted { nodes: 8, links: 1 });
    let written = write_proof(&tidy(&record(&folder)).unwrap()).unwrap();
    assert_eq!(written, fs::read(shipped("tidy/rows_once/proof.txt")).unwrap());
}
