//! What the next row of a tableau may be made of, held against the shipped records that the check accepts.

use std::fs;
use std::path::{Path, PathBuf};
use zorambi::{check, read_proof, read_schema, Growing, Record, Row, Schema};
use zorambi_explain::{child, needed, Needed, Tables, Voice};

fn accepted() -> Vec<(PathBuf, Record)> {
    let folder = Path::new(env!("CARGO_MANIFEST_DIR")).join("../../records/accepted");
    let folders = fs::read_dir(folder).unwrap().map(|entry| entry.unwrap().path());
    let record = |folder: PathBuf| {
        let text = |file: &str| fs::read(folder.join(file)).unwrap();
        let record =
            Record { schema: read_schema(&text("schema.txt")).ok()?, proof: read_proof(&text("proof.txt")).ok()? };
        check(&record).is_accepted().then_some((folder, record))
    };
    folders.filter(|folder| folder.join("proof.txt").is_file()).filter_map(record).collect()
}

fn needs(record: &Record, node: usize) -> Vec<Needed> {
    needed(&Tables::from(record), node, &Voice::default())
}

#[test]
fn what_an_accepted_step_needs_is_there() {
    let mut unfoldings = 0;
    for (folder, record) in accepted() {
        let rows: Vec<Row> = record.schema.rows.iter().chain(&record.proof.rows).copied().collect();
        for (node, &[_, rule, _, with, ..]) in record.proof.nodes.iter().enumerate() {
            let needs = needs(&record, node);
            assert!(needs.iter().all(|needed| needed.rows.is_empty() && needed.there.is_some()), "{folder:?}: {node}");
            if matches!(rule, 3 | 4) {
                assert_eq!([needs[0].field, needs[1].field], [Some("with"), Some("other")]);
                assert_eq!(rows[needs[0].there.unwrap() as usize], rows[with as usize], "{folder:?}: {node}");
                unfoldings += 1;
            } else {
                assert!(needs.is_empty(), "{folder:?}: {node}: a link has its lowered rows, other rules need none");
            }
        }
    }
    assert!(unfoldings > 20, "{unfoldings}");
}

/// The row that is unfolded as a schema of its own, without the rows after it: with those that are written the library takes the step.
#[test]
fn what_is_written_is_what_was_needed() {
    let mut written = 0;
    for (folder, record) in accepted() {
        let rows: Vec<Row> = record.schema.rows.iter().chain(&record.proof.rows).copied().collect();
        for (node, &[_, rule, on, ..]) in record.proof.nodes.iter().enumerate() {
            if !matches!(rule, 3 | 4) {
                continue;
            }
            let [_, _, b, c] = rows[on as usize];
            let schema = Schema { root: on, least: (b + c).max(0), rows: rows[..=on as usize].to_vec() };
            let mut alone = Record { schema, ..Record::default() };
            alone.proof.push_node([-1, rule, on, -1, -1, -1, 0], &[on]);
            let mut fields = Vec::new();
            for at in 0..2 {
                let needed = needs(&alone, 0).swap_remove(at);
                alone.proof.rows.extend(&needed.rows);
                written += needed.rows.len();
                let last = alone.schema.rows.len() + alone.proof.rows.len() - 1;
                fields.push(needed.there.unwrap_or(last as i32));
            }
            let mut growing = Growing::begin(alone.schema, alone.proof.rows).expect("rows are well formed");
            let asked = growing.enquire([-1, rule, on, fields[0], fields[1], -1, 0], &[on]);
            assert!(asked.is_ok(), "{folder:?}: node {node}: {asked:?}");
        }
    }
    assert!(written > 100, "{written}");
}

/// The paper's schema alone.
fn paper() -> Record {
    let rows = vec![[2, 0, 2, 0], [3, 0, 2, 0], [7, 0, 2, 0], [6, 1, 2, 0], [4, 2, 3, 0]];
    Record { schema: Schema { root: 4, least: 1, rows }, ..Record::default() }
}

#[test]
fn rows_of_the_papers_record() {
    let mut record = paper();
    record.proof.push_node([-1, 4, 2, -1, -1, -1, 0], &[4]);
    let rows = needs(&record, 0);
    assert_eq!(rows[0].rows, [[7, 0, 2, 1]]);
    assert_eq!(rows[0].what, "row 2 without its last step");
    assert_eq!(rows[0].text, "some i from 2 to n-1: p0[i]");
    assert_eq!(rows[1].rows, [[2, 0, 1, 0]]);
    assert_eq!(rows[1].text, "p0[n]");
    // A row of another kind, and none.
    for on in [0, 3, 4, -1, 99] {
        record.proof.nodes[0][2] = on;
        assert!(needs(&record, 0).is_empty());
    }
    assert!(needs(&record, 1).is_empty());
    // The lowered rows of a link that are not there: of its target's set row 4, and its two parts.
    record.proof.nodes[0] = [-1, 0, 4, -1, -1, -1, 0, 0, 1];
    record.proof.push_node([0, 8, -1, -1, -1, 0, 1], &[2, 3]);
    let rows = needs(&record, 1);
    assert_eq!((rows.len(), rows[0].field, &rows[0].what[..]), (1, None, "row 4 with n-1 for n"));
    assert_eq!(rows[0].rows, [[7, 0, 2, 1], [6, 1, 2, 1], [4, 5, 6, 0]]);
    for to in [-1, 1, 2] {
        record.proof.nodes[1][5] = to;
        assert!(needs(&record, 1).is_empty());
    }
}

#[test]
fn rows_of_a_next_child() {
    let mut record = paper();
    let next = |record: &Record, parent| child(&Tables::from(record), parent, &Voice::default());
    assert!(next(&record, 0).is_none());
    record.proof.push_node([-1, 0, 4, -1, -1, -1, 0], &[4]);
    let both = next(&record, 0).unwrap();
    assert_eq!((both.set, both.given), (vec![4], vec![2, 3]));
    record.proof.nodes[0][1] = 1;
    assert_eq!(next(&record, 0).unwrap().given, [2]);
    record.proof.push_node([0, 2, -1, -1, -1, -1, 0], &[4, 2]);
    assert_eq!(next(&record, 0).unwrap().given, [3]);
    assert!(next(&record, 1).unwrap().given.is_empty());
}
