//! Models found at a width, on the paper's schema and on others.

use zorambi::{check_model, find_model, read_schema, Model, Refusal, Refused, Row, Schema, Verdict};

/// The paper's rows: some p_i for i from 2 to n (row 2), none of them (row 3), and both (row 4).
fn paper(root: i32) -> Schema {
    let text = b"root least\n4 1\nkind a b c\n2 0 2 0\n3 0 2 0\n7 0 2 0\n6 1 2 0\n4 2 3 0\n";
    Schema { root, ..read_schema(text).unwrap() }
}

fn schema(root: i32, rows: &[Row]) -> Schema {
    Schema { root, least: 0, rows: rows.to_vec() }
}

/// The pairs of the model that is found, which the model check accepts.
fn found(schema: &Schema, n: i32) -> Option<Vec<[i32; 2]>> {
    let model = find_model(schema, n).unwrap()?;
    assert_eq!(model.n, n);
    assert_eq!(check_model(schema, &model), Verdict::Accepted { nodes: 0, links: 0 });
    Some(model.pairs)
}

fn turned_away(schema: &Schema, n: i32) -> (Refusal, Option<usize>) {
    let Refused { refusal, place } = find_model(schema, n).unwrap_err();
    (refusal, place)
}

#[test]
fn the_first_model() {
    // Pairs 0 2 to 0 n occur; the last is the least significant.
    assert_eq!(found(&paper(2), 1), None);
    assert_eq!(found(&paper(2), 2), Some(vec![[0, 2]]));
    assert_eq!(found(&paper(2), 3), Some(vec![[0, 3]]));
    assert_eq!(found(&paper(2), 17), Some(vec![[0, 17]]));
    // All false comes first.
    assert_eq!(found(&paper(3), 1), Some(vec![]));
    assert_eq!(found(&paper(3), 17), Some(vec![]));
    for n in 1..=17 {
        assert_eq!(found(&paper(4), n), None);
    }
}

#[test]
fn pairs_ascend_by_symbol_and_index() {
    // q_-1 or p_7, and p_3 or q_n: not p_3 and not p_7 want both q.
    let rows = [[2, 1, 0, -1], [2, 0, 0, 7], [5, 0, 1, 0], [2, 0, 0, 3], [2, 1, 1, 0], [5, 3, 4, 0], [4, 2, 5, 0]];
    assert_eq!(found(&schema(6, &rows), 2), Some(vec![[1, -1], [1, 2]]));
    // The same with not q_-1: p_7 and q_2.
    let also = [&rows[..], &[[3, 1, 0, -1], [4, 6, 7, 0]]].concat();
    assert_eq!(found(&schema(8, &also), 2), Some(vec![[0, 7], [1, 2]]));
    // All p_i for i from -1 to n, at 1, and at an empty range.
    let all = [[2, 0, 2, 0], [6, 0, -1, 0]];
    assert_eq!(found(&schema(1, &all), 1), Some(vec![[0, -1], [0, 0], [0, 1]]));
    let none = [[2, 0, 2, 0], [6, 0, 5, 0], [7, 0, 5, 0]];
    assert_eq!(found(&schema(1, &none), 1), Some(vec![]));
    assert_eq!(found(&schema(2, &none), 1), None);
}

#[test]
fn sixteen_pairs_occur() {
    assert_eq!(turned_away(&paper(3), 18), (Refusal::Wires, None));
    assert_eq!(turned_away(&paper(2), 9999), (Refusal::Wires, None));
    // What the root does not reach does not occur.
    let rows = [[2, 0, 2, 0], [6, 0, 0, 0], [0, 0, 0, 0]];
    assert_eq!(found(&schema(2, &rows), 9999), Some(vec![]));
    // A body without literals names no pair at its 29,998 values; q_(n + 9999) is the one that occurs.
    let rows = [[0, 0, 0, 0], [6, 0, -9999, -9999], [2, 255, 1, 9999], [4, 1, 2, 0]];
    assert_eq!(found(&schema(3, &rows), 9999), Some(vec![[255, 19998]]));
}

#[test]
fn refusals_in_their_order() {
    assert_eq!(turned_away(&paper(2), 0), (Refusal::Width, None));
    assert_eq!(turned_away(&paper(2), i32::MIN), (Refusal::Width, None));
    assert_eq!(turned_away(&paper(2), 10_000), (Refusal::Width, None));
    assert_eq!(turned_away(&paper(0), 10_000), (Refusal::Root, None));
    assert_eq!(turned_away(&paper(5), 3), (Refusal::Root, None));
    let mut changed = paper(0);
    changed.rows[3] = [6, 3, 2, 0];
    assert_eq!(turned_away(&changed, 10_000), (Refusal::IllFormed, Some(3)));
    changed.least = -1;
    assert_eq!(turned_away(&changed, 3), (Refusal::Root, None));
    changed.rows.resize(1025, [0; 4]);
    assert_eq!(turned_away(&changed, 3), (Refusal::TooMany, None));
    assert_eq!(
        find_model(&paper(2), 18).unwrap_err().to_string(),
        "refused: more than 16 pairs that occur at that n (30)"
    );
}

#[test]
fn a_table_under_its_full_size() {
    let rows = paper(2).rows;
    let mut results = [7; 2];
    for length in [0, 1, 8191] {
        let mut pairs = vec![7; length];
        let packed = zorambi::entries::find_model(rows.as_flattened(), 9, 9, -1, -1, &mut pairs, &mut results);
        assert_eq!((packed >> 39, packed >> 26 & 8191, packed & 0x3ff_ffff), (2, 1, 0));
        assert!(pairs.iter().chain(&results).all(|number| *number == 0));
    }
    // A longer one is 0 past the pairs.
    let mut pairs = vec![7; 9000];
    let packed = zorambi::entries::find_model(rows.as_flattened(), 5, 2, 1, 3, &mut pairs, &mut results);
    assert_eq!((packed, results), ((8192 + 1) * 8192, [3, 1]));
    assert_eq!(pairs[..2], [0, 3]);
    assert!(pairs[2..].iter().all(|number| *number == 0));
    let model = Model { n: 3, pairs: vec![[0, 3]] };
    assert_eq!(find_model(&paper(2), 3), Ok(Some(model)));
}
