//! Small schemata: the list of each length, in its order, and tables that are not on it.

use zorambi::{check_model, next_small, small, Model, Refusal, Refused, Row, Schema, Verdict};

fn tables(rows: usize) -> Vec<Vec<Row>> {
    small(rows).unwrap().map(|schema| schema.rows).collect()
}

#[test]
fn one_row() {
    let mut expected = vec![[0, 0, 0, 0], [1, 0, 0, 0]];
    for kind in [2, 3] {
        for base in [0, 1] {
            expected.extend([-1, 0, 1].map(|offset| [kind, 0, base, offset]));
        }
    }
    assert_eq!(tables(1).concat(), expected);
}

#[test]
fn all_lengths() {
    for (rows, count) in [(1, 14), (2, 340), (3, 10_384)] {
        let mut found: Vec<Schema> = small(rows).unwrap().collect();
        assert_eq!(found.len(), count);
        assert!(found.windows(2).all(|pair| pair[0].rows < pair[1].rows));
        for schema in &found {
            assert_eq!((schema.root, schema.least, schema.rows.len()), (rows as i32 - 1, 0, rows));
            // Each is well-formed, so that the model check comes to a value.
            let verdict = check_model(schema, &Model { n: 1, pairs: vec![[0, 1]] });
            assert!(verdict.is_accepted() || verdict == Verdict::Refused { refusal: Refusal::False, place: None });
        }
        let last = found.pop().unwrap();
        assert_eq!(next_small(&last.rows), Ok(None));
        assert_eq!(next_small(&found[0].rows), Ok(Some(found[1].rows.clone())));
    }
    // Every table whose rows are leaves, or one iteration or and over them, counted: two rows.
    let two = tables(2);
    let leaves = two.iter().filter(|table| table[1][0] < 4).count();
    let junctions = two.iter().filter(|table| matches!(table[1][0], 4 | 5)).count();
    assert_eq!((leaves, junctions), (20 * 14, 14 * 2));
}

#[test]
fn rows_of_other_numbers() {
    for rows in [0, 4, 5, 1024, usize::MAX] {
        assert_eq!(small(rows).map(|_| ()), Err(Refused { refusal: Refusal::NotListed, place: None }));
    }
    assert_eq!(
        small(0).unwrap_err().to_string(),
        "refused: not 1 to 3 rows, or a table that is not on the list of small ones (31)"
    );
}

#[test]
fn not_on_the_list() {
    let away = |rows: &[Row]| next_small(rows).map_err(|refused| (refused.refusal, refused.place));
    let refused = Err((Refusal::NotListed, None));
    for row in [
        [8, 0, 0, 0],
        [-1, 0, 0, 0],
        [0, 0, 0, 1],
        [1, 1, 0, 0],
        [2, 1, 0, 0],
        [2, 0, 2, 0],
        [2, 0, 3, 0],
        [2, 0, 0, 2],
        [3, 0, 1, -2],
        [4, 0, 0, 0],
        [6, 0, 0, 0],
    ] {
        assert_eq!(away(&[row]), refused, "{row:?}");
        assert_eq!(away(&[[0; 4], row]).is_ok(), matches!(row[0], 4 | 6), "{row:?}");
    }
    // A literal on i below: the row over it has to be an iteration from 0 to n or n - 1.
    let over = |row: Row| away(&[[3, 0, 2, -1], row]);
    for row in [[4, 0, 0, 0], [6, 0, 1, 0], [6, 0, -1, 0], [7, 0, 0, 2], [7, 0, 0, -1], [6, 1, 0, 0], [5, 0, 0, 1]] {
        assert_eq!(over(row), refused, "{row:?}");
    }
    assert_eq!(over([6, 0, 0, 0]), Ok(Some(vec![[3, 0, 2, -1], [6, 0, 0, 1]])));
    // Iterations in iterations, and sides that mix i and n.
    assert_eq!(away(&[[2, 0, 2, 0], [6, 0, 0, 0], [6, 1, 0, 0]]), refused);
    assert_eq!(away(&[[2, 0, 2, 0], [2, 0, 1, 0], [4, 0, 1, 0]]), refused);
}

#[test]
fn lent_memory() {
    let next = |table: &[i32], rows: usize, room: usize| {
        let mut next = vec![7; room];
        let packed = zorambi::entries::next_small(table, rows, &mut next);
        (packed >> 39, (packed >> 26 & 8191) as i64 - 1, packed & 0x3ff_ffff, next)
    };
    assert_eq!(next(&[0; 4], 1, 6), (0, 0, 8192, vec![1, 0, 0, 0, 0, 0]));
    assert_eq!(next(&[3, 0, 1, 1, 9], 1, 4), (0, 0, 0, vec![0; 4]));
    assert_eq!(next(&[0; 4], 1, 3), (2, -1, 0, vec![0; 3]));
    assert_eq!(next(&[9; 3], 1, 4), (2, -1, 0, vec![0; 4]));
    assert_eq!(next(&[0; 16], 4, 15), (2, -1, 0, vec![0; 15]));
    assert_eq!(next(&[0; 16], 4, 16), (31, -1, 0, vec![0; 16]));
    assert_eq!(next(&[], 0, 2), (31, -1, 0, vec![0; 2]));
    assert_eq!(next(&[0; 4], usize::MAX / 2 + 2, 4), (2, -1, 0, vec![0; 4]));
}
