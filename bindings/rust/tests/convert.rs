//! Wide connectives: the plain rows of each kind, the limits, and the shipped wide schemata.

mod common;

use common::{records, texts};
use std::fs;
use zorambi::{check_model, check_texts, convert, read_schema, Model, Refusal, Refused, Row, Schema, Verdict};

fn wide(root: i32, rows: &[Row]) -> Schema {
    Schema { root, least: 3, rows: rows.to_vec() }
}

/// The plain root and rows. The least value stays.
fn plain(root: i32, rows: &[Row]) -> (i32, Vec<Row>) {
    let plain = convert(&wide(root, rows)).unwrap();
    assert_eq!(plain.least, 3);
    (plain.root, plain.rows)
}

fn turned_away(root: i32, rows: &[Row]) -> (Refusal, Option<usize>) {
    let Refused { refusal, place } = convert(&wide(root, rows)).unwrap_err();
    (refusal, place)
}

const P: Row = [2, 0, 1, 0];
const NOT_P: Row = [3, 0, 1, 0];
const Q: Row = [3, 7, 0, -5];
const NOT_Q: Row = [2, 7, 0, -5];

#[test]
fn each_kind() {
    assert_eq!(plain(0, &[[0; 4], [1, 0, 0, 0]]), (0, vec![[0; 4], [1, 0, 0, 0], [1, 0, 0, 0], [0; 4]]));
    // Rows 0 and 1 are p and its negation, 2 and 3 are q and its negation.
    let after = |rows: &[Row]| [&[P, NOT_P, Q, NOT_Q], rows].concat();
    let two = |row: Row| plain(2, &[P, Q, row]);
    assert_eq!(two([4, 0, 1, 0]), (4, after(&[[4, 0, 2, 0], [5, 1, 3, 0]])));
    assert_eq!(two([5, 1, 0, 0]), (4, after(&[[5, 2, 0, 0], [4, 3, 1, 0]])));
    assert_eq!(two([8, 1, 0, 0]), (3, after(&[])));
    assert_eq!(two([9, 0, 1, 0]), (4, after(&[[5, 1, 2, 0], [4, 0, 3, 0]])));
    let same = [[4, 0, 2, 0], [4, 1, 3, 0]];
    let other = [[4, 0, 3, 0], [4, 1, 2, 0]];
    let equivalent = [&same[..], &[[5, 4, 5, 0]], &other, &[[5, 7, 8, 0]]].concat();
    assert_eq!(two([10, 0, 1, 0]), (6, after(&equivalent)));
    let exclusive = [&other[..], &[[5, 4, 5, 0]], &same, &[[5, 7, 8, 0]]].concat();
    assert_eq!(two([11, 0, 1, 0]), (6, after(&exclusive)));
    let body = [2, 1, 2, 3];
    let rows = vec![body, [3, 1, 2, 3], [6, 0, -4, 9], [7, 1, -4, 9], [7, 0, -4, 9], [6, 1, -4, 9]];
    assert_eq!(plain(1, &[body, [6, 0, -4, 9], [7, 0, -4, 9]]), (2, rows));
}

#[test]
fn negations_write_no_row() {
    let nots = [P, [8, 0, 0, 0], [8, 1, 0, 0], [8, 2, 0, 0]];
    for (root, stands) in [(0, 0), (1, 1), (2, 0), (3, 1)] {
        assert_eq!(plain(root, &nots), (stands, vec![P, NOT_P]));
    }
    // not p implies not (p implies not p): rows 2, 3 and 4, 5.
    let rows = [P, [8, 0, 0, 0], [9, 0, 1, 0], [8, 2, 0, 0], [9, 1, 3, 0], [8, 4, 0, 0]];
    let written = vec![P, NOT_P, [5, 1, 1, 0], [4, 0, 0, 0], [5, 0, 3, 0], [4, 1, 2, 0]];
    assert_eq!(plain(4, &rows), (4, written.clone()));
    assert_eq!(plain(5, &rows), (5, written));
}

#[test]
fn what_is_ill_formed() {
    for row in [
        [12, 0, 0, 0],
        [-1, 0, 0, 0],
        [8, 1, 0, 0],
        [8, 0, 1, 0],
        [8, 0, 0, 1],
        [8, -1, 0, 0],
        [9, 0, 1, 0],
        [10, 1, 0, 0],
        [11, 0, 0, 1],
        [10, 0, i32::MIN, 0],
    ] {
        assert_eq!(turned_away(0, &[P, row]), (Refusal::IllFormed, Some(1)), "{row:?}");
    }
    // No mixing of a literal on i with one on n; no iteration and no literal on n in a body, below a not either.
    let on_i = [2, 0, 2, 0];
    for kind in [4, 5, 9, 10, 11] {
        assert_eq!(turned_away(0, &[P, on_i, [kind, 0, 1, 0]]), (Refusal::IllFormed, Some(2)));
        assert_eq!(turned_away(0, &[P, on_i, [8, 1, 0, 0], [kind, 2, 0, 0]]), (Refusal::IllFormed, Some(3)));
    }
    assert_eq!(turned_away(0, &[P, [8, 0, 0, 0], [6, 1, 0, 0]]), (Refusal::IllFormed, Some(2)));
    assert_eq!(turned_away(0, &[P, on_i, [7, 1, 0, 0], [8, 2, 0, 0], [7, 3, 0, 0]]), (Refusal::IllFormed, Some(4)));
}

#[test]
fn the_root() {
    let rows = [[2, 0, 2, 0], [8, 0, 0, 0], [11, 0, 1, 0], [7, 2, 0, 0]];
    for root in [0, 1, 2, 4, -1] {
        assert_eq!(turned_away(root, &rows), (Refusal::Root, None));
    }
    assert_eq!(convert(&wide(3, &rows)).map(|plain| plain.root), Ok(8));
    // A root that is no row comes before the rows, one that is not outer after.
    let ill = [rows[0], [12, 0, 0, 0]];
    assert_eq!(turned_away(2, &ill), (Refusal::Root, None));
    assert_eq!(turned_away(0, &ill), (Refusal::IllFormed, Some(1)));
    assert_eq!(convert(&Schema { least: 10_000, ..wide(3, &rows) }).map_err(|it| it.refusal), Err(Refusal::Root));
}

/// A literal, then rows of this kind over the row before and, as their right side, over `right` of it.
fn chain(count: usize, kind: i32, right: impl Fn(usize) -> usize) -> Vec<Row> {
    let row = |number: usize| [kind, number as i32, if kind == 8 { 0 } else { right(number) as i32 }, 0];
    std::iter::once(P).chain((0..count).map(row)).collect()
}

#[test]
fn size_and_depth_of_wide_rows() {
    // Row k of kind 4 over row k - 1 twice has size 2^(k + 1) - 1.
    assert!(convert(&wide(0, &chain(11, 4, |row| row))).is_ok());
    assert_eq!(turned_away(0, &chain(12, 4, |row| row)), (Refusal::TooLarge, Some(12)));
    // A not adds 1 to both: size 4,096 is the last, depth 64 too.
    let with_nots =
        |count: usize| [chain(11, 4, |row| row), vec![[8, 11, 0, 0], [8, 12, 0, 0]][..count].to_vec()].concat();
    assert!(convert(&wide(0, &with_nots(1))).is_ok());
    assert_eq!(turned_away(0, &with_nots(2)), (Refusal::TooLarge, Some(13)));
    assert!(convert(&wide(63, &chain(63, 8, |_| 0))).is_ok());
    assert_eq!(turned_away(64, &chain(64, 8, |_| 0)), (Refusal::TooLarge, Some(64)));
    // 8 comes before the root that is not outer, 7 of a row before 8 of the next.
    let on_i = |mut rows: Vec<Row>| {
        rows[0] = [2, 0, 2, 0];
        rows
    };
    assert_eq!(turned_away(0, &on_i(chain(64, 8, |_| 0))), (Refusal::TooLarge, Some(64)));
    assert_eq!(turned_away(0, &on_i(chain(63, 8, |_| 0))), (Refusal::Root, None));
}

#[test]
fn limits_of_plain_rows() {
    // Over a part of size s, kind 10 of it and itself has plain size 4 s + 3: 7, 31, 127, 511, 2047, 8191.
    for kind in [10, 11] {
        assert!(convert(&wide(0, &chain(5, kind, |row| row))).is_ok());
        assert_eq!(turned_away(0, &chain(6, kind, |row| row)), (Refusal::Plain, None));
    }
    // One equivalence, then 62 ands: depth 64 of the wide row, 65 of the plain one.
    let deep = |count: usize| {
        let mut rows = chain(count, 4, |_| 0);
        rows[1] = [10, 0, 0, 0];
        rows
    };
    assert!(convert(&wide(62, &deep(62))).is_ok());
    assert_eq!(turned_away(63, &deep(63)), (Refusal::Plain, None));
    // Two rows of the literal and six of each equivalence: 1,022, then 1,028; two of an or make it 1,024 and 1,026.
    let many = |count: usize, ors: usize| [chain(count, 10, |_| 0), vec![[5, 0, 0, 0]; ors]].concat();
    let flat = |count, ors| many(count, ors).into_iter().map(|[kind, _, b, c]| [kind, 0, b, c]).collect::<Vec<_>>();
    assert_eq!(convert(&wide(0, &flat(170, 0))).map(|plain| plain.rows.len()), Ok(1022));
    assert_eq!(convert(&wide(0, &flat(170, 1))).map(|plain| plain.rows.len()), Ok(1024));
    assert_eq!(turned_away(0, &flat(170, 2)), (Refusal::Plain, None));
    assert_eq!(turned_away(0, &flat(171, 0)), (Refusal::Plain, None));
    // 1,024 wide rows are looked at, 1,025 are not; nots write nothing.
    let nots = |count: usize| [vec![P], vec![[8, 0, 0, 0]; count]].concat();
    assert_eq!(plain(1023, &nots(1023)), (1, vec![P, NOT_P]));
    assert_eq!(turned_away(0, &nots(1024)), (Refusal::TooMany, None));
    assert_eq!(
        convert(&wide(0, &flat(171, 0))).unwrap_err().to_string(),
        "refused: plain rows too many, too large or too deep (23)"
    );
}

#[test]
fn the_plain_root_is_true_where_the_wide_root_is() {
    // p_n, p_(n-1): each connective's two values against the four assignments, at n = 3.
    let (a, b) = ([2, 0, 1, 0], [2, 0, 1, -1]);
    for (kind, truth) in [(9, (|a, b| !a || b) as fn(bool, bool) -> bool), (10, |a, b| a == b), (11, |a, b| a != b)] {
        for negated in [false, true] {
            let rows = [a, b, [kind, 0, 1, 0], [8, 2, 0, 0]];
            let plain = convert(&wide(2 + i32::from(negated), &rows)).unwrap();
            for (p, q) in [(false, false), (false, true), (true, false), (true, true)] {
                let pairs =
                    [(q, [0, 2]), (p, [0, 3])].into_iter().filter_map(|(is, pair)| is.then_some(pair)).collect();
                let verdict = check_model(&plain, &Model { n: 3, pairs });
                assert_eq!(verdict.is_accepted(), truth(p, q) != negated, "{kind} {negated} {p} {q}");
            }
        }
    }
}

#[test]
fn shipped_wide_schemata() {
    for record in records("wide") {
        let [wide, plain] =
            ["wide.txt", "schema.txt"].map(|name| read_schema(&fs::read(record.join(name)).unwrap()).unwrap());
        assert_eq!(convert(&wide), Ok(plain), "{}", record.display());
        let [schema, proof] = texts(&record);
        let verdict = check_texts(&schema, &proof).verdict;
        let Verdict::Accepted { nodes, links } = verdict else { panic!("{}", record.display()) };
        let expected = fs::read_to_string(record.join("expected")).unwrap();
        assert_eq!(expected, format!("0 0 {nodes} {links}\n"), "{}", record.display());
    }
}
