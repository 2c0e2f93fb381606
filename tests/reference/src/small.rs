//! All small schemata: document 02, No. 14. The tables are all made and put in order once; the next one is found there.

use crate::formula::{Formulas, Row, BIG_AND, BIG_OR, LITERAL, NEGATED};
use crate::{holds, Refusal, Verdict, ROW_WIDTH};
use std::sync::OnceLock;

/// How many rows a small schema has at most.
pub const MAX_SMALL: usize = 3;

/// Every table of so many rows, in ascending order of their numbers; none if there are not 1 to 3 rows.
pub fn all(rows: usize) -> &'static [Vec<i32>] {
    static TABLES: OnceLock<[Vec<Vec<i32>>; MAX_SMALL]> = OnceLock::new();
    let tables = TABLES.get_or_init(|| [1, 2, 3].map(made));
    rows.checked_sub(1).and_then(|at| tables.get(at)).map_or(&[], Vec::as_slice)
}

/// Makes tables of one row more and more out of every row that there may be, and keeps what is well-formed; at last
/// what has an outer last row.
fn made(rows: usize) -> Vec<Vec<i32>> {
    let mut tables = vec![Vec::new()];
    for _ in 0..rows {
        let longer = |table: &Vec<i32>| candidates().map(|row| [&table[..], &row].concat()).collect::<Vec<_>>();
        tables = tables.iter().flat_map(longer).filter(|table| last(table).is_some()).collect();
    }
    tables.retain(|table| last(table) == Some(true));
    tables.sort_unstable();
    tables
}

/// Rows whose columns No. 14 names, whether they are well-formed or not.
fn candidates() -> impl Iterator<Item = Row> {
    let numbers = |limit: i32| -1..=limit;
    let rows = numbers(BIG_OR).flat_map(move |kind| numbers(2).map(move |a| [kind, a]));
    let rows = rows.flat_map(move |[kind, a]| numbers(2).map(move |b| [kind, a, b]));
    let rows = rows.flat_map(move |[kind, a, b]| numbers(2).map(move |c| [kind, a, b, c]));
    rows.filter(|[kind, a, b, c]| match *kind {
        LITERAL | NEGATED => *a == 0 && (-1..=1).contains(c),
        BIG_AND | BIG_OR => *b == 0 && (0..=1).contains(c),
        _ => true,
    })
}

/// Whether the last row is outer; `None` if it is ill-formed.
fn last(table: &[i32]) -> Option<bool> {
    let count = table.len() / ROW_WIDTH;
    let formulas = Formulas::new(table, count, &[], 0)?;
    formulas.facts(count as i32 - 1).map(|facts| !facts.on_i)
}

/// The next table after the given one, in `next`; the verdict has 1 as its number of nodes where there is one.
pub fn next_small(table: &[i32], rows: usize, next: &mut [i32]) -> Verdict {
    let refused = |answer: u8| Verdict::refused(Refusal { answer, place: -1 });
    next.fill(0);
    if !holds(table.len(), rows, ROW_WIDTH) || !holds(next.len(), rows, ROW_WIDTH) {
        return refused(2);
    }
    let tables = all(rows);
    let numbers = &table[..rows * ROW_WIDTH];
    match tables.binary_search_by(|listed| listed.as_slice().cmp(numbers)) {
        Err(_) => refused(31),
        Ok(at) if at + 1 == tables.len() => Verdict::accepted(0, 0),
        Ok(at) => {
            next[..numbers.len()].copy_from_slice(&tables[at + 1]);
            Verdict::accepted(1, 0)
        }
    }
}

#[cfg(test)]
mod tests {
    use super::*;

    #[test]
    fn tables_of_one_row() {
        // True, false, and literals not on i: 2 kinds, 2 bases, 3 offsets.
        let mut expected = vec![vec![0, 0, 0, 0], vec![1, 0, 0, 0]];
        for kind in [2, 3] {
            for base in [0, 1] {
                expected.extend([-1, 0, 1].map(|offset| vec![kind, 0, base, offset]));
            }
        }
        assert_eq!(all(1), expected);
    }

    #[test]
    fn how_many() {
        // A first row: 2 constants, 6 literals on i, 12 others. After each there are 14 outer leaves; after the 14
        // outer rows an and and an or; after the 8 bodies 4 iterations.
        assert_eq!(all(2).len(), 20 * 14 + 14 * 2 + 8 * 4);
        // Two rows c (neither), i or n before the last one, counted alike.
        let [cc, ci, cn] = [2 * 4 * (14 + 8 + 8), 2 * 6 * (14 + 2 + 8), 2 * 16 * (14 + 8 + 4)];
        let [ic, ii, i_n] = [6 * 2 * (14 + 2 + 8), 6 * 8 * (14 + 8), 6 * 16 * (14 + 2 + 4)];
        let [nc, ni, nn] = [12 * 2 * (14 + 8 + 4), 12 * 6 * (14 + 2 + 4), 12 * 14 * (14 + 8)];
        assert_eq!(all(3).len(), cc + ci + cn + ic + ii + i_n + nc + ni + nn);
        assert_eq!([0, 4, 5, usize::MAX].map(|rows| all(rows).len()), [0; 4]);
    }

    #[test]
    fn some_of_two_rows() {
        let is_listed = |second: [i32; 4]| all(2).contains(&[&[2, 0, 2, 1], &second[..]].concat());
        assert!(is_listed([7, 0, 0, 1]) && is_listed([6, 0, 0, 0]) && is_listed([3, 0, 1, -1]));
        // Not outer, another first index or last one, another symbol or offset, no earlier row.
        for row in [[2, 0, 2, 0], [4, 0, 0, 0], [6, 0, 1, 0], [6, 0, 0, 2], [6, 0, 0, -1], [2, 1, 0, 0], [2, 0, 0, 2]] {
            assert!(!is_listed(row), "{row:?}");
        }
        for row in [[6, 1, 0, 0], [0, 0, 0, 1], [8, 0, 0, 0], [-1, 0, 0, 0]] {
            assert!(!is_listed(row), "{row:?}");
        }
    }

    #[test]
    fn one_after_another() {
        let next = |table: &[i32], rows: usize, room: usize| {
            let mut next = vec![9; room];
            let verdict = next_small(table, rows, &mut next);
            (verdict.answer, verdict.place, verdict.nodes, next)
        };
        assert_eq!(next(&[0, 0, 0, 0], 1, 5), (0, 0, 1, vec![1, 0, 0, 0, 0]));
        assert_eq!(next(&[1, 0, 0, 0, 7], 1, 4), (0, 0, 1, vec![2, 0, 0, -1]));
        assert_eq!(next(&[2, 0, 1, 1], 1, 4), (0, 0, 1, vec![3, 0, 0, -1]));
        assert_eq!(next(&[3, 0, 1, 1], 1, 5), (0, 0, 0, vec![0; 5]));
        // The last table that begins with true, and the last of all: a literal on i comes last among the first rows.
        assert_eq!(next(&[0, 0, 0, 0, 7, 0, 0, 1], 2, 8), (0, 0, 1, vec![1, 0, 0, 0, 0, 0, 0, 0]));
        assert_eq!(next(&[3, 0, 2, 1, 7, 0, 0, 1], 2, 8), (0, 0, 0, vec![0; 8]));
        assert_eq!(next(&[3, 0, 2, 1, 7, 0, 0, 0], 2, 8), (0, 0, 1, vec![3, 0, 2, 1, 7, 0, 0, 1]));
        // Refusals.
        assert_eq!(next(&[0; 16], 4, 16), (31, -1, 0, vec![0; 16]));
        assert_eq!(next(&[0; 16], 0, 16), (31, -1, 0, vec![0; 16]));
        assert_eq!(next(&[0; 15], 4, 16), (2, -1, 0, vec![0; 16]));
        assert_eq!(next(&[0; 16], 4, 15), (2, -1, 0, vec![0; 15]));
        assert_eq!(next(&[2, 0, 2, 0], 1, 3), (2, -1, 0, vec![0; 3]));
        assert_eq!(next(&[2, 0, 2, 0], 1, 4), (31, -1, 0, vec![0; 4]));
        assert_eq!(next(&[], usize::MAX, 0), (2, -1, 0, vec![]));
    }
}
