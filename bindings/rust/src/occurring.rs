//! The pairs that occur in a well-formed schema at n.

use crate::record::{Row, Schema};
use std::collections::BTreeMap;

/// How many pairs occur at n in a schema that the library has found well formed.
pub fn occurring(schema: &Schema, n: i32) -> u64 {
    occurring_ranges(schema, n).iter().map(|(_, [first, last])| (last - first + 1) as u64).sum()
}

/// The pairs of a symbol and an index that some literal names that is reached from the root at n, each i of its iteration's range put
/// in: a symbol, and the first and the last index of a range of them. They ascend, and no two of one symbol meet. The schema is
/// well formed.
pub fn occurring_ranges(schema: &Schema, n: i32) -> Vec<(i32, [i64; 2])> {
    let mut named: BTreeMap<i32, Vec<[i64; 2]>> = BTreeMap::new();
    let mut seen = vec![false; schema.rows.len()];
    let mut waiting = vec![schema.root as usize];
    while let Some(row) = waiting.pop() {
        if std::mem::replace(&mut seen[row], true) {
            continue;
        }
        let [kind, a, b, c] = schema.rows[row];
        match kind {
            2 | 3 => {
                let index = i64::from(c) + if b == 1 { i64::from(n) } else { 0 };
                named.entry(a).or_default().push([index; 2]);
            }
            4 | 5 => waiting.extend([a as usize, b as usize]),
            6 | 7 if i64::from(b) <= i64::from(n) - i64::from(c) => {
                for [symbol, offset] in literals(&schema.rows, a as usize) {
                    let [first, last] = [i64::from(b), i64::from(n) - i64::from(c)].map(|i| i + i64::from(offset));
                    named.entry(symbol).or_default().push([first, last]);
                }
            }
            _ => {}
        }
    }
    named
        .into_iter()
        .flat_map(|(symbol, ranges)| merged(ranges).into_iter().map(move |range| (symbol, range)))
        .collect()
}

/// The symbol and the offset of every literal of a body.
fn literals(rows: &[Row], body: usize) -> Vec<[i32; 2]> {
    let (mut found, mut seen, mut waiting) = (Vec::new(), vec![false; body + 1], vec![body]);
    while let Some(row) = waiting.pop() {
        if std::mem::replace(&mut seen[row], true) {
            continue;
        }
        match rows[row] {
            [2 | 3, symbol, _, offset] => found.push([symbol, offset]),
            [4 | 5, a, b, _] => waiting.extend([a as usize, b as usize]),
            _ => {}
        }
    }
    found
}

/// The numbers that lie in one of these ranges, as ranges that ascend and do not meet.
fn merged(mut ranges: Vec<[i64; 2]>) -> Vec<[i64; 2]> {
    ranges.sort_unstable();
    let mut merged: Vec<[i64; 2]> = Vec::new();
    for [first, last] in ranges {
        match merged.last_mut() {
            Some(before) if first <= before[1] + 1 => before[1] = before[1].max(last),
            _ => merged.push([first, last]),
        }
    }
    merged
}

#[cfg(test)]
mod tests {
    use super::{occurring, occurring_ranges};
    use crate::{find_model, Refusal, Row, Schema};

    /// The paper's schema with this root.
    fn paper(root: i32) -> Schema {
        Schema { root, least: 1, rows: vec![[2, 0, 2, 0], [3, 0, 2, 0], [7, 0, 2, 0], [6, 1, 2, 0], [4, 2, 3, 0]] }
    }

    /// Numbers that follow from a seed.
    struct Numbers(u64);

    impl Numbers {
        fn below(&mut self, limit: i32) -> i32 {
            self.0 = self.0.wrapping_mul(6_364_136_223_846_793_005).wrapping_add(1_442_695_040_888_963_407);
            (self.0 >> 33) as i32 % limit
        }
    }

    #[test]
    fn pairs_that_occur() {
        // Some p_i for i from 2 to n.
        for (n, count) in [(1, 0), (2, 1), (3, 2), (17, 16), (18, 17), (9999, 9998)] {
            assert_eq!(occurring(&paper(2), n), count, "{n}");
        }
        // Both iterations name the same pairs; so do two literals that meet: p_(i + 1) from 1 to n and p_(n + 1), p_5.
        assert_eq!(occurring(&paper(4), 18), 17);
        let rows = vec![
            [2, 0, 2, 1],
            [6, 0, 1, 0],
            [2, 0, 1, 1],
            [2, 0, 0, 5],
            [3, 1, 0, 5],
            [5, 1, 2, 0],
            [5, 3, 4, 0],
            [4, 5, 6, 0],
        ];
        let schema = Schema { root: 7, least: 0, rows };
        for (n, count) in [(0, 1 + 2), (1, 1 + 2), (3, 3 + 2), (4, 4 + 1), (10, 10 + 1)] {
            assert_eq!(occurring(&schema, n), count, "{n}");
        }
    }

    #[test]
    fn ranges_that_meet_are_one() {
        // p_i and, of another symbol, p_(i + 1) from 1 to n; p_(n + 1), p_5 and p_9.
        let rows = vec![
            [2, 0, 2, 0],
            [2, 1, 2, 1],
            [4, 0, 1, 0],
            [6, 2, 1, 0],
            [2, 0, 1, 1],
            [2, 0, 0, 5],
            [3, 0, 0, 9],
            [5, 3, 4, 0],
            [5, 5, 6, 0],
            [4, 7, 8, 0],
        ];
        let schema = Schema { root: 9, least: 0, rows };
        assert_eq!(occurring_ranges(&schema, 0), [(0, [1, 1]), (0, [5, 5]), (0, [9, 9])]);
        assert_eq!(occurring_ranges(&schema, 3), [(0, [1, 5]), (0, [9, 9]), (1, [2, 4])]);
        assert_eq!(occurring_ranges(&schema, 20), [(0, [1, 21]), (1, [2, 21])]);
    }

    /// A well-formed schema of these many rows over literals, some of them on i.
    fn any_schema(numbers: &mut Numbers) -> Schema {
        let mut rows: Vec<Row> = vec![[2, 0, 2, numbers.below(5) - 2], [3, 1, 2, numbers.below(5) - 2], [4, 0, 1, 0]];
        for _ in 0..2 {
            rows.push([6 + numbers.below(2), numbers.below(3), numbers.below(6) - 2, numbers.below(4) - 1]);
        }
        rows.push([2, numbers.below(2), 1, numbers.below(9) - 4]);
        rows.push([3, numbers.below(2), 0, numbers.below(12)]);
        for next in 7..10 {
            rows.push([4 + numbers.below(2), 3 + numbers.below(next - 3), 3 + numbers.below(next - 3), 0]);
        }
        Schema { root: 9, least: 0, rows }
    }

    #[test]
    fn more_than_16_pairs_exactly_where_the_library_says_so() {
        let mut numbers = Numbers(1);
        let mut turned_away = 0;
        for _ in 0..3000 {
            let schema = any_schema(&mut numbers);
            let n = numbers.below(14);
            let many = find_model(&schema, n).is_err_and(|refused| refused.refusal == Refusal::Wires);
            assert_eq!(occurring(&schema, n) > 16, many, "{schema:?} {n}");
            turned_away += usize::from(many);
        }
        assert!((200..2800).contains(&turned_away), "{turned_away}");
    }
}
