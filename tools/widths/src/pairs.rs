//! The pairs that occur in a schema at n, numbered from 0 in ascending order.

use zorambi::{details, Pair, Schema};

/// As ranges of indices, so that a symbol at thousands of indices takes no more room than at one.
#[derive(Debug)]
pub struct Pairs {
    ranges: Vec<Range>,
    count: usize,
}

/// A symbol at each index from the first to the last, and how many pairs come before.
#[derive(Debug)]
struct Range {
    symbol: i32,
    first: i64,
    last: i64,
    before: usize,
}

impl Pairs {
    /// Those of a well-formed schema.
    pub fn occurring(schema: &Schema, n: i32) -> Pairs {
        let mut count = 0;
        let mut ranges = Vec::new();
        for (symbol, [first, last]) in details::occurring_ranges(schema, n) {
            ranges.push(Range { symbol, first, last, before: count });
            count += (last - first + 1) as usize;
        }
        Pairs { ranges, count }
    }

    pub fn count(&self) -> usize {
        self.count
    }

    /// The number of a pair that occurs.
    pub fn number(&self, symbol: i32, index: i64) -> usize {
        let after = self.ranges.partition_point(|range| (range.symbol, range.first) <= (symbol, index));
        let range = &self.ranges[after - 1];
        debug_assert!(range.symbol == symbol && index <= range.last);
        range.before + (index - range.first) as usize
    }

    /// All of them, in the order of their numbers.
    pub fn all(&self) -> impl Iterator<Item = Pair> + '_ {
        self.ranges.iter().flat_map(|range| (range.first..=range.last).map(|index| [range.symbol, index as i32]))
    }
}
