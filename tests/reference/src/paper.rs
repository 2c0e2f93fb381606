//! The record of document 01, for tests.

use crate::formula::Row;

pub const SCHEMA: [Row; 5] = [[2, 0, 2, 0], [3, 0, 2, 0], [7, 0, 2, 0], [6, 1, 2, 0], [4, 2, 3, 0]];
pub const PROOF: [Row; 4] = [[7, 0, 2, 1], [2, 0, 1, 0], [6, 1, 2, 1], [3, 0, 1, 0]];
pub const NODES: [([i32; 7], &[i32]); 7] = [
    ([-1, 0, 4, -1, -1, -1, 0], &[4]),
    ([0, 2, -1, -1, -1, -1, 0], &[2, 3]),
    ([1, 7, 2, -1, -1, -1, 0], &[2, 3]),
    ([1, 3, 3, 7, 8, -1, 0], &[2, 3]),
    ([3, 4, 2, 5, 6, -1, 0], &[2, 7, 8]),
    ([4, 8, -1, -1, -1, 1, 1], &[5, 7]),
    ([4, 6, 6, 8, -1, -1, 0], &[6, 8]),
];

/// Nodes with their sets, to be changed.
pub type Nodes = Vec<([i32; 7], Vec<i32>)>;

pub fn nodes() -> Nodes {
    NODES.map(|(fields, set)| (fields, set.to_vec())).to_vec()
}

/// The tables of nodes and members.
pub fn tables(nodes: &Nodes) -> [Vec<i32>; 2] {
    let mut found = [Vec::new(), Vec::new()];
    for (fields, set) in nodes {
        let start = found[1].len() as i32;
        found[0].extend(fields);
        found[0].extend([start, set.len() as i32]);
        found[1].extend(set);
    }
    found
}
