//! What the nodes of a tableau know of n, worked out apart from the check.

use super::rng::Rng;
use super::tables::Tree;
use zorambi_reference::MAX_N;

/// n is at least `least`, and at most `most` if there is an upper bound.
#[derive(Clone, Copy, Debug, PartialEq, Eq)]
pub struct Bound {
    pub least: i32,
    pub most: Option<i32>,
}

impl Bound {
    pub fn from(least: i32) -> Bound {
        Bound { least, most: None }
    }

    pub fn is_open(self) -> bool {
        self.most.is_none()
    }

    pub fn is_exact(self) -> bool {
        self.most == Some(self.least)
    }

    /// An upper bound, and more than one value.
    pub fn is_range(self) -> bool {
        self.most.is_some_and(|most| self.least < most)
    }

    /// n is below this everywhere.
    pub fn is_below(self, limit: i32) -> bool {
        self.most.is_some_and(|most| most < limit)
    }

    /// n may be this.
    pub fn has(self, n: i32) -> bool {
        self.least <= n && self.most.is_none_or(|most| n <= most)
    }

    /// n may be whatever it may be by the other.
    pub fn covers(self, other: Bound) -> bool {
        self.least <= other.least && self.most.is_none_or(|most| other.most.is_some_and(|of_other| of_other <= most))
    }

    /// What n - by may be.
    pub fn lowered(self, by: i32) -> Bound {
        Bound { least: self.least.saturating_sub(by), most: self.most.map(|most| most.saturating_sub(by)) }
    }

    /// The largest K of a split; there is none if it is below L.
    pub fn last_split(self) -> i32 {
        self.most.unwrap_or(MAX_N) - 1
    }

    /// There is a K at which to split.
    pub fn may_split(self) -> bool {
        self.least <= self.last_split()
    }

    /// The bounds of a split's children.
    pub fn split(self, by: i32) -> [Bound; 2] {
        let k = if by == 0 { self.least } else { by };
        [Bound { most: Some(k), ..self }, Bound { least: k.saturating_add(1), ..self }]
    }

    /// `by` for a split at K: L has two names.
    pub fn by(self, k: i32, rng: &mut Rng) -> i32 {
        if k == self.least && rng.chance(50) {
            0
        } else {
            k
        }
    }
}

/// The bound of each node; ups are right.
pub fn bounds(tree: &Tree) -> Vec<Bound> {
    let mut bounds: Vec<Bound> = Vec::new();
    let mut seen = vec![0; tree.nodes.len()];
    for node in &tree.nodes {
        let Some(up) = usize::try_from(node.fields[0]).ok().filter(|up| *up < bounds.len()) else {
            bounds.push(Bound::from(tree.least));
            continue;
        };
        let position = seen[up];
        seen[up] += 1;
        let [_, rule, .., by] = tree.nodes[up].fields;
        bounds.push(if rule == 2 { bounds[up].split(by)[position.min(1)] } else { bounds[up] });
    }
    bounds
}
