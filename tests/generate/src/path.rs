//! A tableau along one path: false stands in every set and closes every other branch, so that only the
//! nodes of the path decide.

use super::bounds::Bound;
use super::rng::Rng;
use super::sharp::insert_member;
use super::tables::{Tree, TreeNode};
use zorambi_reference::formula::{Row, AND, BIG_AND, BIG_OR, FALSE, LITERAL, NEGATED, ON_I, ON_N, OR, PLAIN, TRUE};

/// The rows: schema rows up to the root, then proof rows.
const CONTRADICTION: i32 = 0;
const NOTHING: i32 = 1;
const LIT: i32 = 2;
const BOTH: i32 = 3;
const EITHER: i32 = 4;
const BODY: i32 = 5;
const ALL: i32 = 6;
const SOME: i32 = 7;
/// A literal, its opposite and an iteration whose indices are set at the path's end.
pub const POSITIVE: i32 = 8;
pub const NEGATIVE: i32 = 9;
pub const ITERATION: i32 = 10;
const ROOT: i32 = 17;
const NEXT_ALL: i32 = 18;
const NEXT_SOME: i32 = 19;
const INSTANCE: i32 = 20;
pub const NEXT_ITERATION: i32 = 21;
pub const ITERATION_INSTANCE: i32 = 22;

pub struct Path {
    pub tree: Tree,
    /// The node at the path's end, its bound, and what stands in its set.
    pub at: usize,
    pub bound: Bound,
    pub set: Vec<i32>,
}

/// A node to go on from.
#[derive(Clone)]
pub struct Place {
    pub at: usize,
    pub bound: Bound,
    set: Vec<i32>,
}

impl Path {
    /// Down to where all is taken apart.
    pub fn new(rng: &mut Rng, least: i32) -> Path {
        let first = -rng.range(0, 30);
        let rows = vec![
            [FALSE, 0, 0, 0],
            [TRUE, 0, 0, 0],
            [LITERAL, 0, PLAIN, 3],
            [AND, NOTHING, LIT, 0],
            [OR, NOTHING, LIT, 0],
            [LITERAL, 1, ON_I, 0],
            [BIG_AND, BODY, first, 0],
            [BIG_OR, BODY, first, 0],
            [LITERAL, 2, PLAIN, 0],
            [NEGATED, 2, PLAIN, 0],
            [BIG_OR, BODY, 0, 0],
            [AND, BOTH, EITHER, 0],
            [AND, ALL, SOME, 0],
            [AND, POSITIVE, NEGATIVE, 0],
            [AND, 12, 13, 0],
            [AND, ITERATION, 14, 0],
            [AND, 11, 15, 0],
            [AND, CONTRADICTION, 16, 0],
            [BIG_AND, BODY, first, 1],
            [BIG_OR, BODY, first, 1],
            [LITERAL, 1, ON_N, 0],
            [BIG_OR, BODY, 0, 1],
            [LITERAL, 1, ON_N, 0],
        ];
        let nodes = vec![closed(-1, vec![ROOT])];
        let tree = Tree { root: ROOT, least, rows, schema_count: ROOT as usize + 1, nodes };
        let mut path = Path { tree, at: 0, bound: Bound::from(least), set: vec![ROOT] };
        for on in [ROOT, 16, 15, 14, 13, 12, 11] {
            let [_, a, b, _] = path.tree.rows[on as usize];
            path.set.retain(|row| *row != on);
            let set = path.with(&[a, b]);
            path.go(0, [on, -1, -1], [set, Vec::new()], 0);
        }
        path
    }

    /// Only rows without n, which are their own lowered ones: a link's rows then have their partners.
    pub fn drop_rows_on_n(&mut self) {
        self.set.retain(|row| [CONTRADICTION, NOTHING, LIT, BOTH, EITHER].contains(row));
        self.tree.nodes[self.at].set = self.set.clone();
    }

    /// Goes on from a node where all rows without n stand, and the big and if `on_n`.
    pub fn gather(&mut self, on_n: bool) {
        self.set.retain(|row| [CONTRADICTION, NOTHING, LIT, BOTH, EITHER].contains(row) || (on_n && *row == ALL));
        self.tree.nodes[self.at].set = self.set.clone();
        self.go(0, [BOTH, -1, -1], [self.with(&[NOTHING, LIT]), vec![]], 0);
    }

    pub fn place(&self) -> Place {
        Place { at: self.at, bound: self.bound, set: self.set.clone() }
    }

    pub fn go_to(&mut self, place: &Place) {
        let Place { at, bound, set } = place.clone();
        (self.at, self.bound, self.set) = (at, bound, set);
    }

    /// Two branches: by a split, or by an or.
    pub fn fork(&mut self, split: Option<i32>) -> [Place; 2] {
        let first = self.tree.nodes.len();
        let bounds = split.map_or([self.bound; 2], |by| self.bound.split(by));
        match split {
            Some(by) => self.split(by, 0),
            None => self.go(1, [EITHER, -1, -1], [self.with(&[NOTHING]), self.with(&[LIT])], 0),
        }
        [0, 1].map(|child| Place {
            at: first + child,
            bound: bounds[child],
            set: self.tree.nodes[first + child].set.clone(),
        })
    }

    /// One round more of the big and, whose lowered row then stands here.
    pub fn unfold_all(&mut self) {
        self.go(3, [ALL, NEXT_ALL, INSTANCE], [self.with(&[NEXT_ALL, INSTANCE]), vec![]], 0);
    }

    /// The set with more rows.
    fn with(&self, more: &[i32]) -> Vec<i32> {
        let mut node = closed(0, self.set.clone());
        more.iter().for_each(|row| insert_member(&mut node, *row));
        node.set
    }

    /// Gives the node at the path's end a rule and children, and goes on with one of these.
    fn go(&mut self, rule: i32, [on, with, other]: [i32; 3], sets: [Vec<i32>; 2], child: usize) {
        self.end([rule, on, with, other, -1, 0]);
        let children = if [1, 2, 4].contains(&rule) { 2 } else { 1 };
        let (parent, first) = (self.at as i32, self.tree.nodes.len());
        for set in sets.iter().take(children) {
            self.tree.nodes.push(closed(parent, set.clone()));
        }
        self.at = first + child;
        self.set = sets[child].clone();
    }

    pub fn split(&mut self, by: i32, child: usize) {
        let split = self.at;
        self.go(2, [-1; 3], [self.set.clone(), self.set.clone()], child);
        self.tree.nodes[split].fields[6] = by;
        self.bound = self.bound.split(by)[child];
    }

    /// A rule that leaves the bound as it is; a big and or or of its own may be unfolded.
    pub fn step(&mut self, rng: &mut Rng) {
        let child = rng.below(2);
        match rng.below(4) {
            0 if self.set.contains(&ALL) => self.unfold_all(),
            1 if self.set.contains(&SOME) => {
                self.go(4, [SOME, NEXT_SOME, INSTANCE], [self.with(&[NEXT_SOME]), self.with(&[INSTANCE])], child);
            }
            2 => self.go(1, [EITHER, -1, -1], [self.with(&[NOTHING]), self.with(&[LIT])], child),
            _ => self.go(0, [BOTH, -1, -1], [self.with(&[NOTHING, LIT]), vec![]], 0),
        }
    }

    /// The iteration from b up to n - c, and what it is unfolded to.
    pub fn set_iteration(&mut self, kind: i32, b: i32, c: i32) {
        self.tree.rows[ITERATION as usize] = [kind, BODY, b, c];
        self.tree.rows[NEXT_ITERATION as usize] = [kind, BODY, b, c + 1];
        self.tree.rows[ITERATION_INSTANCE as usize] = [LITERAL, 1, ON_N, -c];
    }

    pub fn set_row(&mut self, number: i32, row: Row) {
        self.tree.rows[number as usize] = row;
    }

    /// Gives the node at the path's end its rule on with other to by.
    pub fn end(&mut self, fields: [i32; 6]) {
        self.tree.nodes[self.at].fields[1..].copy_from_slice(&fields);
    }

    /// Children of the node at the path's end, closed by false.
    pub fn closed_children(&mut self, count: usize) {
        for _ in 0..count {
            self.tree.nodes.push(closed(self.at as i32, vec![CONTRADICTION]));
        }
    }
}

/// A leaf closed by false.
pub fn closed(up: i32, set: Vec<i32>) -> TreeNode {
    TreeNode { fields: [up, 5, CONTRADICTION, -1, -1, -1, 0], set }
}
