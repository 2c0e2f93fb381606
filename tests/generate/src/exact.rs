//! Links to an exact ancestor, whose L is its H. All else is right up to the first node that 14 is given
//! for: the link itself, or a split at an exact node before it.

use super::bounds::bounds;
use super::cases::Aim;
use super::path::{closed, Path};
use super::rng::Rng;
use super::sharp::{closed_tree, insert_member};
use super::tables::{Tables, Tree, TreeNode};

/// What such a case may be, and whether 14 then comes at the link, and at an earlier node.
pub const KINDS: [(&str, bool, bool); 16] = [
    (ANY, true, true),
    (TO_PARENT, true, true),
    (TO_GRANDPARENT, true, true),
    (TO_FURTHER, true, true),
    (LEAF_SAME, true, true),
    (LEAF_ABOVE, false, true),
    (BY_ONE, true, true),
    (BY_MORE, true, true),
    (UNDER, true, true),
    (NOT_UNDER, false, true),
    (NO_SPLIT, true, false),
    (SPLIT_AT, false, true),
    (SPLIT_BETWEEN, false, true),
    (SPLIT_ABOVE, false, true),
    (SPLIT_ELSEWHERE, false, true),
    (WRONG_AFTER, true, true),
];

pub const ANY: &str = "any";
const TO_PARENT: &str = "to the parent";
const TO_GRANDPARENT: &str = "to the grandparent";
const TO_FURTHER: &str = "to a further ancestor";
const LEAF_SAME: &str = "leaf with the ancestor's L";
const LEAF_ABOVE: &str = "leaf with a larger L";
const BY_ONE: &str = "by 1";
const BY_MORE: &str = "by 2 or more";
const UNDER: &str = "L - by under the ancestor's L";
const NOT_UNDER: &str = "L - by not under it";
const NO_SPLIT: &str = "no wrong split before the link";
const SPLIT_AT: &str = "wrong split at the ancestor";
const SPLIT_BETWEEN: &str = "wrong split between the two";
const SPLIT_ABOVE: &str = "wrong split above the ancestor";
const SPLIT_ELSEWHERE: &str = "wrong split elsewhere before";
const WRONG_AFTER: &str = "wrong rows after the link";

/// A tableau with a link to an exact ancestor.
pub fn exact_tables(rng: &mut Rng) -> (Tables, Aim) {
    let grown = if rng.chance(40) { in_grown(rng) } else { None };
    let mut tree = grown.unwrap_or_else(|| along_a_path(rng));
    if rng.chance(50) {
        tree.renumber_nodes(rng);
    }
    let (link, mut kinds, place) = look(&tree);
    if rng.chance(40) {
        for _ in 0..1 + rng.below(3) {
            wrong_row_after(&mut tree, rng, link);
        }
        kinds.push(WRONG_AFTER);
    }
    let aim = Aim { kinds, node: link as i32, expected: Some((14, place as i32)), present: None };
    (tree.mostly_once(rng).tables(), aim)
}

/// The link, what it is like, and the node that 14 is given for.
fn look(tree: &Tree) -> (usize, Vec<&'static str>, usize) {
    let bounds = bounds(tree);
    let to = |node: usize| tree.nodes[node].fields[5] as usize;
    let is_link = |node: &usize| tree.nodes[*node].fields[1] == 8 && bounds[to(*node)].is_exact();
    let link = (0..tree.nodes.len()).find(is_link).unwrap_or(0);
    let above = |node: usize| -> Vec<usize> {
        let up = |node: &usize| usize::try_from(tree.nodes[*node].fields[0]).ok();
        std::iter::successors(up(&node), up).collect()
    };
    let (target, by) = (to(link), tree.nodes[link].fields[6]);
    let (least, target_least) = (bounds[link].least, bounds[target].least);
    let between: Vec<usize> = above(link).into_iter().take_while(|node| *node != target).collect();
    let mut kinds = vec![
        ANY,
        match between.len() {
            0 => TO_PARENT,
            1 => TO_GRANDPARENT,
            _ => TO_FURTHER,
        },
        if least > target_least { LEAF_ABOVE } else { LEAF_SAME },
        if by == 1 { BY_ONE } else { BY_MORE },
        if i64::from(least) - i64::from(by) < i64::from(target_least) { UNDER } else { NOT_UNDER },
    ];
    let is_wrong = |node: &usize| tree.nodes[*node].fields[1] == 2 && !bounds[*node].may_split();
    let splits: Vec<usize> = (0..link).filter(is_wrong).collect();
    let higher = above(target);
    let of_split = |split: &usize| match split {
        split if *split == target => SPLIT_AT,
        split if between.contains(split) => SPLIT_BETWEEN,
        split if higher.contains(split) => SPLIT_ABOVE,
        _ => SPLIT_ELSEWHERE,
    };
    kinds.extend(splits.iter().map(of_split));
    if splits.is_empty() {
        kinds.push(NO_SPLIT);
    }
    kinds.sort_unstable();
    kinds.dedup();
    (link, kinds, splits.first().copied().unwrap_or(link))
}

/// Down to an exact node, from there to the leaf, and the link; other branches are closed by false.
fn along_a_path(rng: &mut Rng) -> Tree {
    let least = if rng.chance(80) { rng.range(0, 5) } else { rng.range(0, 9900) };
    let mut path = Path::new(rng, least);
    if rng.chance(70) {
        path.drop_rows_on_n();
    }
    for _ in 0..rng.below(4) {
        step(&mut path, rng);
    }
    if rng.chance(30) {
        close_split(&mut path, rng);
    }
    path.split(0, 0);
    for _ in 0..rng.pick(&[0, 0, 1, 2]) {
        if rng.chance(30) {
            wrong_split(&mut path, rng, 0);
        } else {
            path.step(rng);
        }
    }
    let target = path.at;
    let distance = rng.pick(&[1, 1, 2, 2, 3, 4, 7]);
    // Which of the steps are splits: none, the first, or some.
    let often = rng.pick(&[0, 0, 0, 30, 60]);
    let first = rng.chance(25);
    for step in 0..distance {
        if (first && step == 0) || rng.chance(often) {
            let child = rng.pick(&[0, 1, 1]);
            wrong_split(&mut path, rng, child);
        } else {
            path.step(rng);
        }
    }
    let rise = path.bound.least - bounds(&path.tree)[target].least;
    let by = rng.pick(&[1, 1, 1, rise.max(1), rise.saturating_add(1).max(1), 2, 3, 9999, i32::MAX]);
    path.end([8, -1, -1, -1, target as i32, by]);
    path.tree
}

/// A split at an exact node, or below one, whatever its K; its first child has its bound if K is L.
fn wrong_split(path: &mut Path, rng: &mut Rng, child: usize) {
    let by = if child == 0 { 0 } else { rng.pick(&[0, 0, 0, path.bound.least + 1, 9998]) };
    path.split(by, child);
}

fn step(path: &mut Path, rng: &mut Rng) {
    if path.bound.is_open() && rng.chance(50) {
        path.split(0, 1);
    } else {
        path.step(rng);
    }
}

/// Goes by a split whose exact child has a split of its own.
fn close_split(path: &mut Path, rng: &mut Rng) {
    path.split(0, 1);
    let exact = path.at - 1;
    path.tree.nodes[exact].fields[1..].copy_from_slice(&[2, -1, -1, -1, -1, 0]);
    for _ in 0..2 {
        path.tree.nodes.push(closed(exact as i32, path.set.clone()));
    }
    if rng.chance(50) {
        step(path, rng);
    }
}

/// A closed exact leaf of a grown tableau as a link, or as a split with a link below it.
fn in_grown(rng: &mut Rng) -> Option<Tree> {
    let mut tree = closed_tree(rng);
    let bounds = bounds(&tree);
    let leaves: Vec<usize> = (0..tree.nodes.len())
        .filter(|node| [5, 6, 7].contains(&tree.nodes[*node].fields[1]) && bounds[*node].is_exact())
        .collect();
    if leaves.is_empty() {
        return None;
    }
    let leaf = rng.pick(&leaves);
    let mut exact = Vec::new();
    let mut at = usize::try_from(tree.nodes[leaf].fields[0]).ok();
    while let Some(up) = at.filter(|up| bounds[*up].is_exact()) {
        exact.push(up);
        at = usize::try_from(tree.nodes[up].fields[0]).ok();
    }
    let by = rng.pick(&[1, 1, 2, 3, i32::MAX]);
    if exact.is_empty() || rng.chance(50) {
        exact.insert(0, leaf);
        let copy = TreeNode { fields: tree.nodes[leaf].fields, set: tree.nodes[leaf].set.clone() };
        tree.nodes[leaf].fields[1..].copy_from_slice(&[2, -1, -1, -1, -1, 0]);
        let mut link = copy.clone();
        link.fields[1..].copy_from_slice(&[8, -1, -1, -1, rng.pick(&exact) as i32, by]);
        let mut children = [copy, link];
        if rng.chance(25) {
            children.swap(0, 1);
        }
        for mut child in children {
            child.fields[0] = leaf as i32;
            tree.nodes.push(child);
        }
    } else {
        tree.nodes[leaf].fields[1..].copy_from_slice(&[8, -1, -1, -1, rng.pick(&exact) as i32, by]);
    }
    Some(tree)
}

/// One fault of 11 to 17 at a node after the link, a new one if there is none.
pub fn wrong_row_after(tree: &mut Tree, rng: &mut Rng, link: usize) {
    if link + 1 == tree.nodes.len() || rng.chance(20) {
        let up = link + rng.below(tree.nodes.len() - link);
        tree.nodes.push(TreeNode { fields: [up as i32, 8, -1, -1, -1, link as i32, 1], set: Vec::new() });
        return;
    }
    let at = link + 1 + rng.below(tree.nodes.len() - link - 1);
    let root = tree.root;
    let node = &mut tree.nodes[at];
    match rng.below(6) {
        0 => node.fields[1] = rng.pick(&[-1, 9, i32::MIN]),
        1 => node.fields[2 + rng.below(5)] = rng.pick(&[0, -2, i32::MAX]),
        2 => insert_member(node, root),
        3 => node.set.clear(),
        4 => node.fields[1..].copy_from_slice(&[2, -1, -1, -1, -1, 0]),
        _ => {
            let up = node.fields[0];
            node.fields[1..].copy_from_slice(&[8, -1, -1, -1, up, 1]);
        }
    }
}
