//! Links to any node before: to siblings and cousins, at every edge of both bounds, and to what is no such
//! node. Each case is right but for what its kind says.

use super::bounds::{bounds, Bound};
use super::cases::{Aim, Case, Input, ACROSS};
use super::exact::wrong_row_after;
use super::path::{Path, Place};
use super::prover::grow_across;
use super::ranges::{aim, between, some_k, walk, Shape};
use super::rng::Rng;
use super::schemata::{false_schema, Schema};
use super::tables::{Tables, Tree};
use zorambi_reference::formula::Formulas;

/// Where an accepted link goes.
const TO_SIBLING: &str = "to a sibling";
const TO_COUSIN: &str = "to a cousin";
const TO_PARENT_SIBLING: &str = "to a sibling of an ancestor";
const TO_SIBLING_BRANCH: &str = "to a node below a sibling";
const TO_SECOND: &str = "from a first branch into a second";
const TO_FIRST: &str = "from a second branch into a first";
const TO_INNER: &str = "to a node with children, a part shared";
const TO_CLOSED: &str = "to a closed leaf";
const TO_LINK: &str = "to a link";
const TO_ONE_BEFORE: &str = "to the node before it";
const TWO_LINKS: &str = "two branches to a third's node";
const EACH_OTHER: &str = "two branches, each into the other";

const GROWN: &str = "grown, links across branches";
const GROWN_SHARED: &str = "grown, a part shared";
const GROWN_OPEN: &str = "grown, open to open across";
const GROWN_EXACT: &str = "grown, L = H to L = H across";
const GROWN_RANGE: &str = "grown, to a range across";
const GROWN_BOUNDED: &str = "grown, bounded to open across";
const GROWN_TARGET: &str = "grown, to no node before";
const GROWN_LOW: &str = "grown, L - by below its L";
const GROWN_HIGH: &str = "grown, H - by above its H";
const GROWN_OPEN_LEAF: &str = "grown, open to bounded";
const GROWN_ROW: &str = "grown, a row missing";

const EDGE: &str = "edges, n - by inside";
const EDGE_OUTSIDE: &str = "edges, n - by outside";
const EDGE_BEFORE: &str = "edges, to a node before";
const EDGE_NOT_BEFORE: &str = "edges, to no node before";

/// Kinds that are not made by one of the rows below.
const OTHERS: [(&str, u8); 27] = [
    (TO_SIBLING, 0),
    (TO_COUSIN, 0),
    (TO_PARENT_SIBLING, 0),
    (TO_SIBLING_BRANCH, 0),
    (TO_SECOND, 0),
    (TO_FIRST, 0),
    (TO_INNER, 0),
    (TO_CLOSED, 0),
    (TO_LINK, 0),
    (TO_ONE_BEFORE, 0),
    (TWO_LINKS, 0),
    (EACH_OTHER, 0),
    (GROWN, 0),
    (GROWN_SHARED, 0),
    (GROWN_OPEN, 0),
    (GROWN_EXACT, 0),
    (GROWN_RANGE, 0),
    (GROWN_BOUNDED, 0),
    (GROWN_TARGET, 13),
    (GROWN_LOW, 14),
    (GROWN_HIGH, 14),
    (GROWN_OPEN_LEAF, 14),
    (GROWN_ROW, 16),
    (EDGE, 0),
    (EDGE_OUTSIDE, 14),
    (EDGE_BEFORE, 0),
    (EDGE_NOT_BEFORE, 13),
];

/// Every kind with what it comes to: 0, or a refusal at the link.
pub fn kinds() -> impl Iterator<Item = (&'static str, u8)> {
    let made = FORKS.iter().map(|kind| (kind.name, kind.answer));
    made.chain(SIBLINGS.iter().map(|kind| (kind.name, kind.answer))).chain(OTHERS)
}

/// A case of any kind but the edges.
pub fn across_tables(rng: &mut Rng) -> (Tables, Aim) {
    let (way, fork, pair) = (rng.below(20), rng.below(FORKS.len()), rng.below(SIBLINGS.len()));
    loop {
        let made = match way {
            0..=12 => forked(rng, &FORKS[fork]),
            13..=15 => sibling(rng, &SIBLINGS[pair]),
            _ => in_grown(rng),
        };
        if let Some((tree, aim)) = made {
            return (tree.mostly_once(rng).tables(), aim);
        }
    }
}

// ---------------------------------------------------------------------------------------------
// Two branches, by a split or by an or; the target in one, the link in the other

/// Where an end of the leaf's bound, lowered, lies in the target's bound.
#[derive(Clone, Copy, PartialEq, Eq)]
enum End {
    At,
    Inside,
    /// One outside, or more.
    Outside,
    Any,
}
use End::{Any, At, Inside, Outside};

/// What is wrong besides, or instead.
#[derive(Clone, Copy, PartialEq, Eq)]
enum Fault {
    None,
    /// The target comes after the link.
    Later,
    Itself,
    /// `to` is -1, another negative number, the number of nodes or more.
    MinusOne,
    Negative,
    PastLast,
    /// A number to lower by that leaves every bound.
    Far,
    /// The leaf lacks a row that the target has.
    Row,
    LaterAndRow,
    LaterAndBy,
    LaterAndMember,
    /// A row on n stands there as it is, not lowered; the leaf of `RowOnN` has it lowered.
    NotLowered,
    RowOnN,
}

struct ForkKind {
    name: &'static str,
    answer: u8,
    /// From the leaf's bound to the target's; how L - by and H - by lie.
    leaf: Shape,
    target: Shape,
    low: End,
    high: End,
    fault: Fault,
}

const fn right(name: &'static str, leaf: Shape, target: Shape, low: End, high: End) -> ForkKind {
    ForkKind { name, answer: 0, leaf, target, low, high, fault: Fault::None }
}

const fn bound(name: &'static str, leaf: Shape, target: Shape, low: End, high: End) -> ForkKind {
    ForkKind { name, answer: 14, leaf, target, low, high, fault: Fault::None }
}

/// The bounds are right, but for `answer` 14 or an `End` that is not.
const fn faulty(name: &'static str, answer: u8, [leaf, target]: [Shape; 2], low: End, fault: Fault) -> ForkKind {
    ForkKind { name, answer, leaf, target, low, high: Any, fault }
}

const OPEN: [Shape; 2] = [Shape::Open, Shape::Open];
const BOUNDED: [Shape; 2] = [Shape::Range, Shape::Range];
const ONE: [Shape; 2] = [Shape::Exact, Shape::Exact];

const FORKS: [ForkKind; 47] = [
    right("open to open, L - by = its L", Shape::Open, Shape::Open, At, Any),
    right("open to open, L - by above its L", Shape::Open, Shape::Open, Inside, Any),
    right("range to open, L - by = its L", Shape::Range, Shape::Open, At, Any),
    right("range to open, L - by above its L", Shape::Range, Shape::Open, Inside, Any),
    right("L = H to open, L - by = its L", Shape::Exact, Shape::Open, At, Any),
    right("range to range, both ends", Shape::Range, Shape::Range, At, At),
    right("range to range, H - by = its H", Shape::Range, Shape::Range, Inside, At),
    right("range to range, L - by = its L", Shape::Range, Shape::Range, At, Inside),
    right("range to range, inside", Shape::Range, Shape::Range, Inside, Inside),
    right("L = H to L = H", Shape::Exact, Shape::Exact, At, At),
    right("L = H to range, at its L", Shape::Exact, Shape::Range, At, Any),
    right("L = H to range, at its H", Shape::Exact, Shape::Range, Any, At),
    right("L = H to range, inside", Shape::Exact, Shape::Range, Inside, Inside),
    bound("open to open, L - by below its L", Shape::Open, Shape::Open, Outside, Any),
    bound("range to open, L - by below its L", Shape::Range, Shape::Open, Outside, Any),
    bound("L = H to open, L - by below its L", Shape::Exact, Shape::Open, Outside, Any),
    bound("range to range, L - by below its L", Shape::Range, Shape::Range, Outside, At),
    bound("range to range, L - by below its L, H - by inside", Shape::Range, Shape::Range, Outside, Inside),
    bound("range to range, H - by above its H", Shape::Range, Shape::Range, At, Outside),
    bound("range to range, H - by above its H, L - by inside", Shape::Range, Shape::Range, Inside, Outside),
    bound("range to range, both outside", Shape::Range, Shape::Range, Outside, Outside),
    bound("range to L = H, L - by = its L", Shape::Range, Shape::Exact, At, Outside),
    bound("range to L = H, H - by = its H", Shape::Range, Shape::Exact, Outside, At),
    bound("L = H to L = H, below", Shape::Exact, Shape::Exact, Outside, Any),
    bound("L = H to L = H, above", Shape::Exact, Shape::Exact, Any, Outside),
    bound("L = H to range, below its L", Shape::Exact, Shape::Range, Outside, Any),
    bound("L = H to range, above its H", Shape::Exact, Shape::Range, Any, Outside),
    bound("open to range, L - by = its L", Shape::Open, Shape::Range, At, Any),
    bound("open to range, L - by above its L", Shape::Open, Shape::Range, Inside, Any),
    bound("open to L = H, L - by = its L", Shape::Open, Shape::Exact, At, Any),
    faulty("by a number beyond all bounds", 14, OPEN, At, Fault::Far),
    faulty("range to range, by a number beyond all bounds", 14, BOUNDED, At, Fault::Far),
    faulty("to a later node", 13, OPEN, At, Fault::Later),
    faulty("to a later node, L = H to L = H", 13, ONE, At, Fault::Later),
    faulty("to itself", 13, OPEN, At, Fault::Itself),
    faulty("to -1", 13, OPEN, At, Fault::MinusOne),
    faulty("to a negative number", 13, BOUNDED, At, Fault::Negative),
    faulty("to a number past the last node", 13, OPEN, At, Fault::PastLast),
    faulty("to a later node, L - by below its L", 13, OPEN, Outside, Fault::Later),
    faulty("to a later node, range to range, L - by below its L", 13, BOUNDED, Outside, Fault::Later),
    faulty("to a later node, a row missing", 13, OPEN, At, Fault::LaterAndRow),
    faulty("to a later node, by 0 or less", 12, OPEN, At, Fault::LaterAndBy),
    faulty("to a later node, a row that the parent lacks", 11, OPEN, At, Fault::LaterAndMember),
    faulty("a row missing, L - by below its L", 14, OPEN, Outside, Fault::Row),
    faulty("a row missing", 16, OPEN, At, Fault::Row),
    faulty("a row on n not lowered", 16, OPEN, At, Fault::NotLowered),
    faulty("a row on n lowered", 0, OPEN, At, Fault::RowOnN),
];

fn forked(rng: &mut Rng, kind: &ForkKind) -> Option<(Tree, Aim)> {
    let on_n = [Fault::RowOnN, Fault::NotLowered].contains(&kind.fault);
    let open = [kind.leaf, kind.target].iter().any(|shape| matches!(shape, Shape::Open));
    let start = if open { Shape::Open } else { rng.pick(&[Shape::Open, Shape::Range]) };
    let mut path = walk(rng, start)?;
    path.gather(on_n);
    let top = path.place();
    let split = (rng.chance(50) && path.bound.may_split()).then(|| {
        let k = some_k(path.bound, rng);
        path.bound.by(k, rng)
    });
    let places = path.fork(split);
    let [target_place, leaf_place] = if rng.chance(50) { [0, 1] } else { [1, 0] }.map(|side| &places[side]);
    let into = some_bound(rng, target_place.bound, kind.target)?;
    let (from, by) = leaf_bound(rng, kind, into, leaf_place.bound)?;
    let is_later = matches!(kind.fault, Fault::Later | Fault::LaterAndRow | Fault::LaterAndBy | Fault::LaterAndMember);

    let (mut leaf, mut target, mut each_other) = (0, 0, false);
    for of_target in if is_later { [false, true] } else { [true, false] } {
        if of_target {
            path.go_to(target_place);
            narrow(&mut path, rng, into, !on_n);
            target = path.at;
            each_other = !on_n && fill_target(&mut path, rng, &top, split.is_none().then_some(leaf_place));
        } else {
            path.go_to(leaf_place);
            narrow(&mut path, rng, from, !on_n);
            if kind.fault == Fault::RowOnN {
                path.unfold_all();
            }
            leaf = path.at;
            if rng.chance(15) && kind.answer == 0 && !on_n && path.bound == from {
                // Two leaves like it, below an or.
                let [first, second] = path.fork(None).map(|place| place.at);
                leaf = second;
                path.tree.nodes[first].fields[1..].copy_from_slice(&[8, -1, -1, -1, target as i32, by]);
            }
        }
    }
    if target > leaf && !is_later && leaf == places[1].at && !each_other {
        // A leaf that is the second branch by itself may come after all of the first.
        let [new_target, new_leaf] = last_of_all(&mut path.tree, leaf, target);
        (target, leaf) = (new_target, new_leaf);
    }
    if (target < leaf) == is_later {
        return None;
    }
    let count = path.tree.nodes.len() as i32;
    let row = rng.pick(&path.tree.nodes[target].set);
    let root = path.tree.root;
    let node = &mut path.tree.nodes[leaf];
    node.fields[1..].copy_from_slice(&[8, -1, -1, -1, target as i32, by]);
    match kind.fault {
        Fault::Itself => node.fields[5] = leaf as i32,
        Fault::MinusOne => node.fields[5] = -1,
        Fault::Negative => {
            let target = target as i32;
            node.fields[5] = rng.pick(&[-2, -target - 1, -9999, i32::MIN, i32::MIN + 1, i32::MIN + target]);
        }
        Fault::PastLast => {
            node.fields[5] = rng.pick(&[count, count, count + 1, 1024, 65_536 + target as i32, i32::MAX]);
        }
        Fault::Far => node.fields[6] = rng.pick(&[from.least + 1, 10_000, 99_999, i32::MAX - 1, i32::MAX]),
        Fault::Row | Fault::LaterAndRow => node.set.retain(|member| *member != row),
        Fault::LaterAndBy => node.fields[6] = rng.pick(&[0, 0, -1, -by, i32::MIN]),
        Fault::LaterAndMember => node.set.push(root),
        _ => {}
    }
    let mut tree = path.tree;
    let leaf = if rng.chance(50) { tree.renumber_nodes(rng)[leaf] as usize } else { leaf };
    let mut aim = aim(kind.name, kind.answer, leaf as i32);
    if kind.answer == 0 {
        aim.kinds.extend(positions(&tree, leaf));
        aim.kinds.extend(each_other.then_some(EACH_OTHER));
    } else if rng.chance(30) {
        for _ in 0..1 + rng.below(3) {
            wrong_row_after(&mut tree, rng, leaf);
        }
    }
    Some((tree, aim))
}

/// Makes a leaf the last node, and gives the new numbers of a node and of the leaf.
fn last_of_all(tree: &mut Tree, leaf: usize, node: usize) -> [usize; 2] {
    let order: Vec<usize> = (0..tree.nodes.len()).filter(|other| *other != leaf).chain([leaf]).collect();
    let new = tree.put_in_order(&order);
    [node, leaf].map(|number| new[number] as usize)
}

/// A bound of this shape within another, often as large as can be.
fn some_bound(rng: &mut Rng, within: Bound, shape: Shape) -> Option<Bound> {
    let last = within.most.unwrap_or(9998);
    let least = if rng.chance(50) { within.least } else { within.least + rng.pick(&[0, 1, 1, 2, 3, 7, 40]) };
    let most = match shape {
        Shape::Open => within.most.is_none().then_some(None)?,
        Shape::Exact => Some(least),
        _ if within.most.is_some() && rng.chance(50) => within.most,
        _ => Some(between(rng, least + 1, last)?),
    };
    let bound = Bound { least, most };
    let fits = !matches!(shape, Shape::Range) || bound.is_range();
    (fits && within.covers(bound) && most.is_none_or(|most| most <= 9998) && least <= 9999).then_some(bound)
}

/// The leaf's bound within another, and by how much it lowers n, as the kind has it.
fn leaf_bound(rng: &mut Rng, kind: &ForkKind, into: Bound, within: Bound) -> Option<(Bound, i32)> {
    let outside = rng.pick(&[1, 1, 1, 2, 5]);
    let inside = |rng: &mut Rng| rng.pick(&[1, 1, 2, 5, 30]);
    let low = match kind.low {
        At => 0,
        Inside => inside(rng),
        Outside => -outside,
        Any => rng.range(0, 9),
    };
    let high = match kind.high {
        At => 0,
        Inside => -inside(rng),
        Outside => outside,
        Any => -rng.range(0, 9),
    };
    // The least number that reaches the other branch, and some above it.
    let reach = (within.least - into.least - low).max(1);
    let further = reach + rng.range(0, 20);
    let by = if kind.fault == Fault::RowOnN { 1 } else { rng.pick(&[1, 2, reach, reach, reach, reach + 1, further]) };
    let least = into.least + low + by;
    let most = into.most.map(|most| most + high + by);
    let from = match kind.leaf {
        Shape::Open => Bound::from(least),
        Shape::Exact if kind.low == Any => Bound { least: most?, most },
        Shape::Exact => Bound { least, most: Some(least) },
        _ => Bound { least, most: Some(most.unwrap_or(least + rng.range(1, 9))) },
    };
    let fits = match kind.leaf {
        Shape::Range => from.is_range(),
        _ => true,
    };
    let in_order = kind.answer != 0 || into.covers(from.lowered(by));
    let ends = from.least <= 9999 && from.most.is_none_or(|most| most <= 9998);
    (fits && in_order && ends && within.covers(from) && from.least >= 0).then_some((from, by))
}

/// Down to a bound within that of the path's end, by splits and steps.
fn narrow(path: &mut Path, rng: &mut Rng, wanted: Bound, may_step: bool) {
    let low_first = rng.chance(50);
    for low in [low_first, !low_first] {
        if may_step && rng.chance(25) {
            path.step(rng);
        }
        if low && path.bound.least < wanted.least {
            path.split(path.bound.by(wanted.least - 1, rng), 1);
        } else if let Some(most) = wanted.most.filter(|_| !low && path.bound.most != wanted.most) {
            path.split(path.bound.by(most, rng), 0);
        }
    }
}

/// The target as a leaf closed by false, as a link to what is above both branches, with children, or with a
/// link below it into the other branch, which is told. That one has the bound of what is above, if it is given.
fn fill_target(path: &mut Path, rng: &mut Rng, top: &Place, other: Option<&Place>) -> bool {
    let rise = path.bound.least - top.bound.least;
    match (rng.below(5), other) {
        (0, _) => {}
        (1, _) if rise > 0 => path.end([8, -1, -1, -1, top.at as i32, rise]),
        (2, Some(other)) if rise > 0 => {
            path.gather(false);
            path.end([8, -1, -1, -1, other.at as i32, rise]);
            return true;
        }
        (3, _) if path.bound.may_split() => {
            let k = some_k(path.bound, rng);
            path.split(path.bound.by(k, rng), 0);
        }
        _ => {
            path.fork(None);
        }
    }
    false
}

// ---------------------------------------------------------------------------------------------
// From one child of a node to the other

struct SiblingKind {
    name: &'static str,
    answer: u8,
    /// The bound of the two's parent.
    shape: Shape,
    /// K and by. `None` where the bound has no room for it.
    numbers: fn(Bound, &mut Rng) -> Option<(i32, i32)>,
}

const fn of_two(
    name: &'static str,
    answer: u8,
    shape: Shape,
    numbers: fn(Bound, &mut Rng) -> Option<(i32, i32)>,
) -> SiblingKind {
    SiblingKind { name, answer, shape, numbers }
}

/// The second child of a split, from K + 1 up, links to the first, up to K.
const SIBLINGS: [SiblingKind; 6] = [
    of_two("sibling, both ends", 0, Shape::Range, |bound, _| {
        // L to K and K + 1 to H have as many values.
        let (least, most) = (bound.least, bound.most?);
        let k = (least + most) / 2;
        ((most - least) % 2 == 1).then_some((k, k + 1 - least))
    }),
    of_two("sibling, H - by = its H", 0, Shape::Range, |bound, rng| {
        let most = bound.most?;
        let k = between(rng, (bound.least + most) / 2, most - 1)?;
        Some((k, most - k))
    }),
    of_two("sibling, H - by one above its H", 14, Shape::Range, |bound, rng| {
        let most = bound.most?;
        let k = between(rng, (bound.least + most) / 2, most - 2)?;
        Some((k, most - k - 1))
    }),
    of_two("sibling, L - by one below its L", 14, Shape::Range, |bound, rng| {
        let most = bound.most?;
        let k = between(rng, (bound.least + most) / 2, most - 1)?;
        Some((k, k + 2 - bound.least))
    }),
    of_two("sibling, open to bounded", 14, Shape::Open, |bound, rng| {
        let k = between(rng, bound.least, bound.last_split())?;
        Some((k, between(rng, 1, k + 1 - bound.least)?))
    }),
    of_two("sibling of an or", 14, Shape::Divisible, |_, rng| Some((-1, rng.pick(&[1, 1, 2, 9, i32::MAX])))),
];

fn sibling(rng: &mut Rng, kind: &SiblingKind) -> Option<(Tree, Aim)> {
    let mut path = walk(rng, kind.shape)?;
    path.gather(false);
    let (k, by) = (kind.numbers)(path.bound, rng)?;
    let split = (k >= 0).then(|| path.bound.by(k, rng));
    let places = path.fork(split);
    let leaf = places[1].at;
    path.go_to(&places[0]);
    if rng.chance(30) {
        // Not the sibling itself but one below it.
        path.gather(false);
    }
    let target = path.at;
    if rng.chance(50) {
        path.fork(None);
    }
    let mut tree = path.tree;
    let [target, leaf] = last_of_all(&mut tree, leaf, target);
    tree.nodes[leaf].fields[1..].copy_from_slice(&[8, -1, -1, -1, target as i32, by]);
    let leaf = if rng.chance(50) { tree.renumber_nodes(rng)[leaf] as usize } else { leaf };
    let mut aim = aim(kind.name, kind.answer, leaf as i32);
    if kind.answer == 0 {
        aim.kinds.extend(positions(&tree, leaf));
    }
    Some((tree, aim))
}

// ---------------------------------------------------------------------------------------------
// What a link is like

/// All above a node, the nearest first.
fn above(tree: &Tree, node: usize) -> Vec<usize> {
    let up = |node: &usize| usize::try_from(tree.nodes[*node].fields[0]).ok();
    std::iter::successors(up(&node), up).collect()
}

/// The target, if it lies in another branch.
fn across(tree: &Tree, link: usize) -> Option<usize> {
    let [_, 8, _, _, _, to, _] = tree.nodes[link].fields else { return None };
    usize::try_from(to).ok().filter(|to| *to < link && !above(tree, link).contains(to))
}

/// Where a link goes that lies in another branch than its target.
fn positions(tree: &Tree, link: usize) -> Vec<&'static str> {
    let Some(target) = across(tree, link) else { return Vec::new() };
    let ([from_up, ..], [to_up, to_rule, ..]) = (tree.nodes[link].fields, tree.nodes[target].fields);
    let (over_link, over_target) = (above(tree, link), above(tree, target));
    // The two branches below the lowest node above both.
    let branch = |node: usize, over: &[usize], others: &[usize]| {
        over.iter().copied().take_while(|above| !others.contains(above)).last().unwrap_or(node)
    };
    let branch_of_link = branch(link, &over_link, &over_target);
    let branch_of_target = branch(target, &over_target, &over_link);
    let is_target = |node: &usize| across(tree, *node) == Some(target);
    let links = (0..tree.nodes.len()).filter(is_target).count();
    let mut found = vec![
        match (link == branch_of_link, target == branch_of_target) {
            (true, true) => TO_SIBLING,
            (true, false) => TO_SIBLING_BRANCH,
            (false, true) => TO_PARENT_SIBLING,
            (false, false) => TO_COUSIN,
        },
        if branch_of_target < branch_of_link { TO_FIRST } else { TO_SECOND },
        match to_rule {
            0..=4 => TO_INNER,
            8 => TO_LINK,
            _ => TO_CLOSED,
        },
    ];
    debug_assert_eq!(from_up == to_up, found[0] == TO_SIBLING);
    found.extend((target + 1 == link).then_some(TO_ONE_BEFORE));
    found.extend((links > 1).then_some(TWO_LINKS));
    found
}

// ---------------------------------------------------------------------------------------------
// In grown tableaux

/// A schema that is false from its least value on; mostly an or of one and of that one lowered, whose second
/// branch the first one's nodes refute.
pub fn schema_of_two(rng: &mut Rng) -> Option<Schema> {
    let mut schema = false_schema(rng);
    if rng.chance(70) {
        let by = rng.pick(&[1, 1, 1, 2]);
        let lowered = schema.pool.lowered(schema.root, by)?;
        let sides = [schema.root, lowered];
        let first = usize::from(rng.chance(30));
        schema.root = schema.pool.or(sides[first], sides[1 - first])?;
        schema.least = Some(schema.least + by).filter(|least| *least <= 9999)?;
    }
    Some(schema)
}

fn in_grown(rng: &mut Rng) -> Option<(Tree, Aim)> {
    let grown = grow_across(&schema_of_two(rng)?, rng);
    if !grown.closed || grown.tree.nodes.len() > 300 {
        return None;
    }
    let tree = grown.tree;
    let links: Vec<usize> = (0..tree.nodes.len()).filter(|node| across(&tree, *node).is_some()).collect();
    if links.is_empty() {
        return None;
    }
    let bounds = bounds(&tree);
    if rng.chance(50) {
        let mut aim = aim(GROWN, 0, 0);
        for link in links {
            aim.kinds.extend(features(&tree, &bounds, link));
        }
        aim.kinds.sort_unstable();
        aim.kinds.dedup();
        return Some((tree, aim));
    }
    let mut faults = [GROWN_TARGET, GROWN_LOW, GROWN_HIGH, GROWN_OPEN_LEAF, GROWN_ROW];
    rng.shuffle(&mut faults);
    if rng.chance(30) {
        // The one that has room least often.
        faults[0] = GROWN_HIGH;
    }
    let mut links = links;
    rng.shuffle(&mut links);
    for fault in faults {
        for link in &links {
            let mut tree = tree.clone();
            if let Some(answer) = spoil(&mut tree, &bounds, *link, fault, rng) {
                return Some((tree, aim(fault, answer, *link as i32)));
            }
        }
    }
    None
}

/// Makes a link that goes to another branch wrong, and gives its refusal; `None` if there is no room for it.
fn spoil(tree: &mut Tree, bounds: &[Bound], link: usize, fault: &str, rng: &mut Rng) -> Option<u8> {
    let target = across(tree, link)?;
    let count = tree.nodes.len() as i32;
    let (from, into) = (bounds[link], bounds[target]);
    let node = &mut tree.nodes[link];
    match fault {
        GROWN_TARGET => {
            let later = rng.range(link as i32, count - 1);
            node.fields[5] = rng.pick(&[link as i32, later, later, count, -1, i32::MIN, i32::MAX]);
            Some(13)
        }
        GROWN_LOW => {
            node.fields[6] = from.least - into.least + rng.pick(&[1, 1, 2, 9999]);
            Some(14)
        }
        GROWN_HIGH => {
            // To a bounded node before it, by enough for L and by too little for H.
            let most = from.most?;
            let room = |into: Bound| Some((most - into.most? - 1).min(from.least - into.least)).filter(|by| *by >= 1);
            let others: Vec<usize> = (0..link).filter(|node| room(bounds[*node]).is_some()).collect();
            let to = *others.get(rng.below(others.len()))?;
            node.fields[5] = to as i32;
            node.fields[6] = rng.range(1, room(bounds[to])?);
            Some(14)
        }
        GROWN_OPEN_LEAF => {
            // To a bounded node before it whose L is low enough.
            let is_lower = |node: &usize| !bounds[*node].is_open() && bounds[*node].least < from.least;
            let lower: Vec<usize> = (0..link).filter(|node| from.is_open() && is_lower(node)).collect();
            let to = *lower.get(rng.below(lower.len()))?;
            node.fields[5] = to as i32;
            node.fields[6] = rng.range(1, from.least - bounds[to].least);
            Some(14)
        }
        _ => {
            let row = *node.set.get(rng.below(node.set.len()))?;
            node.set.retain(|member| *member != row);
            let (set, by) = (node.set.clone(), node.fields[6]);
            let formulas = Formulas::new(&tree.rows.concat(), tree.rows.len(), &[], 0)?;
            (!formulas.all_lowered(&tree.nodes[target].set, &set, by)).then_some(16)
        }
    }
}

/// What a link of a grown tableau is like that goes to another branch.
fn features(tree: &Tree, bounds: &[Bound], link: usize) -> Vec<&'static str> {
    let Some(target) = across(tree, link) else { return Vec::new() };
    let (from, into) = (bounds[link], bounds[target]);
    let mut found = vec![match into {
        into if into.is_exact() => GROWN_EXACT,
        into if into.is_range() => GROWN_RANGE,
        _ if from.is_open() => GROWN_OPEN,
        _ => GROWN_BOUNDED,
    }];
    found.extend((tree.nodes[target].fields[1] <= 4).then_some(GROWN_SHARED));
    found
}

// ---------------------------------------------------------------------------------------------
// Every edge

/// Links from and to bounds of every sort, at and next to every edge of `by`; and with every `to`.
pub fn edges() -> Vec<Case> {
    let rng = &mut Rng::new(0);
    let bounds = [(0, 0), (0, 1), (0, 3), (1, 1), (2, 2), (2, 4), (3, 9), (5, 6), (0, -1), (1, -1), (2, -1), (4, -1)];
    let bounds = bounds.map(|(least, most)| Bound { least, most: (most >= 0).then_some(most) });
    let mut cases = Vec::new();
    for into in bounds {
        for from in bounds {
            let low = from.least - into.least;
            let high = from.most.unwrap_or(9) - into.most.unwrap_or(9);
            let mut numbers = vec![1, 2, low - 1, low, low + 1, high - 1, high, high + 1, 9999, i32::MAX];
            numbers.retain(|by| *by >= 1);
            numbers.sort_unstable();
            numbers.dedup();
            for by in numbers {
                cases.push(bound_case(rng, from, into, by));
            }
        }
    }
    let (tree, link) = two_branches(rng, Bound::from(3), Bound::from(1), 2);
    let count = tree.nodes.len() as i32;
    for to in (-2..count + 2).chain([1023, 1024, 65_536, i32::MAX, -9999, i32::MIN, i32::MIN + 1]) {
        cases.extend(number_case(&tree, link, to));
    }
    cases
}

/// An or; in its first branch a node with one bound, in its second a link to that node from another.
fn two_branches(rng: &mut Rng, from: Bound, into: Bound, by: i32) -> (Tree, usize) {
    let mut path = Path::new(rng, 0);
    path.gather(false);
    let [first, second] = path.fork(None);
    path.go_to(&first);
    narrow(&mut path, rng, into, false);
    let target = path.at;
    path.fork(None);
    path.go_to(&second);
    narrow(&mut path, rng, from, false);
    // A node below the second branch has a larger number than all in the first.
    path.gather(false);
    path.end([8, -1, -1, -1, target as i32, by]);
    path.tree.fold_repeats();
    (path.tree, path.at)
}

fn bound_case(rng: &mut Rng, from: Bound, into: Bound, by: i32) -> Case {
    let (tree, link) = two_branches(rng, from, into, by);
    let [least, into_least, by] = [from.least, into.least, by].map(i64::from);
    let low = least - by >= into_least;
    let high = match (from.most, into.most) {
        (_, None) => true,
        (None, Some(_)) => false,
        (Some(most), Some(into_most)) => i64::from(most) - by <= i64::from(into_most),
    };
    let aim = if low && high { aim(EDGE, 0, link as i32) } else { aim(EDGE_OUTSIDE, 14, link as i32) };
    Case { sort: ACROSS, input: Input::Check(tree.tables()), aim: Some(aim) }
}

/// The link with another `to`, if what comes of it is known: all before it may be right or not by bound and
/// rows, but what is not before it is 13.
fn number_case(tree: &Tree, link: usize, to: i32) -> Option<Case> {
    let mut tree = tree.clone();
    let bounds = bounds(&tree);
    tree.nodes[link].fields[5] = to;
    let aim = match usize::try_from(to) {
        Ok(to) if to < link => {
            let [set, target] = [link, to].map(|node| &tree.nodes[node].set);
            let right = bounds[to].covers(bounds[link].lowered(tree.nodes[link].fields[6]));
            let stands = target.iter().all(|row| set.contains(row));
            (right && stands).then(|| aim(EDGE_BEFORE, 0, link as i32))?
        }
        _ => aim(EDGE_NOT_BEFORE, 13, link as i32),
    };
    Some(Case { sort: ACROSS, input: Input::Check(tree.tables()), aim: Some(aim) })
}
