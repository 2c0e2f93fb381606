//! Bounds from both sides: splits at every edge of K, and voids, clashes, unfoldings and links that one
//! of the two bounds decides. Each case is right but for what its kind says.

use super::bounds::{bounds, Bound};
use super::cases::{Aim, Case, Input, RANGES};
use super::exact::wrong_row_after;
use super::path::{Path, ITERATION, ITERATION_INSTANCE, NEGATIVE, NEXT_ITERATION, POSITIVE};
use super::prover::grow_by_ranges;
use super::rng::Rng;
use super::schemata::false_schema;
use super::tables::{Tables, Tree};
use zorambi_reference::formula::{BIG_AND, BIG_OR, LITERAL, NEGATED, ON_I, ON_N, PLAIN};

const GROWN: &str = "grown by ranges";
const GROWN_NESTED: &str = "grown, a range in a range";
const GROWN_VOID: &str = "grown, void at a range";
const GROWN_LINK: &str = "grown, link to a range";
const GROWN_OUTSIDE: &str = "grown, a K outside of its bound";
const GROWN_NEGATIVE: &str = "grown, a split's negative by";
const EDGE: &str = "edges, K inside";
const EDGE_OUTSIDE: &str = "edges, K outside";
const EDGE_NEGATIVE: &str = "edges, negative by";

/// Kinds that do not go along a path.
const OTHERS: [(&str, u8); 9] = [
    (GROWN, 0),
    (GROWN_NESTED, 0),
    (GROWN_VOID, 0),
    (GROWN_LINK, 0),
    (GROWN_OUTSIDE, 14),
    (GROWN_NEGATIVE, 12),
    (EDGE, 0),
    (EDGE_OUTSIDE, 14),
    (EDGE_NEGATIVE, 12),
];

/// Every kind with what it comes to: 0, or a refusal at the node that it is about.
pub fn kinds() -> impl Iterator<Item = (&'static str, u8)> {
    PATHS.iter().map(|kind| (kind.name, kind.answer)).chain(OTHERS)
}

/// A case of any kind but the edges.
pub fn ranges_tables(rng: &mut Rng) -> (Tables, Aim) {
    loop {
        if rng.chance(75) {
            let (tree, aim) = along_a_path(rng);
            return (tree.mostly_once(rng).tables(), aim);
        }
        if let Some((tree, aim)) = in_grown(rng) {
            return (tree.mostly_once(rng).tables(), aim);
        }
    }
}

// ---------------------------------------------------------------------------------------------
// Along a path

/// What is known of n where the path's end begins.
#[derive(Clone, Copy)]
pub enum Shape {
    Open,
    /// An upper bound, and more than one value.
    Range,
    Exact,
    /// Open or a range, with a K at which to split.
    Divisible,
}

/// One kind: its answer at the path's last node, and that end. An end gives `None` where the bound has no
/// room for it.
struct PathKind {
    name: &'static str,
    answer: u8,
    shape: Shape,
    end: fn(&mut Path, &mut Rng) -> Option<()>,
}

const fn kind(name: &'static str, answer: u8, shape: Shape, end: fn(&mut Path, &mut Rng) -> Option<()>) -> PathKind {
    PathKind { name, answer, shape, end }
}

const PATHS: [PathKind; 43] = [
    kind("split, by 0 for L", 0, Shape::Divisible, |path, _| split(path, 0)),
    kind("split, K = L by its name", 0, Shape::Divisible, |path, _| split(path, at_least(1, path.bound.least)?)),
    kind("split, K between", 0, Shape::Divisible, |path, rng| {
        let k = between(rng, path.bound.least + 1, path.bound.last_split() - 1)?;
        split(path, k)
    }),
    kind("split, K = H - 1", 0, Shape::Range, |path, _| split(path, path.bound.last_split())),
    kind("split, K = 9998, open", 0, Shape::Open, |path, _| {
        at_least(path.bound.least, 9998)?;
        split(path, 9998)
    }),
    kind("split, K = L - 1", 14, Shape::Divisible, |path, _| split(path, at_least(1, path.bound.least - 1)?)),
    kind("split, K below L - 1", 14, Shape::Divisible, |path, rng| {
        let k = between(rng, 1, path.bound.least - 2)?;
        split(path, k)
    }),
    kind("split, K = H", 14, Shape::Range, |path, _| split(path, path.bound.most?)),
    kind("split, K above H", 14, Shape::Range, |path, rng| {
        let above = path.bound.most? + 1;
        split(path, rng.pick(&[above, above, above + 1, above.max(9998), 9999, i32::MAX]))
    }),
    kind("split, K = 9999, open", 14, Shape::Open, |path, _| split(path, 9999)),
    kind("split, K above 9999, open", 14, Shape::Open, |path, rng| {
        split(path, rng.pick(&[10_000, 10_001, 99_999, i32::MAX - 1, i32::MAX]))
    }),
    kind("split, by 0 for L = 9999, open", 14, Shape::Open, |path, _| {
        if path.bound.may_split() {
            path.split(9998, 1);
        }
        split(path, 0)
    }),
    kind("split at L = H", 14, Shape::Exact, |path, rng| {
        let least = path.bound.least;
        split(path, rng.pick(&[0, 0, least, least, least + 1, (least - 1).max(0), 9998, i32::MAX]))
    }),
    kind("split, negative by", 12, Shape::Divisible, negative_split),
    kind("split at L = H, negative by", 12, Shape::Exact, negative_split),
    kind("split with a target", 12, Shape::Divisible, |path, rng| {
        let k = some_k(path.bound, rng);
        split(path, path.bound.by(k, rng))?;
        let at = path.at as i32;
        let node = &mut path.tree.nodes[path.at];
        node.fields[5] = rng.pick(&[0, node.fields[0], at, i32::MAX, i32::MIN]);
        Some(())
    }),
    kind("by at a rule without it", 12, Shape::Range, |path, rng| {
        let last = path.at;
        path.step(rng);
        // The node that the step began with, or the closed leaf after it.
        path.at = if rng.chance(70) { last } else { path.at };
        let bound = path.bound;
        path.tree.nodes[path.at].fields[6] = rng.pick(&[1, -1, bound.least + 1, bound.most?, i32::MAX]);
        Some(())
    }),
    kind("ranges in one another", 0, Shape::Range, |path, rng| {
        for _ in 0..3 {
            if !path.bound.is_range() {
                return None;
            }
            let k = some_k(path.bound, rng);
            path.split(path.bound.by(k, rng), rng.below(2));
        }
        Some(())
    }),
    kind("void, H + 1 = b + c", 0, Shape::Range, |path, rng| void(path, rng, path.bound.most? + 1)),
    kind("void, H + 1 < b + c", 0, Shape::Range, |path, rng| {
        let limit = between(rng, path.bound.most? + 2, 10_000)?;
        void(path, rng, limit)
    }),
    kind("void, H + 1 = b + c, L = H", 0, Shape::Exact, |path, rng| void(path, rng, path.bound.most? + 1)),
    kind("void, H = b + c", 14, Shape::Range, |path, rng| void(path, rng, path.bound.most?)),
    kind("void, L < b + c <= H", 14, Shape::Range, |path, rng| {
        let limit = between(rng, path.bound.least + 1, path.bound.most?)?;
        void(path, rng, limit)
    }),
    kind("void, L = b + c = H", 14, Shape::Exact, |path, rng| void(path, rng, path.bound.least)),
    kind("void, no upper bound", 14, Shape::Open, |path, rng| {
        let limit = between(rng, path.bound.least + 1, 10_000)?;
        void(path, rng, limit)
    }),
    kind("clash by value, L = H below K", 0, Shape::Range, |path, rng| {
        path.split(path.bound.by(path.bound.least, rng), 0);
        clash(path, rng, path.bound.least, 0)
    }),
    kind("clash by value, L = H above K", 0, Shape::Range, |path, rng| {
        let k = path.bound.last_split();
        path.split(path.bound.by(k, rng), 1);
        clash(path, rng, path.bound.least, 0)
    }),
    kind("clash by value, L = H, apart by 1", 14, Shape::Exact, |path, rng| {
        let apart = rng.pick(&[-1, 1]);
        clash(path, rng, path.bound.least, apart)
    }),
    kind("clash by value at L, L < H", 14, Shape::Range, |path, rng| clash(path, rng, path.bound.least, 0)),
    kind("clash by value at H, L < H", 14, Shape::Range, |path, rng| clash(path, rng, path.bound.most?, 0)),
    kind("clash by value, no upper bound", 14, Shape::Open, |path, rng| clash(path, rng, path.bound.least, 0)),
    kind("clash of one index, L < H", 0, Shape::Range, |path, rng| {
        let (base, offset) = (rng.pick(&[PLAIN, ON_N]), rng.range(-9999, 9999));
        clash_of(path, [base, offset], [base, offset])
    }),
    kind("unfold, L = b + c, L < H", 0, Shape::Range, |path, rng| unfold(path, rng, path.bound.least)),
    kind("unfold, L < b + c <= H", 14, Shape::Range, |path, rng| {
        let limit = between(rng, path.bound.least + 1, path.bound.most?)?;
        unfold(path, rng, limit)
    }),
    kind("link, range to range, L - by = its L", 0, Shape::Range, |path, rng| link(path, rng, Shape::Range, 0)),
    kind("link, range to range, L - by above its L", 0, Shape::Range, |path, rng| link(path, rng, Shape::Range, 1)),
    kind("link, range to range, L - by below its L", 14, Shape::Range, |path, rng| {
        let by = rng.pick(&[-1, -1, -1, -2, -9998]);
        link(path, rng, Shape::Range, by)
    }),
    kind("link, range to range, one L", 14, Shape::Range, |path, rng| {
        let target = start_of_link(path);
        let k = between(rng, path.bound.least + 1, path.bound.last_split())?;
        path.split(k, 0);
        end_link(path, rng, target, 0, Shape::Range)
    }),
    kind("link, L = H to range, L - by = its L", 0, Shape::Range, |path, rng| link(path, rng, Shape::Exact, 0)),
    kind("link, L = H to range, L - by below its L", 14, Shape::Range, |path, rng| link(path, rng, Shape::Exact, -1)),
    kind("link, range to open, L - by = its L", 0, Shape::Open, |path, rng| link(path, rng, Shape::Range, 0)),
    kind("link, range to open, L - by below its L", 14, Shape::Open, |path, rng| link(path, rng, Shape::Range, -1)),
    kind("link, L = H to open, L - by = its L", 0, Shape::Open, |path, rng| link(path, rng, Shape::Exact, 0)),
];

fn along_a_path(rng: &mut Rng) -> (Tree, Aim) {
    let PathKind { name, answer, shape, end } = &PATHS[rng.below(PATHS.len())];
    let Path { mut tree, at, .. } = loop {
        if let Some(mut path) = walk(rng, *shape) {
            if end(&mut path, rng).is_some() {
                break path;
            }
        }
    };
    let node = if rng.chance(50) { tree.renumber_nodes(rng)[at] } else { at as i32 };
    if *answer > 0 && rng.chance(30) {
        for _ in 0..1 + rng.below(3) {
            wrong_row_after(&mut tree, rng, node as usize);
        }
    }
    (tree, aim(name, *answer, node))
}

pub fn aim(kind: &'static str, answer: u8, node: i32) -> Aim {
    Aim { kinds: vec![kind], node, expected: Some((answer, if answer == 0 { 0 } else { node })), present: None }
}

/// A path by steps and splits to a bound of this shape, where it comes to one.
pub fn walk(rng: &mut Rng, shape: Shape) -> Option<Path> {
    let least = match rng.below(10) {
        0..=5 => rng.range(0, 5),
        6 | 7 => rng.range(6, 9900),
        8 => rng.range(9900, 9999),
        _ => rng.pick(&[9996, 9997, 9998, 9999]),
    };
    let mut path = Path::new(rng, least);
    for _ in 0..rng.below(5) {
        if !path.bound.may_split() || rng.chance(40) {
            path.step(rng);
            continue;
        }
        let k = some_k(path.bound, rng);
        let child = if matches!(shape, Shape::Open) { 1 } else { rng.below(2) };
        path.split(path.bound.by(k, rng), child);
    }
    match shape {
        Shape::Range if path.bound.is_open() => {
            let k = between(rng, path.bound.least + 1, path.bound.last_split())?;
            path.split(k, 0);
        }
        Shape::Exact if path.bound.may_split() => {
            if path.bound.is_range() && rng.chance(50) {
                let k = path.bound.last_split();
                path.split(path.bound.by(k, rng), 1);
            } else {
                path.split(path.bound.by(path.bound.least, rng), 0);
            }
        }
        _ => {}
    }
    let bound = path.bound;
    let fits = match shape {
        Shape::Open => bound.is_open(),
        Shape::Range => bound.is_range(),
        Shape::Exact => bound.is_exact(),
        Shape::Divisible => bound.may_split(),
    };
    fits.then_some(path)
}

/// A right K: mostly near an edge.
pub fn some_k(bound: Bound, rng: &mut Rng) -> i32 {
    let (least, last) = (bound.least, bound.last_split());
    match rng.below(6) {
        0 => least,
        1 => last,
        2..=4 => (least + rng.range(1, 12)).min(last),
        _ => rng.range(least, last),
    }
}

/// Some number from `low` to `high`, mostly near an end; `None` if there is none.
pub fn between(rng: &mut Rng, low: i32, high: i32) -> Option<i32> {
    if low > high {
        return None;
    }
    let near = rng.range(0, 15).min(high - low);
    let any = rng.range(low, high);
    Some(rng.pick(&[low, high, low + near, low + near, high - near, any]))
}

fn at_least(low: i32, number: i32) -> Option<i32> {
    (low <= number).then_some(number)
}

fn split(path: &mut Path, by: i32) -> Option<()> {
    path.end([2, -1, -1, -1, -1, by]);
    path.closed_children(2);
    Some(())
}

fn negative_split(path: &mut Path, rng: &mut Rng) -> Option<()> {
    let k = some_k(path.bound, rng).max(1);
    split(path, rng.pick(&[-1, -1, -k, -k, -9998, -10_000, i32::MIN, i32::MIN + 1]))
}

/// The path's iteration, with this b + c.
fn set_limit(path: &mut Path, rng: &mut Rng, kind: i32, limit: i32) {
    let b = rng.range(2, 40);
    path.set_iteration(kind, b, limit - b);
}

fn void(path: &mut Path, rng: &mut Rng, limit: i32) -> Option<()> {
    set_limit(path, rng, BIG_OR, limit);
    path.end([7, ITERATION, -1, -1, -1, 0]);
    Some(())
}

fn unfold(path: &mut Path, rng: &mut Rng, limit: i32) -> Option<()> {
    let kind = rng.pick(&[BIG_AND, BIG_OR]);
    set_limit(path, rng, kind, limit);
    path.end([if kind == BIG_AND { 3 } else { 4 }, ITERATION, NEXT_ITERATION, ITERATION_INSTANCE, -1, 0]);
    path.closed_children(if kind == BIG_AND { 1 } else { 2 });
    Some(())
}

/// Opposites whose indices, one of them on n, are this far apart at this n.
fn clash(path: &mut Path, rng: &mut Rng, n: i32, apart: i32) -> Option<()> {
    let index = rng.range(1, 9998);
    let indices = [[ON_N, index - n], [PLAIN, index + apart]];
    let first = rng.below(2);
    clash_of(path, indices[first], indices[1 - first])
}

fn clash_of(path: &mut Path, [b, c]: [i32; 2], [b_with, c_with]: [i32; 2]) -> Option<()> {
    path.set_row(POSITIVE, [LITERAL, 2, b, c]);
    path.set_row(NEGATIVE, [NEGATED, 2, b_with, c_with]);
    path.end([6, POSITIVE, NEGATIVE, -1, -1, 0]);
    Some(())
}

fn start_of_link(path: &mut Path) -> usize {
    path.drop_rows_on_n();
    path.at
}

/// A link from beyond a K to the node that the path has come to. L - by is at that node's L for 0,
/// somewhere above it for 1, and this far below it for a negative number.
fn link(path: &mut Path, rng: &mut Rng, leaf: Shape, above: i32) -> Option<()> {
    let target = start_of_link(path);
    if rng.chance(40) {
        path.step(rng);
    }
    if !path.bound.may_split() {
        return None;
    }
    let k = some_k(path.bound, rng);
    path.split(path.bound.by(k, rng), 1);
    for _ in 0..rng.below(3) {
        path.step(rng);
    }
    if path.bound.is_open() {
        let k = between(rng, path.bound.least, path.bound.last_split())?;
        path.split(path.bound.by(k, rng), 0);
    }
    if matches!(leaf, Shape::Exact) && path.bound.is_range() {
        let (k, child) = rng.pick(&[(path.bound.least, 0), (path.bound.last_split(), 1)]);
        path.split(path.bound.by(k, rng), child);
    }
    end_link(path, rng, target, above, leaf)
}

fn end_link(path: &mut Path, rng: &mut Rng, target: usize, above: i32, leaf: Shape) -> Option<()> {
    let fits = if matches!(leaf, Shape::Exact) { path.bound.is_exact() } else { path.bound.is_range() };
    if !fits {
        return None;
    }
    let rise = path.bound.least - bounds(&path.tree)[target].least;
    let by = match above {
        0 => rise.max(1),
        1 => between(rng, 1, rise - 1)?,
        _ if rng.chance(10) => i32::MAX,
        _ => rise - above,
    };
    path.end([8, -1, -1, -1, target as i32, by]);
    Some(())
}

// ---------------------------------------------------------------------------------------------
// In grown tableaux

fn in_grown(rng: &mut Rng) -> Option<(Tree, Aim)> {
    let mut schema = false_schema(rng);
    if rng.chance(50) {
        // And an iteration that is empty up to some n.
        let pool = &mut schema.pool;
        let symbol = rng.range(0, 3);
        let body = pool.add([LITERAL, symbol, ON_I, 0])?;
        let iteration = pool.big_or(body, schema.least + rng.range(1, 9), rng.range(0, 2))?;
        schema.root = pool.and(schema.root, iteration)?;
    }
    let grown = grow_by_ranges(&schema, rng);
    if !grown.closed || grown.tree.nodes.len() > 300 {
        return None;
    }
    let mut tree = grown.tree;
    let bounds = bounds(&tree);
    if !bounds.iter().any(|bound| bound.is_range()) {
        return None;
    }
    if rng.chance(60) {
        let mut aim = aim(GROWN, 0, 0);
        aim.kinds.extend(features(&tree, &bounds));
        return Some((tree, aim));
    }
    let splits: Vec<usize> = (0..tree.nodes.len()).filter(|node| tree.nodes[*node].fields[1] == 2).collect();
    let node = rng.pick(&splits);
    let Bound { least, most } = bounds[node];
    let last = bounds[node].last_split();
    let outside: Vec<i32> = [least - 1, least - 2, last + 1, last + 2, most.unwrap_or(9999), 9999, i32::MAX]
        .into_iter()
        .filter(|k| *k >= 1)
        .collect();
    let (kind, answer, by) = if rng.chance(50) {
        (GROWN_OUTSIDE, 14, rng.pick(&outside))
    } else {
        (GROWN_NEGATIVE, 12, rng.pick(&[-1, -1 - least, i32::MIN]))
    };
    tree.nodes[node].fields[6] = by;
    Some((tree, aim(kind, answer, node as i32)))
}

/// What stands in a tableau that is grown by ranges.
fn features(tree: &Tree, bounds: &[Bound]) -> Vec<&'static str> {
    let mut found = Vec::new();
    for (node, bound) in tree.nodes.iter().zip(bounds) {
        let [up, rule, _, _, _, to, _] = node.fields;
        let is_range = |node: i32| usize::try_from(node).is_ok_and(|node| bounds[node].is_range());
        match rule {
            7 if bound.is_range() => found.push(GROWN_VOID),
            8 if is_range(to) => found.push(GROWN_LINK),
            _ => {}
        }
        if is_range(up) && bound.is_range() && bounds[up as usize] != *bound {
            found.push(GROWN_NESTED);
        }
    }
    found.sort_unstable();
    found.dedup();
    found
}

// ---------------------------------------------------------------------------------------------
// Every edge

/// A split at and next to every edge of K, at open nodes, ranges and exact nodes.
pub fn edges() -> Vec<Case> {
    let mut cases = Vec::new();
    let rng = &mut Rng::new(0);
    for least in [0, 1, 2, 3, 7, 9990, 9997, 9998, 9999] {
        let mosts = [least, least + 1, least + 2, least + 5, 9997, 9998];
        let mut mosts: Vec<i32> = mosts.into_iter().filter(|most| (least..=9998).contains(most)).collect();
        mosts.dedup();
        for most in mosts.into_iter().map(Some).chain([None]) {
            let edge = most.unwrap_or(9999);
            let mut numbers = vec![0, 1, least - 2, least - 1, least, least + 1, edge - 2, edge - 1, edge, edge + 1];
            numbers.extend([9997, 9998, 9999, 10_000, 65_536, i32::MAX - 1, i32::MAX]);
            numbers.extend([-1, -2, -least, -edge, -9999, i32::MIN, i32::MIN + 1]);
            numbers.sort_unstable();
            numbers.dedup();
            for by in numbers {
                cases.push(edge_case(rng, Bound { least, most }, by));
            }
        }
    }
    cases
}

fn edge_case(rng: &mut Rng, bound: Bound, by: i32) -> Case {
    let mut path = Path::new(rng, bound.least);
    if let Some(most) = bound.most {
        path.split(if most == bound.least { 0 } else { most }, 0);
    }
    split(&mut path, by);
    let k = if by == 0 { bound.least } else { by };
    let inside = bound.least <= k && k <= bound.most.map_or(9998, |most| most - 1);
    let (kind, answer) = match by {
        ..=-1 => (EDGE_NEGATIVE, 12),
        _ if inside => (EDGE, 0),
        _ => (EDGE_OUTSIDE, 14),
    };
    let aim = aim(kind, answer, path.at as i32);
    path.tree.fold_repeats();
    Case { sort: RANGES, input: Input::Check(path.tree.tables()), aim: Some(aim) }
}
