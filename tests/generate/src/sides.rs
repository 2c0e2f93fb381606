//! Sides in either order: tableaux in which sides of ands and ors are swapped, with a leaf changed or
//! sides regrouped besides.

use super::cases::Aim;
use super::pool::Pool;
use super::prover::grow;
use super::rng::Rng;
use super::schemata::false_schema;
use super::tables::{Tables, Tree, TreeNode};
use zorambi_reference::formula::{Row, AND, BIG_AND, BIG_OR, LITERAL, NEGATED, OR};

/// What comes of the cases of a kind.
#[derive(Clone, Copy, Debug, PartialEq, Eq)]
pub enum Comes {
    Accepted,
    Refused,
    /// Regrouped sides may agree all the same, as in (p and q) and p.
    MostlyRefused,
}

pub const KINDS: [(&str, Comes); 10] = [
    (PROOF_SWAPPED, Comes::Accepted),
    (SCHEMA_SWAPPED, Comes::Accepted),
    (LINK_SWAPPED, Comes::Accepted),
    (INSTANCE_SWAPPED, Comes::Accepted),
    (GROWN_LEAF, Comes::Refused),
    (LINK_LEAF, Comes::Refused),
    (INSTANCE_LEAF, Comes::Refused),
    (GROWN_REGROUPED, Comes::MostlyRefused),
    (LINK_REGROUPED, Comes::MostlyRefused),
    (INSTANCE_REGROUPED, Comes::MostlyRefused),
];

pub const PROOF_SWAPPED: &str = "rows of the proof swapped";
pub const SCHEMA_SWAPPED: &str = "rows of the schema swapped";
pub const GROWN_LEAF: &str = "rows swapped, a leaf changed";
pub const GROWN_REGROUPED: &str = "rows swapped, regrouped";
const LINK_SWAPPED: &str = "link's bodies swapped";
const LINK_LEAF: &str = "link's bodies swapped, a leaf changed";
const LINK_REGROUPED: &str = "link's bodies swapped, regrouped";
const INSTANCE_SWAPPED: &str = "instance swapped";
const INSTANCE_LEAF: &str = "instance swapped, a leaf changed";
const INSTANCE_REGROUPED: &str = "instance swapped, regrouped";

pub fn sides_tables(rng: &mut Rng) -> (Tables, Aim) {
    loop {
        let made = if rng.chance(50) { in_grown(rng) } else { small(rng) };
        if let Some((tree, aim)) = made {
            return (tree.mostly_once(rng).tables(), aim);
        }
    }
}

fn in_grown(rng: &mut Rng) -> Option<(Tree, Aim)> {
    let mut schema = false_schema(rng);
    // Equal rows more than once, so that some occurrences are swapped and others not.
    schema.pool.duplicates = rng.pick(&[0, 10, 50]);
    let grown = grow(&schema, rng);
    if !grown.closed || grown.tree.nodes.len() > 300 {
        return None;
    }
    let kind = rng.pick(&[PROOF_SWAPPED, PROOF_SWAPPED, SCHEMA_SWAPPED, GROWN_LEAF, GROWN_REGROUPED]);
    swapped(&grown.tree, kind, rng)
}

/// An accepted tableau with sides swapped, and what the kind has besides. `None` if nothing could be
/// swapped or changed.
pub fn swapped(tree: &Tree, kind: &'static str, rng: &mut Rng) -> Option<(Tree, Aim)> {
    let mut tree = tree.clone();
    let schema = 0..tree.schema_count;
    let proof = tree.schema_count..tree.rows.len();
    let percent = rng.pick(&[20, 50, 100]);
    let some = match kind {
        PROOF_SWAPPED => swap_rows(&mut tree, proof, percent, rng),
        SCHEMA_SWAPPED => swap_rows(&mut tree, schema, percent, rng),
        _ => swap_rows(&mut tree, 0..proof.end, percent, rng),
    };
    if !some {
        return None;
    }
    if [PROOF_SWAPPED, SCHEMA_SWAPPED].contains(&kind) {
        return Some((tree, Aim { kinds: vec![kind], node: 0, expected: Some((0, 0)), present: None }));
    }
    let node = change_instance(&mut tree, kind, rng)?;
    Some((tree, Aim { kinds: vec![kind], node, expected: Some((15, node)), present: None }))
}

/// Swaps the sides of some of these rows. What rule 1 gives its first child is then what it gave its
/// second, so its children change places; nothing else depends on the order. False if nothing is swapped, or
/// a link would come before its target then.
fn swap_rows(tree: &mut Tree, rows: std::ops::Range<usize>, percent: usize, rng: &mut Rng) -> bool {
    let mut is_swapped = vec![false; tree.rows.len()];
    for number in rows {
        let [kind, a, b, _] = tree.rows[number];
        if [AND, OR].contains(&kind) && a != b && rng.chance(percent) {
            tree.rows[number] = [kind, b, a, 0];
            is_swapped[number] = true;
        }
    }
    let mut children = tree.children();
    for (node, children) in tree.nodes.iter().zip(&mut children) {
        let [_, rule, on, ..] = node.fields;
        if rule == 1 && is_swapped[on as usize] {
            children.reverse();
        }
    }
    tree.order_nodes(&children, rng).is_some() && is_swapped.contains(&true)
}

/// Some unfolding's instance for one that is none; gives the node.
fn change_instance(tree: &mut Tree, kind: &str, rng: &mut Rng) -> Option<i32> {
    let unfolds = |node: &usize| [3, 4].contains(&tree.nodes[*node].fields[1]);
    let nodes: Vec<usize> = (0..tree.nodes.len()).filter(unfolds).collect();
    if nodes.is_empty() {
        return None;
    }
    let node = rng.pick(&nodes);
    let mut pool = Pool::of_rows(&tree.rows, rng);
    let right = tree.nodes[node].fields[4];
    let other = if kind == GROWN_LEAF { pool.leaf_changed(right, rng)? } else { pool.regrouped(right, rng)? };
    tree.rows = pool.rows();
    tree.nodes[node].fields[4] = other;
    (!agree_either_way(&tree.rows, right, other)).then_some(node as i32)
}

/// Document 02's words: two formulas agree after swapping the sides of any and or or, also inside
/// bodies. Takes very long on large formulas.
pub fn agree_either_way(rows: &[Row], f: i32, g: i32) -> bool {
    let ([kind, a, b, c], [kind_g, a_g, b_g, c_g]) = (rows[f as usize], rows[g as usize]);
    let agree = |f: i32, g: i32| agree_either_way(rows, f, g);
    kind == kind_g
        && match kind {
            AND | OR => (agree(a, a_g) && agree(b, b_g)) || (agree(a, b_g) && agree(b, a_g)),
            BIG_AND | BIG_OR => (b, c) == (b_g, c_g) && agree(a, a_g),
            LITERAL | NEGATED => (a, b, c) == (a_g, b_g, c_g),
            _ => true,
        }
}

/// Two iterations over bodies that differ in their sides. The first is unfolded above the target of a
/// link, the second below; the leaf has the second's formulas where the target has the first's.
fn small(rng: &mut Rng) -> Option<(Tree, Aim)> {
    let kind = rng.pick(&[
        LINK_SWAPPED,
        LINK_SWAPPED,
        LINK_LEAF,
        LINK_REGROUPED,
        INSTANCE_SWAPPED,
        INSTANCE_SWAPPED,
        INSTANCE_LEAF,
        INSTANCE_REGROUPED,
    ]);
    let mut pool = Pool::new(rng);
    let pool = &mut pool;
    let (depth, symbols) = (2 + rng.below(4), rng.range(1, 3));
    let first_body = pool.random_body(rng, depth, 0, symbols)?;
    if pool.row(first_body)[0] < AND {
        return None;
    }
    pool.duplicates = rng.pick(&[0, 50, 100]);
    let changed = |pool: &mut Pool, rng: &mut Rng, row: i32, leaf: &str, regrouped: &str| {
        let row = pool.swapped(row, rng)?;
        match kind {
            kind if kind == leaf => pool.leaf_changed(row, rng),
            kind if kind == regrouped => pool.regrouped(row, rng),
            _ => Some(row),
        }
    };
    let second_body = changed(pool, rng, first_body, LINK_LEAF, LINK_REGROUPED)?;
    let (b, c) = (rng.range(-2, 3), rng.range(-2, 2));
    let least = (b + c + 1).max(0) + rng.range(0, 2);
    let no = pool.constant(false)?;
    let (first, second) = (pool.big_and(first_body, b, c)?, pool.big_and(second_body, b, c)?);
    let both = pool.and(first, second)?;
    let root = pool.and(both, no)?;
    let schema_count = pool.len();

    // Instances in their bodies' order, or in another.
    let in_order = rng.chance(40);
    let instance = |pool: &mut Pool, rng: &mut Rng, body: i32, at: i32| {
        let row = pool.instance(body, at)?;
        if in_order {
            Some(row)
        } else {
            pool.swapped(row, rng)
        }
    };
    let first_next = pool.big_and(first_body, b, c + 1)?;
    let first_instance = instance(pool, rng, first_body, c)?;
    let second_next = pool.big_and(second_body, b, c + 1)?;
    let second_instance = instance(pool, rng, second_body, c)?;
    let second_last = pool.big_and(second_body, b, c + 2)?;
    let right = pool.instance(second_body, c + 1)?;
    let about_instance = [INSTANCE_SWAPPED, INSTANCE_LEAF, INSTANCE_REGROUPED].contains(&kind);
    let last_instance =
        if about_instance || !in_order { changed(pool, rng, right, INSTANCE_LEAF, INSTANCE_REGROUPED)? } else { right };

    // The target has an iteration of the first, an instance of it, or both.
    let mut target = vec![no, second];
    target.extend(match rng.below(3) {
        0 => vec![first_next],
        1 => vec![first_instance],
        _ => vec![first_next, first_instance],
    });
    let with = |rows: &[i32], more: &[i32]| [rows, more].concat();
    let below = with(&target, &[second_next, second_instance]);
    let split = [-1; 3];
    let node = |up: i32, rule: i32, [on, with, other]: [i32; 3], set: &[i32]| {
        let mut set = set.to_vec();
        set.sort_unstable();
        set.dedup();
        TreeNode { fields: [up, rule, on, with, other, -1, 0], set }
    };
    let mut nodes = vec![
        node(-1, 0, [root, -1, -1], &[root]),
        node(0, 0, [both, -1, -1], &[both, no]),
        node(1, 3, [first, first_next, first_instance], &[first, second, no]),
        node(2, 2, split, &target),
        node(3, 5, [no, -1, -1], &[no]),
        node(3, 3, [second, second_next, second_instance], &target),
        node(5, 3, [second_next, second_last, last_instance], &below),
        node(6, 8, split, &[no, second_next, second_last, last_instance]),
    ];
    nodes[7].fields[5..].copy_from_slice(&[3, 1]);
    let rows = pool.rows();
    let expected = if !agree_either_way(&rows, right, last_instance) {
        (15, 6)
    } else if !agree_either_way(&rows, first_body, second_body) {
        (16, 7)
    } else {
        (0, 0)
    };
    let node = if about_instance { 6 } else { 7 };
    let aim = Aim { kinds: vec![kind], node, expected: Some(expected), present: None };
    Some((Tree { root, least, rows, schema_count, nodes }, aim))
}
