//! Tableaux in which one condition decides: right ones changed so that, mostly, a single demand of
//! the paper is met or missed by little, and two faults at one node for the order of refusals.

use super::bounds::bounds;
use super::pool::Pool;
use super::prover::{grow, grow_across, Grown};
use super::rng::Rng;
use super::schemata::{false_schema, Schema};
use super::tables::{Tables, Tree, TreeNode};
use zorambi_reference::formula::{
    with_parts, Row, AND, BIG_AND, BIG_OR, FALSE, LITERAL, NEGATED, ON_I, ON_N, OR, PLAIN,
};
use zorambi_reference::NODE_WIDTH;

pub fn sharp_tables(rng: &mut Rng) -> Tables {
    let mut tree = match rng.below(10) {
        0 | 1 => return sharp_link(rng).mostly_once(rng).tables(),
        2 => return limit_least(rng).mostly_once(rng).tables(),
        _ if rng.chance(25) => closed_by(grow_across, rng),
        _ => closed_tree(rng),
    };
    match rng.below(30) {
        28 | 29 => other_split(&mut tree, rng),
        0..=2 => boundary_row(&mut tree, rng),
        3 => deep_row(&mut tree, rng),
        4 | 5 => collapse_split(&mut tree, rng),
        6 | 7 => split_leaf(&mut tree, rng),
        8..=11 => two_faults(&mut tree, rng),
        12 => other_body(&mut tree, rng),
        13 => wrong_side(&mut tree, rng),
        14 => first_set(&mut tree, rng),
        15..=17 => decoy(&mut tree, rng),
        18 | 19 => retarget(&mut tree, rng),
        20 | 21 => unfold_otherwise(&mut tree, rng),
        22 | 23 => near_instance(&mut tree, rng),
        24 | 25 => {
            let mut tables = tree.mostly_once(rng).tables();
            for _ in 0..2 + rng.below(2) {
                table_fault(&mut tables, rng);
            }
            return tables;
        }
        _ => {
            let mut tables = tree.mostly_once(rng).tables();
            move_set(&mut tables, rng);
            return tables;
        }
    }
    tree.mostly_once(rng).tables()
}

/// A tableau with all branches closed and links to ancestors, as small as comes soon.
pub fn closed_tree(rng: &mut Rng) -> Tree {
    closed_by(grow, rng)
}

fn closed_by(grow: fn(&Schema, &mut Rng) -> Grown, rng: &mut Rng) -> Tree {
    loop {
        let grown = grow(&false_schema(rng), rng);
        if grown.closed && grown.tree.nodes.len() < 300 {
            return grown.tree;
        }
    }
}

fn nodes_of_rule(tree: &Tree, rules: &[i32]) -> Vec<usize> {
    (0..tree.nodes.len()).filter(|node| rules.contains(&tree.nodes[*node].fields[1])).collect()
}

fn some_node(tree: &Tree, rng: &mut Rng, rules: &[i32]) -> Option<usize> {
    let nodes = nodes_of_rule(tree, rules);
    if nodes.is_empty() {
        None
    } else {
        Some(rng.pick(&nodes))
    }
}

fn row_of(tree: &Tree, number: i32) -> Row {
    usize::try_from(number).ok().and_then(|number| tree.rows.get(number)).copied().unwrap_or_default()
}

/// Adds a proof row and gives its number.
fn append(tree: &mut Tree, row: Row) -> i32 {
    tree.rows.push(row);
    tree.rows.len() as i32 - 1
}

pub fn insert_member(node: &mut TreeNode, row: i32) {
    if let Err(at) = node.set.binary_search(&row) {
        node.set.insert(at, row);
    }
}

/// One more formula row, with numbers at and past the limits.
fn boundary_row(tree: &mut Tree, rng: &mut Rng) {
    let count = tree.rows.len() as i32;
    let part = |rng: &mut Rng| if rng.chance(90) { rng.range(0, count - 1) } else { rng.pick(&[-1, count, count + 1]) };
    let offset = |rng: &mut Rng| rng.pick(&[0, 0, 0, 1, 9999, -9999, 10_000, -10_000]);
    let kind = rng.pick(&[0, 1, 2, 2, 2, 3, 3, 4, 4, 5, 5, 6, 6, 7, 7, 8, -1]);
    let row = match kind {
        LITERAL | NEGATED => [kind, rng.pick(&[0, 1, 255, 255, 256, -1]), rng.pick(&[0, 1, 2, 2, 3, -1]), offset(rng)],
        AND | OR => [kind, part(rng), part(rng), rng.pick(&[0, 0, 0, 0, 1, -1])],
        BIG_AND | BIG_OR => [kind, part(rng), offset(rng), offset(rng)],
        _ => {
            let mut row = [kind, 0, 0, 0];
            if rng.chance(60) {
                row[1 + rng.below(3)] = rng.pick(&[1, -1]);
            }
            row
        }
    };
    if rng.chance(30) && kind < AND {
        // As the first schema row all others would move; as the last one before the proof none of
        // the schema's does.
        insert_schema_rows(tree, &[row]);
    } else {
        append(tree, row);
    }
}

/// Further rows of depth about 64 or of size about 4,096, leaning to either side, iterations on top.
fn deep_row(tree: &mut Tree, rng: &mut Rng) {
    let leaf = if rng.chance(50) { [rng.range(0, 1), 0, 0, 0] } else { [LITERAL, 0, ON_I, 0] };
    let first = append(tree, leaf);
    let mut last = first;
    if rng.chance(60) {
        for _ in 0..rng.pick(&[61, 62, 63, 64]) {
            let row = if rng.chance(50) { [OR, last, first, 0] } else { [AND, first, last, 0] };
            last = append(tree, row);
        }
    } else {
        for _ in 0..11 {
            let shape = rng.range(AND, OR);
            last = append(tree, [shape, last, last, 0]);
        }
    }
    if rng.chance(70) {
        last = append(tree, [rng.range(BIG_AND, BIG_OR), last, 0, 0]);
    }
    if rng.chance(30) && leaf[0] < LITERAL {
        append(tree, [AND, first, last, 0]);
    }
    if rng.chance(30) {
        // An ill-formed row after it.
        append(tree, [AND, first, last, 1]);
    }
}

/// Leaves out one side of a split: the node goes on as its first or its second child did.
fn collapse_split(tree: &mut Tree, rng: &mut Rng) {
    let Some(split) = some_node(tree, rng, &[2]) else { return };
    let children: Vec<usize> =
        (0..tree.nodes.len()).filter(|node| tree.nodes[*node].fields[0] == split as i32).collect();
    if children.len() != 2 {
        return;
    }
    let kept = children[usize::from(rng.chance(30))];
    let lost = children[0] + children[1] - kept;
    // All below `lost`, and `kept` itself, go; the children of `kept` hang on the split.
    let mut gone = vec![false; tree.nodes.len()];
    gone[lost] = true;
    for node in lost + 1..tree.nodes.len() {
        gone[node] = usize::try_from(tree.nodes[node].fields[0]).is_ok_and(|up| gone[up]);
    }
    let mut fields = tree.nodes[kept].fields;
    fields[0] = tree.nodes[split].fields[0];
    tree.nodes[split].fields = fields;
    gone[kept] = true;
    let mut new_number = vec![-1; tree.nodes.len()];
    let mut next = 0;
    for node in 0..tree.nodes.len() {
        if !gone[node] {
            new_number[node] = next;
            next += 1;
        }
    }
    new_number[kept] = new_number[split];
    let rename = |number: i32| usize::try_from(number).map_or(number, |number| new_number[number]);
    let nodes = std::mem::take(&mut tree.nodes);
    for (number, mut node) in nodes.into_iter().enumerate() {
        if !gone[number] {
            node.fields[0] = rename(node.fields[0]);
            node.fields[5] = rename(node.fields[5]);
            tree.nodes.push(node);
        }
    }
}

/// Splits a leaf in two like it: right where more than one value is left, wrong at an exact node.
fn split_leaf(tree: &mut Tree, rng: &mut Rng) {
    let Some(leaf) = some_node(tree, rng, &[5, 6, 7, 8]) else { return };
    let by = some_by(tree, rng, leaf);
    let mut copy = tree.nodes[leaf].clone();
    tree.nodes[leaf].fields[1..].copy_from_slice(&[2, -1, -1, -1, -1, by]);
    copy.fields[0] = leaf as i32;
    tree.nodes.push(copy.clone());
    tree.nodes.push(copy);
}

/// A split at another K.
fn other_split(tree: &mut Tree, rng: &mut Rng) {
    let Some(split) = some_node(tree, rng, &[2]) else { return };
    tree.nodes[split].fields[6] = some_by(tree, rng, split);
}

/// A split's `by` at this node: 0, or about the first or the last that its bound allows.
fn some_by(tree: &Tree, rng: &mut Rng, node: usize) -> i32 {
    let bound = bounds(tree)[node];
    match rng.below(6) {
        0 | 1 => 0,
        2 | 3 => bound.least + rng.range(-1, 2),
        4 => bound.last_split() + rng.range(-1, 2),
        _ => rng.pick(&[-1, 1, 9998, 9999, i32::MAX]),
    }
}

/// Two faults at one node.
fn two_faults(tree: &mut Tree, rng: &mut Rng) {
    let rules: &[i32] = rng.pick(&[&[3, 4], &[6], &[8], &[7], &[0, 1, 2, 3, 4, 5, 6, 7, 8]]);
    let Some(mut node) = some_node(tree, rng, rules) else { return };
    let faults: &[i32] = match tree.nodes[node].fields[1] {
        3 | 4 => &[11, 12, -12, 120, 14, 15, -15, 17],
        6 | 7 => &[11, 12, -12, 14, 17],
        8 => &[11, 12, -12, 13, 14, 16, 17],
        _ => &[11, 12, -12, 17],
    };
    let mut chosen = [rng.pick(faults), rng.pick(faults)];
    // The bound's fault renumbers, so it comes first.
    chosen.sort_by_key(|fault| *fault != 14);
    for fault in chosen {
        let rule = tree.nodes[node].fields[1];
        match fault {
            // A member that the parent does not have.
            11 => {
                let foreign = append(tree, [LITERAL, 200, PLAIN, 0]);
                insert_member(&mut tree.nodes[node], foreign);
            }
            // An unused field filled, or a used one empty.
            12 => {
                let field = 2 + rng.below(5);
                let value = &mut tree.nodes[node].fields[field];
                *value = if *value == -1 { 0 } else { -1 };
            }
            // A row that does not stand in the set.
            -12 => {
                let row = tree.nodes[node].fields[if rule == 6 && rng.chance(50) { 3 } else { 2 }];
                tree.nodes[node].set.retain(|member| *member != row);
            }
            // No row as other.
            120 => tree.nodes[node].fields[4] = rng.pick(&[-2, tree.rows.len() as i32, i32::MAX]),
            13 => tree.nodes[node].fields[5] = rng.pick(&[-1, node as i32, node as i32 + 1, i32::MAX]),
            14 => node = bound_fault(tree, rng, node),
            15 | -15 => {
                let field = if fault == 15 { 3 } else { 4 };
                let [kind, a, b, c] = row_of(tree, tree.nodes[node].fields[field]);
                let wrong = if !(AND..=OR).contains(&kind) {
                    [kind, a, b, c.wrapping_add(1)]
                } else {
                    [AND + OR - kind, a, b, c]
                };
                tree.nodes[node].fields[field] = append(tree, wrong);
            }
            16 => {
                tree.nodes[node].set.pop();
            }
            _ => tree.nodes.push(TreeNode { fields: [node as i32, 5, 0, -1, -1, -1, 0], set: Vec::new() }),
        }
    }
}

/// The bound does not allow what the node does; gives the node's new number.
fn bound_fault(tree: &mut Tree, rng: &mut Rng, node: usize) -> usize {
    let bound = bounds(tree)[node];
    let least = bound.least;
    let [_, rule, on, with, ..] = tree.nodes[node].fields;
    let [kind, a, b, c] = row_of(tree, on);
    match rule {
        8 => tree.nodes[node].fields[6] = least + 1,
        6 => {
            let [kind, a, b, c] = row_of(tree, with);
            let number = join_to_root(tree, [kind, a, b, if c < 0 { c + 1 } else { c - 1 }], node);
            tree.nodes[node + 1].fields[3] = number;
            return node + 1;
        }
        3 | 4 | 7 if a < tree.schema_count as i32 => {
            let most = bound.most.unwrap_or(least);
            let limit = if rule == 7 { most - b } else { least - b + 1 + rng.range(0, 1) };
            if !(-9999..9999).contains(&limit) || c == limit {
                return node;
            }
            let on = join_to_root(tree, [kind, a, b, limit], node);
            tree.nodes[node + 1].fields[2] = on;
            if rule != 7 {
                let with = append(tree, [kind, a, b, limit + 1]);
                tree.nodes[node + 1].fields[3] = with;
                if let Some(other) = append_instance(tree, a, limit) {
                    tree.nodes[node + 1].fields[4] = other;
                }
            }
            return node + 1;
        }
        _ => {}
    }
    node
}

/// `other` differs from the instance in one place.
fn near_instance(tree: &mut Tree, rng: &mut Rng) {
    let Some(node) = some_node(tree, rng, &[3, 4]) else { return };
    let other = append_changed(tree, rng, tree.nodes[node].fields[4], true);
    tree.nodes[node].fields[4] = other;
}

/// A copy of a formula without iterations in new rows, changed in one place if `change`.
fn append_changed(tree: &mut Tree, rng: &mut Rng, number: i32, change: bool) -> i32 {
    let [kind, a, b, c] = row_of(tree, number);
    let row = match kind {
        AND | OR if !change => return number,
        AND | OR => match rng.below(8) {
            0 => [AND + OR - kind, a, b, c],
            1 => [kind, b, a, c],
            2..=4 => [kind, append_changed(tree, rng, a, true), b, c],
            _ => [kind, a, append_changed(tree, rng, b, true), c],
        },
        LITERAL | NEGATED => match rng.below(7) {
            0 => [LITERAL + NEGATED - kind, a, b, c],
            1 => [kind, if a == 0 { 1 } else { a - 1 }, b, c],
            2 => [kind, a, PLAIN, c],
            3 => [kind, a, ON_I, c],
            4 => [kind, a, b, c + 1],
            5 => [kind, a, b, c - 1],
            // The same once more: no change.
            _ => [kind, a, b, c],
        },
        _ => [if kind == FALSE { 0 } else { FALSE }, 0, 0, 0],
    };
    append(tree, row)
}

/// One fault that the check finds at some stage; several of them show the order of the stages.
fn table_fault(tables: &mut Tables, rng: &mut Rng) {
    let rows = tables.schema_count + tables.proof_count;
    match rng.below(15) {
        0 => {
            tables.schema.truncate((tables.schema_count * 4).saturating_sub(1));
        }
        1 => match rng.below(3) {
            0 => tables.proof.truncate((tables.proof_count * 4).saturating_sub(1)),
            1 => tables.nodes.truncate((tables.node_count * 9).saturating_sub(1)),
            _ => tables.members.truncate(tables.member_count.saturating_sub(1)),
        },
        2 => match rng.below(3) {
            0 => {
                tables.proof_count = 1025 - tables.schema_count.min(1024);
                tables.proof.resize(tables.proof_count * 4, 0);
            }
            1 => {
                tables.node_count = 1025;
                tables.nodes.resize(1025 * 9, 0);
            }
            _ => {
                tables.member_count = 8193;
                tables.members.resize(8193, 0);
            }
        },
        3 => tables.root = rng.pick(&[-1, tables.schema_count as i32, rows as i32, 0]),
        4 => tables.least = rng.pick(&[-1, 10_000]),
        5 | 6 => {
            let at = rng.below(tables.schema.len());
            if let Some(value) = tables.schema.get_mut(at) {
                *value = 20_000;
            }
        }
        7 => {
            // Too deep.
            for _ in 0..66 {
                let row = [AND, (tables.schema_count + tables.proof_count) as i32 - 1, 0, 0];
                tables.proof.truncate(tables.proof_count * 4);
                tables.proof.extend(if tables.proof_count == 0 { [0, 0, 0, 0] } else { row });
                tables.proof_count += 1;
            }
        }
        8 => move_set(tables, rng),
        9 => {
            let at = rng.below(tables.member_count);
            if let Some(value) = tables.members.get_mut(at) {
                *value = rng.pick(&[-1, rows as i32, 0, *value - 1, *value + 1]);
            }
        }
        10 => {
            let at = rng.below(tables.node_count) * NODE_WIDTH;
            if let Some(value) = tables.nodes.get_mut(at) {
                *value = rng.pick(&[-1, -2, 0, 5000]);
            }
        }
        11 => tables.node_count = 0,
        12 => tables.member_count = 0,
        _ => {
            let at = rng.below(tables.node_count) * NODE_WIDTH + 1 + rng.below(6);
            if let Some(value) = tables.nodes.get_mut(at) {
                *value = rng.pick(&[-1, 9, 0, 1, i32::MIN]);
            }
        }
    }
}

/// `with` over a body that is written the same but stands in another row.
fn other_body(tree: &mut Tree, rng: &mut Rng) {
    let Some(node) = some_node(tree, rng, &[3, 4]) else { return };
    let [kind, a, b, c] = row_of(tree, tree.nodes[node].fields[2]);
    let copy = row_of(tree, a);
    let body = append(tree, copy);
    let with = append(tree, [kind, body, b, c + 1]);
    tree.nodes[node].fields[3] = with;
}

/// A child gets what its rule gives to its brother, or to nobody.
fn wrong_side(tree: &mut Tree, rng: &mut Rng) {
    let Some(parent) = some_node(tree, rng, &[0, 1, 3, 4]) else { return };
    let [_, rule, on, with, other, ..] = tree.nodes[parent].fields;
    let [_, a, b, _] = row_of(tree, on);
    let (left, right) = if rule <= 1 { (a, b) } else { (with, other) };
    let children: Vec<usize> =
        (0..tree.nodes.len()).filter(|node| tree.nodes[*node].fields[0] == parent as i32).collect();
    if let Some(child) = children.first() {
        let child = if rng.chance(50) { *child } else { children[children.len() - 1] };
        let given = rng.pick(&[left, right]);
        insert_member(&mut tree.nodes[child], given);
    }
}

/// Node 0's set, and its up.
fn first_set(tree: &mut Tree, rng: &mut Rng) {
    let rows = tree.rows.len() as i32;
    let up = rng.pick(&[-1, -1, -1, 0, -2, i32::MIN]);
    let first = &mut tree.nodes[0];
    match rng.below(3) {
        0 => insert_member(first, rng.range(0, rows - 1)),
        1 => first.set.clear(),
        _ => {}
    }
    first.fields[0] = up;
}

/// Puts rows without parts, or over schema rows, at the end of the schema; all numbers follow.
fn insert_schema_rows(tree: &mut Tree, rows: &[Row]) {
    let at = tree.schema_count as i32;
    let count = rows.len() as i32;
    let rename = |number: i32| if number >= at { number + count } else { number };
    for row in &mut tree.rows[tree.schema_count..] {
        *row = with_parts(*row, rename);
    }
    for node in &mut tree.nodes {
        for field in 2..5 {
            node.fields[field] = rename(node.fields[field]);
        }
        node.set.iter_mut().for_each(|row| *row = rename(*row));
    }
    tree.rows.splice(tree.schema_count..tree.schema_count, rows.iter().copied());
    tree.schema_count += rows.len();
}

/// Joins a further row to the root; one node more at the top takes the two apart. Gives the row's
/// number; `node` and all above it get it into their sets.
fn join_to_root(tree: &mut Tree, row: Row, node: usize) -> i32 {
    let number = tree.schema_count as i32;
    let root = tree.root;
    insert_schema_rows(tree, &[row, [AND, root, number, 0]]);
    tree.root = number + 1;
    for node in &mut tree.nodes {
        node.fields[0] += 1;
        if node.fields[5] >= 0 {
            node.fields[5] += 1;
        }
    }
    tree.nodes.insert(0, TreeNode { fields: [-1, 0, tree.root, -1, -1, -1, 0], set: vec![tree.root] });
    let mut at = node + 1;
    while at > 0 && at < tree.nodes.len() {
        insert_member(&mut tree.nodes[at], number);
        at = usize::try_from(tree.nodes[at].fields[0]).unwrap_or(0);
    }
    number
}

/// A rule is used on a row that is almost the right one and stands in the set by right.
fn decoy(tree: &mut Tree, rng: &mut Rng) {
    let Some(node) = some_node(tree, rng, &[5, 6, 6, 7, 7, 0, 1]) else { return };
    let bound = bounds(tree)[node];
    let least = bound.least;
    let fields = tree.nodes[node].fields;
    let field = if fields[1] == 6 { 2 + rng.below(2) } else { 2 };
    let [kind, a, b, c] = row_of(tree, fields[field]);
    let near = |rng: &mut Rng, value: i32| value + rng.pick(&[-1, 0, 0, 1]);
    let row = match kind {
        LITERAL | NEGATED => match rng.below(6) {
            0 => [kind, if a == 0 { 1 } else { a - 1 }, b, c],
            1 => [LITERAL + NEGATED - kind, a, b, c],
            2 => [kind, a, b, near(rng, c)],
            // The same index for n = L, written otherwise; or the next one.
            _ if b == ON_N => [kind, a, PLAIN, near(rng, least + c)],
            _ => [kind, a, ON_N, near(rng, c - least)],
        },
        BIG_OR if a < tree.schema_count as i32 => match rng.below(4) {
            0 => [BIG_AND, a, b, c],
            _ => [BIG_OR, a, b, near(rng, bound.most.unwrap_or(least) + 1 - b).clamp(-9999, 9999)],
        },
        FALSE => [rng.range(0, 1), 0, 0, 0],
        AND | OR if a < tree.schema_count as i32 && b < tree.schema_count as i32 => [AND + OR - kind, a, b, 0],
        _ => return,
    };
    let number = join_to_root(tree, row, node);
    tree.nodes[node + 1].fields[field] = number;
}

/// A link to another ancestor or any node before, lowering by what the two bounds allow, or one more or less.
fn retarget(tree: &mut Tree, rng: &mut Rng) {
    let Some(link) = some_node(tree, rng, &[8]) else { return };
    let bounds = bounds(tree);
    let mut above = Vec::new();
    let mut at = tree.nodes[link].fields[0];
    while let Some(up) = usize::try_from(at).ok().filter(|up| *up < tree.nodes.len() && above.len() < tree.nodes.len())
    {
        above.push(up);
        at = tree.nodes[up].fields[0];
    }
    if rng.chance(40) {
        tree.nodes[link].fields[5] = rng.below(link) as i32;
    } else if rng.chance(60) {
        if let Some(to) = above.get(rng.below(above.len())) {
            tree.nodes[link].fields[5] = *to as i32;
        }
    }
    let to = usize::try_from(tree.nodes[link].fields[5]).unwrap_or(0).min(bounds.len() - 1);
    // By L, or by H where both have one.
    let (from, into) = (bounds[link], bounds[to]);
    let rise = match (from.most, into.most) {
        (Some(most), Some(into_most)) if rng.chance(50) => most - into_most,
        _ => from.least - into.least,
    };
    tree.nodes[link].fields[6] = rise + rng.pick(&[0, 0, 1, -1]);
}

/// An iteration at another limit, near what the bound allows, unfolded rightly.
fn unfold_otherwise(tree: &mut Tree, rng: &mut Rng) {
    let Some(node) = some_node(tree, rng, &[3, 4]) else { return };
    let least = bounds(tree)[node].least;
    let [kind, a, b, _] = row_of(tree, tree.nodes[node].fields[2]);
    if a >= tree.schema_count as i32 {
        return;
    }
    let limit = least - b + rng.pick(&[-1, 0, 0, 1, 1, 2]);
    if !(-9999..9999).contains(&limit) {
        return;
    }
    let on = join_to_root(tree, [kind, a, b, limit], node);
    let with = append(tree, [kind, a, b, limit + 1]);
    let Some(other) = append_instance(tree, a, limit) else { return };
    tree.nodes[node + 1].fields[2..5].copy_from_slice(&[on, with, other]);
}

fn append_instance(tree: &mut Tree, body: i32, limit: i32) -> Option<i32> {
    if tree.rows.len() > 2000 {
        return None;
    }
    let [kind, a, b, c] = row_of(tree, body);
    let row = match kind {
        AND | OR => [kind, append_instance(tree, a, limit)?, append_instance(tree, b, limit)?, 0],
        LITERAL | NEGATED => [kind, a, ON_N, c - limit],
        _ => [kind, a, b, c],
    };
    Some(append(tree, row))
}

/// A set that starts or ends by one elsewhere; members left over.
pub fn move_set(tables: &mut Tables, rng: &mut Rng) {
    let node = if rng.chance(30) { tables.node_count.saturating_sub(1) } else { rng.below(tables.node_count) };
    let at = node * NODE_WIDTH + 7;
    if at + 1 >= tables.nodes.len() {
        return;
    }
    match rng.below(6) {
        0 => tables.nodes[at] += rng.pick(&[-1, 1]),
        1 => tables.nodes[at + 1] += rng.pick(&[-1, 1]),
        2 => {
            tables.nodes[at] -= 1;
            tables.nodes[at + 1] += 1;
        }
        3 => {
            tables.members.push(rng.pick(&[0, -1, i32::MAX]));
            tables.member_count += 1;
        }
        4 => {
            tables.nodes[at + 1] = rng.pick(&[-1, i32::MIN, i32::MAX, tables.member_count as i32]);
        }
        _ => {
            // An empty set that starts elsewhere.
            tables.nodes[at] = rng.pick(&[0, -1, tables.member_count as i32]);
            tables.nodes[at + 1] = 0;
        }
    }
}

/// The largest bounds: no iteration, least 9,998 to 10,000, with and without a split.
fn limit_least(rng: &mut Rng) -> Tree {
    let least = rng.pick(&[-1, 0, 9997, 9998, 9999, 10_000]);
    let symbol = rng.pick(&[0, 255]);
    let offset = rng.pick(&[0, 9999, -9999]);
    let rows = vec![[LITERAL, symbol, ON_N, offset], [NEGATED, symbol, ON_N, offset], [AND, 0, 1, 0]];
    let clash = |up: i32| TreeNode { fields: [up, 6, 0, 1, -1, -1, 0], set: vec![0, 1] };
    let mut nodes = vec![TreeNode { fields: [-1, 0, 2, -1, -1, -1, 0], set: vec![2] }];
    let mut up = 0;
    for _ in 0..rng.below(4) {
        let split = nodes.len() as i32;
        nodes.push(TreeNode { fields: [up, 2, -1, -1, -1, -1, rng.pick(&[0, 0, least, 9998, 9999])], set: vec![0, 1] });
        nodes.push(clash(split));
        up = split;
    }
    nodes.push(clash(up));
    Tree { root: 2, least, rows, schema_count: 3, nodes }
}

/// A link in which one pair of formulas, alike or almost alike, decides. Two iterations, over a body
/// and over another that is equal or differs a little, are unfolded before and after the target; the
/// leaf has the second's formulas where the target has the first's. False closes all other branches.
fn sharp_link(rng: &mut Rng) -> Tree {
    loop {
        let mut pool = Pool::new(rng);
        if let Some(tree) = try_sharp_link(&mut pool, rng) {
            return tree;
        }
    }
}

fn try_sharp_link(pool: &mut Pool, rng: &mut Rng) -> Option<Tree> {
    let depth = 1 + rng.below(4);
    let first_body = pool.random_body(rng, depth, 0, 2)?;
    let second_body = alike(pool, rng, first_body)?;
    let (b, c) = (rng.range(-2, 3), rng.range(-2, 2));
    let b_second = if rng.chance(80) { b } else { b + rng.pick(&[-1, 1]) };
    let c_second = if rng.chance(70) { c } else { c + rng.pick(&[-1, 1]) };
    pool.duplicates = 0;
    let contradiction = pool.constant(false)?;
    let first = pool.big_and(first_body, b, c)?;
    let second = pool.big_and(second_body, b_second, c_second)?;
    let both = pool.and(first, second)?;
    let root = pool.and(both, contradiction)?;
    let schema_count = pool.len();
    let least = (b.max(b_second) + c.max(c_second) + 4).max(0) + rng.range(0, 2);

    let mut nodes = vec![TreeNode { fields: [-1, 0, root, -1, -1, -1, 0], set: vec![root] }];
    nodes.push(TreeNode { fields: [0, 0, both, -1, -1, -1, 0], set: sorted(&[both, contradiction]) });
    // What stands in the sets from here on; each unfolding adds to it.
    let mut known = vec![contradiction, first, second];
    let mut last = [first, second];
    let unfold =
        |pool: &mut Pool, nodes: &mut Vec<TreeNode>, known: &mut Vec<i32>, last: &mut [i32; 2], which: usize| {
            let on = last[which];
            let [kind, a, b, c] = pool.row(on);
            let (with, other) = (pool.add([kind, a, b, c + 1])?, pool.instance(a, c)?);
            nodes.push(TreeNode { fields: [nodes.len() as i32 - 1, 3, on, with, other, -1, 0], set: sorted(known) });
            known.extend([with, other]);
            last[which] = with;
            Some((with, other))
        };
    // Formulas of the target, and what the leaf should have for them.
    let mut wanted = vec![contradiction];
    let mut offered = vec![contradiction];
    let before = usize::from(rng.chance(75));
    for _ in 0..before {
        let (_, other) = unfold(pool, &mut nodes, &mut known, &mut last, 0)?;
        wanted.push(other);
    }
    if rng.chance(35) {
        wanted.push(last[0]);
    }
    let by = if rng.chance(80) { 1 } else { 2 };
    let target = nodes.len() as i32;
    // The target's set has all that stands below it: the leaf may leave out, not add.
    let target_set: Vec<i32> = {
        let mut set = wanted.clone();
        set.push(last[1]);
        set
    };
    known.retain(|row| target_set.contains(row) || *row == last[0]);
    let keeps_first = rng.chance(10);
    if !keeps_first && !target_set.contains(&last[0]) {
        known.retain(|row| *row != last[0]);
    }
    nodes.push(TreeNode { fields: [target - 1, 2, -1, -1, -1, -1, 0], set: sorted(&known) });
    let mut up = target;
    for round in 0..by {
        nodes.push(TreeNode { fields: [up, 5, contradiction, -1, -1, -1, 0], set: vec![contradiction] });
        if round + 1 < by {
            nodes.push(TreeNode { fields: [up, 2, -1, -1, -1, -1, 0], set: sorted(&known) });
            up = nodes.len() as i32 - 1;
        }
    }
    // Unfold the second iteration, and now and then the first, below the last split.
    let mut parent = up;
    for round in 0..by + before as i32 {
        let which = usize::from(!(known.contains(&last[0]) && rng.chance(25)));
        let (with, other) = unfold(pool, &mut nodes, &mut known, &mut last, which)?;
        let node = nodes.len() - 1;
        nodes[node].fields[0] = parent;
        parent = node as i32;
        offered.push(other);
        if round + 1 >= by {
            offered.push(with);
        }
    }
    offered.extend(known.iter().copied().filter(|_| rng.chance(50)));
    nodes.push(TreeNode { fields: [parent, 8, -1, -1, -1, target, by], set: sorted(&offered) });
    let rows = pool.rows();
    Some(Tree { root, least, rows, schema_count, nodes })
}

fn sorted(rows: &[i32]) -> Vec<i32> {
    let mut rows = rows.to_vec();
    rows.sort_unstable();
    rows.dedup();
    rows
}

/// The same body, the same in other rows, or one with a small difference.
fn alike(pool: &mut Pool, rng: &mut Rng, body: i32) -> Option<i32> {
    match rng.below(4) {
        0 => Some(body),
        1 | 2 => {
            pool.duplicates = 100;
            let copy = pool.moved(body, 0);
            pool.duplicates = 0;
            copy
        }
        _ => different(pool, rng, body),
    }
}

/// One place of a body changed.
fn different(pool: &mut Pool, rng: &mut Rng, body: i32) -> Option<i32> {
    let [kind, a, b, c] = pool.row(body);
    match kind {
        AND | OR => match rng.below(7) {
            0 => pool.add([AND + OR - kind, a, b, 0]),
            1 => pool.add([kind, b, a, 0]),
            2..=4 => {
                let part = different(pool, rng, b)?;
                pool.add([kind, a, part, 0])
            }
            _ => {
                let part = different(pool, rng, a)?;
                pool.add([kind, part, b, 0])
            }
        },
        LITERAL | NEGATED => match rng.below(4) {
            0 => pool.add([LITERAL + NEGATED - kind, a, b, c]),
            1 => pool.add([kind, if a == 0 { 1 } else { 0 }, b, c]),
            _ => pool.add([kind, a, b, c + rng.pick(&[-1, 1])]),
        },
        _ => pool.add([1 - kind, 0, 0, 0]),
    }
}
