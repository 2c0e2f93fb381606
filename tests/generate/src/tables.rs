//! A tableau as a tree and as tables, changes that keep it right, and damage.

use super::rng::Rng;
use std::collections::HashMap;
use zorambi_reference::formula::{with_parts, Row, AND, BIG_AND, BIG_OR, LITERAL, NEGATED, OR};
use zorambi_reference::tableau::Record;
use zorambi_reference::{NODE_WIDTH, ROW_WIDTH};

/// A node row: up rule on with other to by, and its set.
#[derive(Clone, Debug, PartialEq, Eq)]
pub struct TreeNode {
    pub fields: [i32; 7],
    pub set: Vec<i32>,
}

/// A tableau in which rows and nodes are easily changed.
#[derive(Clone, Debug, PartialEq, Eq)]
pub struct Tree {
    pub root: i32,
    pub least: i32,
    pub rows: Vec<Row>,
    pub schema_count: usize,
    pub nodes: Vec<TreeNode>,
}

/// What the check is lent.
#[derive(Clone, Debug, PartialEq, Eq)]
pub struct Tables {
    pub root: i32,
    pub least: i32,
    pub schema: Vec<i32>,
    pub schema_count: usize,
    pub proof: Vec<i32>,
    pub proof_count: usize,
    pub nodes: Vec<i32>,
    pub node_count: usize,
    pub members: Vec<i32>,
    pub member_count: usize,
}

impl Tables {
    /// The tables as they are lent.
    pub fn record(&self) -> Record<'_> {
        Record {
            root: self.root,
            least: self.least,
            schema: &self.schema,
            schema_count: self.schema_count,
            proof: &self.proof,
            proof_count: self.proof_count,
            nodes: &self.nodes,
            node_count: self.node_count,
            members: &self.members,
            member_count: self.member_count,
        }
    }

    /// The tree of tables that have what their counts say, with sets in their places.
    pub fn tree(&self) -> Tree {
        let rows = |table: &[i32], count: usize| -> Vec<Row> {
            table.chunks_exact(ROW_WIDTH).take(count).map(|row| [row[0], row[1], row[2], row[3]]).collect()
        };
        let node = |node: &[i32]| {
            let (start, length) = (node[7] as usize, node[8] as usize);
            let mut fields = [0; 7];
            fields.copy_from_slice(&node[..7]);
            TreeNode { fields, set: self.members[start..start + length].to_vec() }
        };
        Tree {
            root: self.root,
            least: self.least,
            rows: [rows(&self.schema, self.schema_count), rows(&self.proof, self.proof_count)].concat(),
            schema_count: self.schema_count,
            nodes: self.nodes.chunks_exact(NODE_WIDTH).take(self.node_count).map(node).collect(),
        }
    }
}

impl Tables {
    /// The first proof row whose four columns are those of an earlier schema or proof row, found by comparing
    /// each with each. The tables have what their counts say.
    pub fn first_repeat(&self) -> Option<usize> {
        let schema = self.schema.chunks_exact(ROW_WIDTH).take(self.schema_count);
        let rows: Vec<&[i32]> = schema.chain(self.proof.chunks_exact(ROW_WIDTH).take(self.proof_count)).collect();
        (self.schema_count..rows.len()).find(|row| rows[..*row].contains(&rows[*row]))
    }
}

impl Tree {
    /// Points each proof row that is written twice at its earliest equal and takes it out.
    pub fn fold_repeats(&mut self) {
        let count = self.rows.len();
        let mut earliest: HashMap<Row, i32> = HashMap::new();
        let mut new_number: Vec<i32> = Vec::with_capacity(count);
        let mut rows: Vec<Row> = Vec::with_capacity(count);
        // A number that is no row's, or a later row's, stays as far from the next row's.
        let rename = |new_number: &[i32], gone: usize, row: i32| match usize::try_from(row) {
            Ok(at) if at < new_number.len() => new_number[at],
            Ok(at) if at < count + 8 => row - gone as i32,
            _ => row,
        };
        for (number, row) in self.rows.iter().enumerate() {
            let row = with_parts(*row, |part| rename(&new_number, number - rows.len(), part));
            let next = rows.len() as i32;
            let found = *earliest.entry(row).or_insert(next);
            if found < next && number >= self.schema_count {
                new_number.push(found);
            } else {
                new_number.push(next);
                rows.push(row);
            }
        }
        let gone = count - rows.len();
        self.rows = rows;
        for node in &mut self.nodes {
            for field in 2..5 {
                node.fields[field] = rename(&new_number, gone, node.fields[field]);
            }
            let ascending = node.set.windows(2).all(|pair| pair[0] < pair[1]);
            node.set.iter_mut().for_each(|row| *row = rename(&new_number, gone, *row));
            if ascending {
                node.set.sort_unstable();
                node.set.dedup();
            }
        }
    }

    /// The same, mostly.
    pub fn mostly_once(mut self, rng: &mut Rng) -> Tree {
        if rng.chance(90) {
            self.fold_repeats();
        }
        self
    }

    /// Puts a row before the one with this number; `in_schema` tells at the schema's end where it belongs.
    /// All numbers are rows' numbers.
    pub fn insert_row(&mut self, at: usize, row: Row, in_schema: bool) {
        let first = at as i32;
        let rename = |number: i32| if number >= first { number + 1 } else { number };
        self.rows.iter_mut().for_each(|row| *row = with_parts(*row, rename));
        self.rows.insert(at, row);
        self.schema_count += usize::from(in_schema);
        self.root = rename(self.root);
        for node in &mut self.nodes {
            for field in 2..5 {
                node.fields[field] = rename(node.fields[field]);
            }
            node.set.iter_mut().for_each(|row| *row = rename(*row));
        }
    }

    pub fn tables(&self) -> Tables {
        let schema_count = self.schema_count.min(self.rows.len());
        let mut nodes = Vec::new();
        let mut members: Vec<i32> = Vec::new();
        for node in &self.nodes {
            nodes.extend(node.fields);
            nodes.extend([members.len() as i32, node.set.len() as i32]);
            members.extend(&node.set);
        }
        Tables {
            root: self.root,
            least: self.least,
            schema: self.rows[..schema_count].concat(),
            schema_count,
            proof: self.rows[schema_count..].concat(),
            proof_count: self.rows.len() - schema_count,
            nodes,
            node_count: self.nodes.len(),
            member_count: members.len(),
            members,
        }
    }

    /// The children of each node, in their order.
    pub fn children(&self) -> Vec<Vec<usize>> {
        let mut children: Vec<Vec<usize>> = vec![Vec::new(); self.nodes.len()];
        for (number, node) in self.nodes.iter().enumerate().skip(1) {
            children[node.fields[0] as usize].push(number);
        }
        children
    }

    /// Numbers the nodes anew: a parent before its children, brothers in their order, a link after or
    /// before its target as it was. Gives the new number of each node.
    pub fn renumber_nodes(&mut self, rng: &mut Rng) -> Vec<i32> {
        let same = (0..self.nodes.len() as i32).collect();
        self.order_nodes(&self.children(), rng).unwrap_or(same)
    }

    /// The same with the children of each node in the order given; `None`, and all stays as it is, if the
    /// links have no such order.
    pub fn order_nodes(&mut self, children: &[Vec<usize>], rng: &mut Rng) -> Option<Vec<i32>> {
        // Places from which the next node may come: a list of brothers, the first not yet taken.
        let mut waiting: Vec<(usize, usize)> = Vec::new();
        let mut order = vec![0];
        let depth_first = rng.chance(30);
        if !children[0].is_empty() {
            waiting.push((0, 0));
        }
        let earlier = self.kept_before();
        let mut taken = vec![false; self.nodes.len()];
        taken[0] = true;
        while !waiting.is_empty() {
            let may_come = |at: &usize| {
                let (parent, next) = waiting[*at];
                earlier[children[parent][next]].iter().all(|node| taken[*node])
            };
            let ready: Vec<usize> = (0..waiting.len()).filter(may_come).collect();
            let at = *ready.get(if depth_first { ready.len().wrapping_sub(1) } else { rng.below(ready.len()) })?;
            let (parent, next) = waiting[at];
            let child = children[parent][next];
            if next + 1 < children[parent].len() {
                waiting[at].1 += 1;
            } else {
                waiting.remove(at);
            }
            if !children[child].is_empty() {
                waiting.push((child, 0));
            }
            taken[child] = true;
            order.push(child);
        }
        Some(self.put_in_order(&order))
    }

    /// Of each node those that a link keeps before it.
    fn kept_before(&self) -> Vec<Vec<usize>> {
        let mut earlier = vec![Vec::new(); self.nodes.len()];
        for (number, node) in self.nodes.iter().enumerate() {
            match usize::try_from(node.fields[5]) {
                Ok(to) if node.fields[1] == 8 && to < number => earlier[number].push(to),
                Ok(to) if node.fields[1] == 8 && number < to && to < self.nodes.len() => earlier[to].push(number),
                _ => {}
            }
        }
        earlier
    }

    /// Puts the nodes in this order, a parent before its children. Gives the new number of each.
    pub fn put_in_order(&mut self, order: &[usize]) -> Vec<i32> {
        let mut new_number = vec![-1; self.nodes.len()];
        for (new, old) in order.iter().enumerate() {
            new_number[*old] = new as i32;
        }
        let rename = |number: i32| new_number.get(number as usize).copied().unwrap_or(number);
        self.nodes = order
            .iter()
            .map(|old| {
                let mut node = self.nodes[*old].clone();
                node.fields[0] = rename(node.fields[0]);
                node.fields[5] = rename(node.fields[5]);
                node
            })
            .collect();
        new_number
    }

    /// Numbers the rows anew: schema rows before proof rows, parts before what they are parts of.
    pub fn renumber_rows(&mut self, rng: &mut Rng) {
        let mut new_number = vec![-1; self.rows.len()];
        let mut order = Vec::new();
        for (first, end) in [(0, self.schema_count), (self.schema_count, self.rows.len())] {
            let mut left: Vec<usize> = (first..end).collect();
            while !left.is_empty() {
                // A row is ready if its parts have their new numbers; the first one left always is.
                let mut at = rng.below(left.len());
                while at > 0 && !parts(self.rows[left[at]]).iter().all(|part| new_number[*part as usize] >= 0) {
                    at = rng.below(at);
                }
                let old = left.remove(at);
                new_number[old] = order.len() as i32;
                order.push(old);
            }
        }
        let rename = |number: i32| if number >= 0 { new_number[number as usize] } else { number };
        self.rows = order.iter().map(|old| with_parts(self.rows[*old], rename)).collect();
        self.root = rename(self.root);
        for node in &mut self.nodes {
            for field in 2..5 {
                node.fields[field] = rename(node.fields[field]);
            }
            node.set.iter_mut().for_each(|row| *row = rename(*row));
            node.set.sort_unstable();
        }
    }
}

fn parts([kind, a, b, _]: Row) -> Vec<i32> {
    match kind {
        AND | OR => vec![a, b],
        BIG_AND | BIG_OR => vec![a],
        _ => Vec::new(),
    }
}

/// A number near `value`, or extreme, or at some limit of the paper.
pub fn other_number(rng: &mut Rng, value: i32) -> i32 {
    match rng.below(12) {
        0..=2 => value.wrapping_add(1),
        3..=5 => value.wrapping_sub(1),
        6 => value.wrapping_add(rng.range(-5, 5)),
        7 => rng.range(-2, 12),
        8 => value.wrapping_neg(),
        _ => extreme(rng),
    }
}

/// A number at or just past some limit.
pub fn extreme(rng: &mut Rng) -> i32 {
    let limits = [
        i32::MIN,
        i32::MIN + 1,
        i32::MAX,
        i32::MAX - 1,
        -1,
        0,
        1,
        2,
        7,
        8,
        9,
        63,
        64,
        65,
        255,
        256,
        1023,
        1024,
        1025,
        4095,
        4096,
        4097,
        8191,
        8192,
        8193,
        9998,
        9999,
        10_000,
        -9998,
        -9999,
        -10_000,
        29_997,
        29_998,
        -29_997,
        -29_998,
        65_535,
        65_536,
        99_999,
        100_000,
        -99_999,
        -100_000,
        1 << 30,
        -(1 << 30),
    ];
    rng.pick(&limits)
}

/// Damages a tree in one place.
pub fn damage_tree(tree: &mut Tree, rng: &mut Rng) {
    if tree.nodes.is_empty() || tree.rows.is_empty() {
        return;
    }
    let node_count = tree.nodes.len();
    let row_count = tree.rows.len();
    // Any node, or one of some rule, so that no rule is rare.
    let rule = rng.pick(&[2, 3, 4, 6, 7, 8, 8]);
    let of_rule: Vec<usize> = (0..node_count).filter(|node| tree.nodes[*node].fields[1] == rule).collect();
    let node = if rng.chance(50) && !of_rule.is_empty() { rng.pick(&of_rule) } else { rng.below(node_count) };
    let row = rng.below(row_count);
    match rng.below(30) {
        // Any number of a node row.
        0..=2 => {
            let field = rng.below(7);
            let value = &mut tree.nodes[node].fields[field];
            *value = other_number(rng, *value);
        }
        // Another row, of the set or of all, as on, with or other.
        3 | 4 => {
            let field = 2 + rng.below(3);
            let set = &tree.nodes[node].set;
            let value = if rng.chance(60) && !set.is_empty() { rng.pick(set) } else { row as i32 };
            tree.nodes[node].fields[field] = value;
        }
        // on and with, or with and other, changed over.
        5 => {
            let field = 2 + rng.below(2);
            tree.nodes[node].fields.swap(field, field + 1);
        }
        6 => tree.nodes[node].fields[1] = rng.range(0, 9),
        // A link to another node, or by another number.
        7..=9 => {
            let links: Vec<usize> = (0..node_count).filter(|node| tree.nodes[*node].fields[1] == 8).collect();
            let link = if links.is_empty() { node } else { rng.pick(&links) };
            let fields = &mut tree.nodes[link].fields;
            match rng.below(4) {
                0 => fields[5] = rng.below(node_count) as i32,
                1 => fields[5] = rng.below(link.max(1)) as i32,
                2 => fields[6] = rng.pick(&[0, -1, fields[6].wrapping_add(1), fields[6].wrapping_sub(1), 9999]),
                _ => fields[6] = other_number(rng, fields[6]),
            }
        }
        // A member gone, added, changed, out of order, twice.
        10 | 11 => {
            let set = &mut tree.nodes[node].set;
            let at = rng.below(set.len());
            if !set.is_empty() {
                set.remove(at);
            }
        }
        12 => {
            let set = &mut tree.nodes[node].set;
            set.push(row as i32);
            set.sort_unstable();
            set.dedup();
        }
        13 => {
            let set = &mut tree.nodes[node].set;
            let at = rng.below(set.len());
            if let Some(value) = set.get_mut(at) {
                *value = other_number(rng, *value);
            }
        }
        14 => {
            let set = &mut tree.nodes[node].set;
            let (from, to) = (rng.below(set.len()), rng.below(set.len()));
            if !set.is_empty() {
                if rng.chance(50) {
                    set.swap(from, to);
                } else {
                    set.insert(from, set[from]);
                }
            }
        }
        // Node rows gone, twice, changed over, moved to another parent.
        15 => {
            tree.nodes.pop();
        }
        16 => {
            tree.nodes.remove(node);
        }
        17 => {
            let copy = tree.nodes[node].clone();
            tree.nodes.push(copy);
        }
        18 => {
            let other = rng.below(node_count);
            if rng.chance(50) {
                tree.nodes.swap(node, other);
            } else {
                let set = tree.nodes[node].set.clone();
                tree.nodes[other].set = set;
            }
        }
        19 => tree.nodes[node].fields[0] = rng.range(0, node as i32),
        // Formula rows.
        20 | 21 => {
            let column = rng.below(4);
            let value = &mut tree.rows[row][column];
            *value = other_number(rng, *value);
        }
        22 => {
            // An offset or a limit, by little: the row stays well-formed.
            let wanted = |row: &usize| matches!(tree.rows[*row][0], LITERAL | NEGATED | BIG_AND | BIG_OR);
            let rows: Vec<usize> = (0..row_count).filter(wanted).collect();
            if !rows.is_empty() {
                let row = rng.pick(&rows);
                let column = if tree.rows[row][0] >= BIG_AND { rng.pick(&[2, 3]) } else { 3 };
                tree.rows[row][column] = tree.rows[row][column].wrapping_add(rng.pick(&[1, -1]));
            }
        }
        23 => match rng.below(3) {
            0 => {
                tree.rows.remove(row);
            }
            1 => tree.rows.insert(row, tree.rows[row]),
            _ => tree.rows.swap(row, rng.below(row_count)),
        },
        24 => match rng.below(3) {
            0 => tree.root = other_number(rng, tree.root),
            1 => tree.least = other_number(rng, tree.least),
            _ => tree.schema_count = (tree.schema_count + rng.below(3)).saturating_sub(1),
        },
        25 => tree.least = (tree.least + rng.pick(&[-1, 1, 1, 2])).clamp(0, 9999),
        // A row for another of the same kind.
        26 | 27 => {
            let field = 2 + rng.below(3);
            let now = tree.nodes[node].fields[field];
            if let Some(kind) = usize::try_from(now).ok().and_then(|now| tree.rows.get(now)).map(|row| row[0]) {
                let same: Vec<usize> = (0..row_count).filter(|row| tree.rows[*row][0] == kind).collect();
                let other = rng.pick(&same) as i32;
                tree.nodes[node].fields[field] = other;
                if rng.chance(50) {
                    // In the set as well, here and above.
                    put_above(tree, node, other);
                }
            }
        }
        // The last member of a link's leaf gone, or some member more at its target.
        _ => {
            let link = of_rule.first().copied().filter(|_| rule == 8).unwrap_or(node);
            let to = tree.nodes[link].fields[5];
            if rng.chance(60) {
                let set = &mut tree.nodes[link].set;
                let at = rng.below(set.len());
                if !set.is_empty() {
                    set.remove(at);
                }
            } else if let Some(target) = usize::try_from(to).ok().filter(|to| *to > 0 && *to < node_count) {
                let above = &tree.nodes[usize::try_from(tree.nodes[target].fields[0]).unwrap_or(0)].set;
                if !above.is_empty() {
                    let more = rng.pick(above);
                    let set = &mut tree.nodes[target].set;
                    set.push(more);
                    set.sort_unstable();
                    set.dedup();
                }
            }
        }
    }
}

/// Adds a row to the set of a node and of all above it but the root's.
fn put_above(tree: &mut Tree, node: usize, row: i32) {
    let mut at = node;
    for _ in 0..tree.nodes.len() {
        if at == 0 {
            break;
        }
        let set = &mut tree.nodes[at].set;
        set.push(row);
        set.sort_unstable();
        set.dedup();
        match usize::try_from(tree.nodes[at].fields[0]) {
            Ok(up) if up < tree.nodes.len() => at = up,
            _ => break,
        }
    }
}

/// Damages tables in one place.
pub fn damage_tables(tables: &mut Tables, rng: &mut Rng) {
    let Tables { schema, schema_count, proof, proof_count, nodes, node_count, members, member_count, .. } = tables;
    let which = rng.below(4);
    let (table, count, width) = match which {
        0 => (schema, schema_count, ROW_WIDTH),
        1 => (proof, proof_count, ROW_WIDTH),
        2 => (nodes, node_count, NODE_WIDTH),
        _ => (members, member_count, 1),
    };
    match rng.below(8) {
        0..=3 => {
            let mut at = rng.below(table.len());
            if which == 2 && rng.chance(40) {
                // A set's start or length.
                at = at / NODE_WIDTH * NODE_WIDTH + 7 + rng.below(2);
            }
            if let Some(value) = table.get_mut(at) {
                *value = other_number(rng, *value);
            }
        }
        4 => *count = other_count(rng, *count),
        5 => *count = count.wrapping_add(rng.below(3)).wrapping_sub(1),
        6 => {
            // A whole row gone, or a whole row more, with its count.
            if rng.chance(50) && *count > 0 {
                *count -= 1;
                table.truncate(count.saturating_mul(width));
            } else {
                *count = count.saturating_add(1);
                for _ in 0..width {
                    table.push(other_number(rng, 0));
                }
            }
        }
        _ => {
            let kept = table.len() - rng.below(table.len().min(5) + 1);
            table.truncate(kept);
        }
    }
}

/// A count near, at a limit, or extreme.
pub fn other_count(rng: &mut Rng, count: usize) -> usize {
    let limits = [
        0,
        1,
        1023,
        1024,
        1025,
        4096,
        4097,
        8192,
        8193,
        usize::MAX,
        usize::MAX - 1,
        usize::MAX / 2,
        usize::MAX / 4,
        usize::MAX / 4 + 1,
        usize::MAX / 9,
        usize::MAX / 9 + 1,
        1 << 62,
        1 << 63,
        1 << 32,
        (1 << 62) + 1,
    ];
    if rng.chance(30) {
        count.wrapping_add(rng.below(5)).wrapping_sub(2)
    } else {
        rng.pick(&limits)
    }
}

/// Makes tables longer than their counts; a right check does not look there.
pub fn lengthen(tables: &mut Tables, rng: &mut Rng) {
    for table in [&mut tables.schema, &mut tables.proof, &mut tables.nodes, &mut tables.members] {
        for _ in 0..rng.below(20) {
            table.push(other_number(rng, 1));
        }
    }
}

/// Tables of random numbers, mostly small.
pub fn random_tables(rng: &mut Rng) -> Tables {
    let spread = rng.pick(&[3, 8, 8, 20, 300]);
    let any = rng.below(20);
    let number = |rng: &mut Rng| if rng.below(100) < any { extreme(rng) } else { rng.range(-1, spread) };
    let rows = |rng: &mut Rng, count: usize, first: usize, ill: usize| {
        let mut table = Vec::new();
        for row in 0..count {
            if rng.chance(ill) {
                table.extend([number(rng), number(rng), number(rng), number(rng)]);
            } else {
                table.extend(random_row(rng, first + row));
            }
        }
        table
    };
    let ill = rng.pick(&[0, 0, 5, 100]);
    let (schema_count, proof_count) = (1 + rng.below(12), rng.below(8));
    let schema = rows(rng, schema_count, 0, ill);
    let proof = rows(rng, proof_count, schema_count, ill);
    let node_count = rng.below(8);
    let total = schema_count + proof_count;
    let (mut nodes, mut members) = (Vec::new(), Vec::new());
    let tidy = rng.chance(60);
    let root = if rng.chance(80) { rng.below(schema_count) as i32 } else { number(rng) };
    for node in 0..node_count {
        let up = if node == 0 { -1 } else { rng.below(node) as i32 };
        if tidy {
            nodes.extend([up, rng.range(-1, 9), rng.range(-1, total as i32), -1, -1, -1, 0]);
        } else {
            nodes.extend((0..7).map(|_| number(rng)));
        }
        let mut set: Vec<i32> = (0..rng.below(4)).map(|_| rng.below(total) as i32).collect();
        if tidy {
            set.sort_unstable();
            set.dedup();
            if node == 0 {
                set = vec![root];
            }
        }
        nodes.extend([members.len() as i32, set.len() as i32]);
        members.extend(set);
    }
    let least = if rng.chance(80) { rng.range(0, 5) } else { number(rng) };
    let member_count = members.len();
    Tables { root, least, schema, schema_count, proof, proof_count, nodes, node_count, members, member_count }
}

/// A row that is well-formed as row `number` if its parts fit together.
pub fn random_row(rng: &mut Rng, number: usize) -> Row {
    let kind = if number == 0 { rng.range(0, 3) } else { rng.range(0, 7) };
    match kind {
        0 | 1 => [kind, 0, 0, 0],
        LITERAL | NEGATED => [kind, rng.range(0, 2), rng.range(0, 2), rng.range(-2, 2)],
        AND | OR => [kind, rng.below(number) as i32, rng.below(number) as i32, 0],
        _ => [kind, rng.below(number) as i32, rng.range(-2, 2), rng.range(-2, 2)],
    }
}
