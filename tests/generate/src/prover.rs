//! Grows a tableau for a schema by the rules, with random choices.
//!
//! The way is that of the paper's sources: take ands and ors apart; split into n = L and n ≥ L + 1,
//! or at a larger K; where n has one value unfold until all is settled, above K unfold each iteration
//! once more; link back to an ancestor, or to any node before, as soon as its set stands here, lowered.
//! A tableau need not come to an end; what is left over then gets some closing rule that does not fit.

use super::bounds::Bound;
use super::pool::Pool;
use super::rng::Rng;
use super::schemata::Schema;
use super::tables::{Tree, TreeNode};
use std::collections::{BTreeSet, HashMap, HashSet};
use std::rc::Rc;
use zorambi_reference::formula::{AND, BIG_AND, BIG_OR, FALSE, LITERAL, NEGATED, ON_I, ON_N, OR, PLAIN, TRUE};
use zorambi_reference::MAX_MEMBERS;

/// A tableau, and whether every branch was closed.
pub struct Grown {
    pub tree: Tree,
    pub closed: bool,
}

/// Where links go.
#[derive(Clone, Copy, PartialEq, Eq)]
enum Targets {
    Ancestors,
    /// Any node that is there before the leaf.
    Created,
    /// Any node that has its rule before the leaf; the nodes are put in that order.
    Expanded,
}

/// How a tableau is grown; numbers are cases in 100.
struct Style {
    /// Do something else although the branch could be closed.
    dawdle: usize,
    /// Keep a formula that has been taken apart.
    keep: usize,
    /// Drop what can be of no use.
    prune: usize,
    /// Split without need.
    split: usize,
    /// Split at a K above L.
    ranges: usize,
    /// Unfold without a split where n has more than one value.
    eager: usize,
    /// Take the or that looks best.
    best: usize,
    /// Take a formula along that is not needed, when all is closed.
    carry: usize,
    /// Let the set of a link's target be all that it was.
    fat: bool,
    targets: Targets,
    max_nodes: usize,
    max_unfolds: i32,
}

fn style(rng: &mut Rng) -> Style {
    Style {
        dawdle: rng.pick(&[0, 0, 0, 2, 8]),
        keep: rng.pick(&[0, 0, 5, 30]),
        prune: rng.pick(&[100, 100, 100, 95, 80]),
        split: rng.pick(&[0, 0, 0, 2, 5]),
        ranges: rng.pick(&[0, 0, 0, 20, 60]),
        eager: rng.pick(&[0, 0, 10, 50]),
        best: rng.pick(&[100, 100, 95, 70]),
        carry: rng.pick(&[0, 0, 5, 30, 100]),
        fat: rng.chance(40),
        targets: Targets::Ancestors,
        max_nodes: rng.pick(&[100, 200, 200, 400, 1024]),
        max_unfolds: rng.range(3, 8),
    }
}

/// A node while the tableau grows.
struct Growing {
    up: i32,
    rule: i32,
    on: i32,
    with: i32,
    other: i32,
    to: i32,
    by: i32,
    set: Vec<i32>,
    bound: Bound,
    /// What the parent's rule gives this node.
    given: Vec<i32>,
    children: Vec<usize>,
    /// For a link: the rows of the target's set and their partners here.
    partners: Vec<(i32, i32)>,
}

/// A node to be dealt with.
struct Goal {
    node: usize,
    /// How often each iteration is to be unfolded where n has more than one value.
    unfolds: i32,
    /// Rows that have been taken apart and are still there.
    used: Vec<i32>,
    splits: usize,
}

/// A literal's occurrence: its index is offset, n + offset, or i + offset for i from b up to n - c.
#[derive(Clone, Copy)]
struct Occurrence {
    positive: bool,
    symbol: i32,
    base: i32,
    offset: i32,
    b: i32,
    c: i32,
}

struct Prover<'a> {
    pool: &'a mut Pool,
    rng: &'a mut Rng,
    style: Style,
    inert: HashSet<i32>,
    /// The first limit of each iteration of the schema, by kind, body and b.
    first_limit: HashMap<(i32, i32, i32), i32>,
    occurrences: HashMap<i32, Rc<Vec<Occurrence>>>,
    nodes: Vec<Growing>,
    /// The nodes in the order in which they got their rules.
    expanded: Vec<usize>,
}

/// Grows a tableau. The schema's rows come first; the proof's rows follow.
pub fn grow(schema: &Schema, rng: &mut Rng) -> Grown {
    let style = style(rng);
    grow_in_style(schema, rng, style)
}

/// The same with most splits at a K above L.
pub fn grow_by_ranges(schema: &Schema, rng: &mut Rng) -> Grown {
    let style = Style { ranges: 80, ..style(rng) };
    grow_in_style(schema, rng, style)
}

/// The same with links to any node before.
pub fn grow_across(schema: &Schema, rng: &mut Rng) -> Grown {
    let (targets, max_nodes) = (rng.pick(&[Targets::Created, Targets::Expanded]), rng.pick(&[100, 200, 200]));
    let (split, ranges) = (rng.pick(&[0, 5, 10, 20, 30]), rng.pick(&[0, 20, 60, 80]));
    let style = Style { targets, max_nodes, split, ranges, ..style(rng) };
    grow_in_style(schema, rng, style)
}

fn grow_in_style(schema: &Schema, rng: &mut Rng, style: Style) -> Grown {
    let schema_count = schema.pool.len();
    let mut pool = schema.pool.clone();
    let mut first_limit = HashMap::new();
    for number in 0..schema_count as i32 {
        let [kind, a, b, c] = pool.row(number);
        if kind >= BIG_AND {
            let limit = first_limit.entry((kind, a, b)).or_insert(c);
            *limit = c.min(*limit);
        }
    }
    let mut prover = Prover {
        pool: &mut pool,
        rng,
        style,
        inert: schema.inert.iter().copied().collect(),
        first_limit,
        occurrences: HashMap::new(),
        nodes: Vec::new(),
        expanded: Vec::new(),
    };
    let closed = prover.grow_from(schema.root, schema.least);
    prover.invent_rules();
    let sets = prover.choose_sets(schema.root);
    let nodes = prover
        .nodes
        .iter()
        .zip(sets)
        .map(|(node, set)| TreeNode {
            fields: [node.up, node.rule, node.on, node.with, node.other, node.to, node.by],
            set,
        })
        .collect();
    let order = (prover.style.targets == Targets::Expanded).then(|| prover.order());
    let rows = pool.rows();
    let mut tree = Tree { root: schema.root, least: schema.least, rows, schema_count, nodes };
    if let Some(order) = order {
        tree.put_in_order(&order);
    }
    if rng.chance(50) {
        tree.renumber_nodes(rng);
    }
    if rng.chance(30) {
        tree.renumber_rows(rng);
    }
    Grown { tree, closed }
}

impl Prover<'_> {
    fn grow_from(&mut self, root: i32, least: i32) -> bool {
        self.nodes.push(new_node(-1, vec![root], Bound::from(least), Vec::new()));
        let mut goals = vec![Goal { node: 0, unfolds: 0, used: Vec::new(), splits: 0 }];
        let mut closed = true;
        while let Some(goal) = goals.pop() {
            self.expanded.push(goal.node);
            match self.expand(goal) {
                Some(next) => goals.extend(next.into_iter().rev()),
                None => closed = false,
            }
            if !closed {
                break;
            }
        }
        closed
    }

    /// Gives the node a rule and children. `None` if there is no way on.
    fn expand(&mut self, mut goal: Goal) -> Option<Vec<Goal>> {
        let (set, bound) = {
            let node = &self.nodes[goal.node];
            (node.set.clone(), node.bound)
        };
        if !self.rng.chance(self.style.dawdle) && (self.close(goal.node, &set, bound) || self.link(goal.node)) {
            return Some(Vec::new());
        }
        if self.nodes.len() + 2 > self.style.max_nodes {
            return None;
        }
        let may_split = bound.may_split() && goal.splits < 12;
        if may_split && self.rng.chance(self.style.split) {
            return self.split(goal, false);
        }
        let active: Vec<i32> =
            set.iter().copied().filter(|row| !self.inert.contains(row) && !goal.used.contains(row)).collect();
        let of_kind = |pool: &Pool, kind: i32| -> Vec<i32> {
            active.iter().copied().filter(|row| pool.row(*row)[0] == kind).collect()
        };

        let ands = of_kind(self.pool, AND);
        if !ands.is_empty() {
            let on = self.rng.pick(&ands);
            let [_, a, b, _] = self.pool.row(on);
            self.fill(goal.node, 0, on, -1, -1);
            return Some(vec![self.child(&goal, on, vec![a, b])]);
        }
        let (due_ands, blocked_ands) = self.due(&goal, of_kind(self.pool, BIG_AND), bound);
        if !due_ands.is_empty() {
            let on = self.rng.pick(&due_ands);
            let (with, other) = self.unfolded(on)?;
            self.fill(goal.node, 3, on, with, other);
            return Some(vec![self.child(&goal, on, vec![with, other])]);
        }
        let (due_ors, blocked_ors) = self.due(&goal, of_kind(self.pool, BIG_OR), bound);
        let ors = of_kind(self.pool, OR);
        let best = self.best_or(&ors, &set, bound);
        if !due_ors.is_empty() && best.is_none() && (ors.is_empty() || self.rng.chance(50)) {
            let on = self.rng.pick(&due_ors);
            let (with, other) = self.unfolded(on)?;
            self.fill(goal.node, 4, on, with, other);
            return Some(vec![self.child(&goal, on, vec![with]), self.child(&goal, on, vec![other])]);
        }
        if !ors.is_empty() {
            let on = match best {
                Some(best) if self.rng.chance(self.style.best) => best,
                _ => self.rng.pick(&ors),
            };
            let [_, a, b, _] = self.pool.row(on);
            self.fill(goal.node, 1, on, -1, -1);
            return Some(vec![self.child(&goal, on, vec![a]), self.child(&goal, on, vec![b])]);
        }
        if !may_split || goal.unfolds >= self.style.max_unfolds {
            return None;
        }
        if !blocked_ands.is_empty() || !blocked_ors.is_empty() {
            return self.split(goal, false);
        }
        let all_unfold = active.iter().all(|row| {
            let [kind, _, b, c] = self.pool.row(*row);
            kind < BIG_AND || bound.least >= b + c
        });
        if all_unfold && self.rng.chance(self.style.eager) {
            goal.unfolds += 1;
            return Some(vec![goal]);
        }
        self.split(goal, true)
    }

    fn fill(&mut self, node: usize, rule: i32, on: i32, with: i32, other: i32) {
        let node = &mut self.nodes[node];
        (node.rule, node.on, node.with, node.other) = (rule, on, with, other);
    }

    fn split(&mut self, goal: Goal, unfold: bool) -> Option<Vec<Goal>> {
        self.fill(goal.node, 2, -1, -1, -1);
        let bound = self.nodes[goal.node].bound;
        let by = if self.rng.chance(self.style.ranges) { self.split_above(goal.node) } else { 0 };
        self.nodes[goal.node].by = by;
        let [below, above] = bound.split(by);
        let mut first = self.child_with_bound(&goal, None, Vec::new(), below);
        let mut second = self.child_with_bound(&goal, None, Vec::new(), above);
        first.splits += 1;
        second.splits += 1;
        second.unfolds += i32::from(unfold);
        Some(vec![first, second])
    }

    /// K, named, where an iteration of the set is still empty, or some K from L on.
    fn split_above(&mut self, node: usize) -> i32 {
        let Growing { set, bound, .. } = &self.nodes[node];
        let mut last: Vec<i32> = Vec::new();
        for row in set {
            let [kind, _, b, c] = self.pool.row(*row);
            if kind >= BIG_AND && bound.least < b + c {
                last.push(b + c - 1);
            }
        }
        let bound = *bound;
        let k = if !last.is_empty() && self.rng.chance(60) {
            self.rng.pick(&last)
        } else {
            bound.least + self.rng.pick(&[0, 1, 1, 2, 3, 7, 20])
        };
        bound.by(k.min(bound.last_split()), self.rng)
    }

    fn child(&mut self, goal: &Goal, on: i32, given: Vec<i32>) -> Goal {
        let bound = self.nodes[goal.node].bound;
        self.child_with_bound(goal, Some(on), given, bound)
    }

    fn child_with_bound(&mut self, goal: &Goal, on: Option<i32>, given: Vec<i32>, bound: Bound) -> Goal {
        let mut used = goal.used.clone();
        let mut set = self.nodes[goal.node].set.clone();
        if let Some(on) = on {
            if self.rng.chance(self.style.keep) {
                used.push(on);
            } else {
                set.retain(|row| *row != on);
            }
        }
        set.extend(&given);
        set.sort_unstable();
        set.dedup();
        if self.rng.chance(self.style.prune) {
            self.prune(&mut set, &used, bound);
        }
        let node = self.nodes.len();
        self.nodes.push(new_node(goal.node as i32, set, bound, given));
        self.nodes[goal.node].children.push(node);
        Goal { node, unfolds: goal.unfolds, used, splits: goal.splits }
    }

    /// Iterations that are to be unfolded now, and those that cannot be although they are due.
    fn due(&self, goal: &Goal, rows: Vec<i32>, bound: Bound) -> (Vec<i32>, Vec<i32>) {
        let (mut due, mut blocked) = (Vec::new(), Vec::new());
        for row in rows {
            let [kind, a, b, c] = self.pool.row(row);
            let first = self.first_limit.get(&(kind, a, b)).copied().unwrap_or(c);
            if !bound.is_exact() && c - first >= goal.unfolds {
                continue;
            }
            if bound.least >= b + c {
                due.push(row);
            } else {
                blocked.push(row);
            }
        }
        (due, blocked)
    }

    fn unfolded(&mut self, on: i32) -> Option<(i32, i32)> {
        let [kind, a, b, c] = self.pool.row(on);
        Some((self.pool.add([kind, a, b, c + 1])?, self.pool.instance(a, c)?))
    }

    /// Rules 5, 6 and 7.
    fn close(&mut self, node: usize, set: &[i32], bound: Bound) -> bool {
        let set: Vec<i32> = set.iter().copied().filter(|row| !self.inert.contains(row)).collect();
        let mut ways = Vec::new();
        for on in &set {
            let [kind, a, b, c] = self.pool.row(*on);
            match kind {
                FALSE => ways.push((5, *on, -1)),
                BIG_OR if bound.is_below(b + c) => ways.push((7, *on, -1)),
                LITERAL => {
                    for with in &set {
                        let [kind, a_with, b_with, c_with] = self.pool.row(*with);
                        let index = |base: i32, offset: i32| if base == ON_N { bound.least + offset } else { offset };
                        let by_value = bound.is_exact() && index(b, c) == index(b_with, c_with);
                        let meet = (b, c) == (b_with, c_with) || by_value;
                        if kind == NEGATED && a == a_with && meet {
                            ways.push((6, *on, *with));
                        }
                    }
                }
                _ => {}
            }
        }
        if ways.is_empty() {
            return false;
        }
        let (rule, on, with) = self.rng.pick(&ways);
        self.fill(node, rule, on, with, -1);
        true
    }

    /// The nodes in the order in which they got their rules, then those that got none.
    fn order(&self) -> Vec<usize> {
        let mut order: Vec<usize> = Vec::new();
        let mut taken = vec![false; self.nodes.len()];
        for node in self.expanded.iter().copied().chain(0..self.nodes.len()) {
            if !std::mem::replace(&mut taken[node], true) {
                order.push(node);
            }
        }
        order
    }

    /// Nodes that a link of this node may go to.
    fn targets(&mut self, node: usize) -> Vec<usize> {
        let up = |node: &usize| usize::try_from(self.nodes[*node].up).ok();
        let mut above: Vec<usize> = std::iter::successors(up(&node), up).collect();
        let mut others: Vec<usize> = match self.style.targets {
            Targets::Ancestors => return above,
            Targets::Created => (0..node).collect(),
            Targets::Expanded => self.expanded.iter().copied().filter(|other| *other != node).collect(),
        };
        others.retain(|other| !above.contains(other));
        self.rng.shuffle(&mut others);
        others.truncate(40);
        if self.rng.chance(70) {
            others.append(&mut above);
            others
        } else {
            above.append(&mut others);
            above
        }
    }

    /// Rule 8.
    fn link(&mut self, node: usize) -> bool {
        for to in self.targets(node) {
            let (bound, into) = (self.nodes[node].bound, self.nodes[to].bound);
            for by in 1..=(bound.least - into.least).min(4) {
                if !into.covers(bound.lowered(by)) {
                    continue;
                }
                if let Some(partners) = self.partners(&self.nodes[to].set, &self.nodes[node].set, by) {
                    if self.rng.chance(3) {
                        continue;
                    }
                    let node = &mut self.nodes[node];
                    (node.rule, node.to, node.by, node.partners) = (8, to as i32, by, partners);
                    return true;
                }
            }
        }
        false
    }

    fn partners(&self, target: &[i32], set: &[i32], by: i32) -> Option<Vec<(i32, i32)>> {
        let rows: Vec<i32> = target.iter().copied().filter(|row| !self.inert.contains(row)).collect();
        if !self.pool.formulas.all_lowered(&rows, set, by) {
            return None;
        }
        let mut partners = Vec::new();
        for row in rows {
            let partner = set.iter().find(|partner| self.pool.formulas.lowered(row, **partner, by))?;
            partners.push((row, *partner));
        }
        Some(partners)
    }

    /// The or with a side that the set's literals contradict.
    fn best_or(&mut self, ors: &[i32], set: &[i32], bound: Bound) -> Option<i32> {
        let literals: Vec<i32> =
            set.iter().copied().filter(|row| matches!(self.pool.row(*row)[0], LITERAL | NEGATED)).collect();
        let mut best: Vec<i32> = Vec::new();
        for or in ors {
            let [_, a, b, _] = self.pool.row(*or);
            if self.contradicted(a, &literals, bound) || self.contradicted(b, &literals, bound) {
                best.push(*or);
            }
        }
        if best.is_empty() {
            None
        } else {
            Some(self.rng.pick(&best))
        }
    }

    fn contradicted(&self, number: i32, literals: &[i32], bound: Bound) -> bool {
        let row = self.pool.row(number);
        match row[0] {
            FALSE => true,
            LITERAL | NEGATED => literals.iter().any(|literal| {
                let other = self.pool.row(*literal);
                let index = |row: [i32; 4]| if row[2] == ON_N { bound.least + row[3] } else { row[3] };
                row[0] != other[0]
                    && row[1] == other[1]
                    && (row[2..] == other[2..] || (bound.is_exact() && index(row) == index(other)))
            }),
            AND => self.contradicted(row[1], literals, bound) || self.contradicted(row[2], literals, bound),
            OR => self.contradicted(row[1], literals, bound) && self.contradicted(row[2], literals, bound),
            BIG_OR => bound.is_below(row[2] + row[3]),
            _ => false,
        }
    }

    /// Drops what can be of no use: true, big ands without range, ors with a side that stands in the
    /// set, literals whose opposite cannot come up.
    fn prune(&mut self, set: &mut Vec<i32>, used: &[i32], bound: Bound) {
        let before = set.clone();
        set.retain(|number| {
            let [kind, a, b, c] = self.pool.row(*number);
            match kind {
                _ if self.inert.contains(number) => self.rng.chance(60),
                TRUE => false,
                BIG_AND => !bound.is_below(b + c),
                OR => !before.contains(&a) && !before.contains(&b),
                _ => true,
            }
        });
        let occurrences: Vec<(i32, Rc<Vec<Occurrence>>)> = set
            .iter()
            .filter(|row| !self.inert.contains(row) && !used.contains(row))
            .map(|row| (*row, occurrences(self.pool, &mut self.occurrences, *row)))
            .collect();
        let pool = &*self.pool;
        set.retain(|number| {
            let row = pool.row(*number);
            if !matches!(row[0], LITERAL | NEGATED) {
                return true;
            }
            let mut all = occurrences.iter().flat_map(|(_, list)| list.iter());
            all.any(|occurrence| may_meet(row, occurrence, bound))
        });
    }

    /// What was left open gets some rule without children.
    fn invent_rules(&mut self) {
        for number in 0..self.nodes.len() {
            if self.nodes[number].rule >= 0 {
                continue;
            }
            let set = self.nodes[number].set.clone();
            let row = |rng: &mut Rng| if set.is_empty() { 0 } else { rng.pick(&set) };
            let (first, second) = (row(self.rng), row(self.rng));
            match self.rng.below(5) {
                0 => self.fill(number, 5, first, -1, -1),
                1 => self.fill(number, 6, first, second, -1),
                2 => self.fill(number, 7, first, -1, -1),
                _ => {
                    let to = if number == 0 { -1 } else { self.nodes[number].up };
                    let node = &mut self.nodes[number];
                    (node.rule, node.to, node.by) = (8, to, 1);
                }
            }
        }
    }

    /// The sets as they are handed over: what is needed below, and some more.
    fn choose_sets(&mut self, root: i32) -> Vec<Vec<i32>> {
        let count = self.nodes.len();
        let mut is_target = vec![false; count];
        for node in &self.nodes {
            if node.rule == 8 && node.to >= 0 {
                is_target[node.to as usize] = true;
            }
        }
        let mut needed: Vec<BTreeSet<i32>> = vec![BTreeSet::new(); count];
        loop {
            let mut changed = false;
            for number in (0..count).rev() {
                let node = &self.nodes[number];
                let mut need = BTreeSet::new();
                if node.on >= 0 {
                    need.insert(node.on);
                }
                if node.rule == 6 {
                    need.insert(node.with);
                }
                if node.rule == 8 && node.to >= 0 {
                    let target = &needed[node.to as usize];
                    need.extend(
                        node.partners.iter().filter(|(row, _)| target.contains(row)).map(|(_, partner)| *partner),
                    );
                }
                if is_target[number] && self.style.fat {
                    need.extend(node.set.iter().filter(|row| !self.inert.contains(row)));
                }
                for child in &node.children {
                    let given = &self.nodes[*child].given;
                    need.extend(needed[*child].iter().filter(|row| !given.contains(row)));
                }
                if need != needed[number] {
                    needed[number] = need;
                    changed = true;
                }
            }
            if !changed {
                break;
            }
        }
        let sets = self.fill_sets(root, &needed, &is_target, self.style.carry);
        if sets.iter().map(Vec::len).sum::<usize>() <= MAX_MEMBERS {
            return sets;
        }
        self.fill_sets(root, &needed, &is_target, 0)
    }

    fn fill_sets(&mut self, root: i32, needed: &[BTreeSet<i32>], is_target: &[bool], carry: usize) -> Vec<Vec<i32>> {
        let mut sets: Vec<Vec<i32>> = vec![vec![root]];
        for number in 1..self.nodes.len() {
            let node = &self.nodes[number];
            let mut set: BTreeSet<i32> = needed[number].clone();
            if !is_target[number] {
                for row in sets[node.up as usize].iter().chain(&node.given) {
                    if self.rng.chance(carry) {
                        set.insert(*row);
                    }
                }
            }
            sets.push(set.into_iter().collect());
        }
        sets
    }
}

fn new_node(up: i32, set: Vec<i32>, bound: Bound, given: Vec<i32>) -> Growing {
    Growing {
        up,
        rule: -1,
        on: -1,
        with: -1,
        other: -1,
        to: -1,
        by: 0,
        set,
        bound,
        given,
        children: Vec::new(),
        partners: Vec::new(),
    }
}

/// The literals that stand in a row.
fn occurrences(pool: &Pool, known: &mut HashMap<i32, Rc<Vec<Occurrence>>>, number: i32) -> Rc<Vec<Occurrence>> {
    if let Some(list) = known.get(&number) {
        return Rc::clone(list);
    }
    let mut list = Vec::new();
    let [kind, a, b, c] = pool.row(number);
    match kind {
        LITERAL | NEGATED => {
            list.push(Occurrence { positive: kind == LITERAL, symbol: a, base: b, offset: c, b: 0, c: 0 });
        }
        AND | OR => {
            list.extend(occurrences(pool, known, a).iter());
            list.extend(occurrences(pool, known, b).iter());
        }
        BIG_AND | BIG_OR => {
            list.extend(occurrences(pool, known, a).iter().map(|occurrence| Occurrence { b, c, ..*occurrence }));
        }
        _ => {}
    }
    list.sort_unstable_by_key(|o| (o.symbol, o.positive, o.base, o.offset, o.b, o.c));
    list.dedup_by_key(|o| (o.symbol, o.positive, o.base, o.offset, o.b, o.c));
    let list = Rc::new(list);
    known.insert(number, Rc::clone(&list));
    list
}

/// The literal and the occurrence may be opposites at some n of the bound.
fn may_meet(literal: [i32; 4], occurrence: &Occurrence, bound: Bound) -> bool {
    let [kind, symbol, base, offset] = literal;
    if symbol != occurrence.symbol || (kind == LITERAL) == occurrence.positive {
        return false;
    }
    let Occurrence { base: other_base, offset: other, b, c, .. } = *occurrence;
    // The literal's index is n + offset or offset; the range of i + other is b + other up to n - c + other.
    match (base == ON_N, other_base) {
        (true, ON_I) => offset <= other - c && !bound.is_below(b + other - offset),
        (false, ON_I) => b + other <= offset && !bound.is_below(offset + c - other),
        (false, ON_N) => bound.has(offset - other),
        (true, PLAIN) => bound.has(other - offset),
        _ => offset == other,
    }
}
