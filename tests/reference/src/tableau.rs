//! The check of a tableau.

use crate::formula::{judge_rows, Formulas, Twice, AND, BIG_AND, BIG_OR, FALSE, LITERAL, NEGATED, ON_N, OR};
use crate::{holds, refuse, Refusal, Verdict, MAX_MEMBERS, MAX_N, MAX_NODES, MAX_ROWS, NODE_WIDTH, ROW_WIDTH};

const RULE_AND: usize = 0;
const RULE_OR: usize = 1;
const RULE_SPLIT: usize = 2;
const RULE_UNFOLD_AND: usize = 3;
const RULE_UNFOLD_OR: usize = 4;
const RULE_CLASH: usize = 6;
const RULE_VOID: usize = 7;
const RULE_LOOP: usize = 8;

/// The least `by` that a rule which uses it may have: a link lowers n, a split's 0 stands for L.
const LINK_BY: Option<i32> = Some(1);
const SPLIT_BY: Option<i32> = Some(0);

/// One line of the paper's table of rules: the kinds named for `on` and `with`, whether `other` is
/// used, whether `to` is, the least `by` if it is used, and the number of children.
struct Rule {
    on: Option<i32>,
    with: Option<i32>,
    other: bool,
    to: bool,
    by: Option<i32>,
    children: usize,
}

const fn rule(on: Option<i32>, with: Option<i32>, other: bool, to: bool, by: Option<i32>, children: usize) -> Rule {
    Rule { on, with, other, to, by, children }
}

const RULES: [Rule; 9] = [
    rule(Some(AND), None, false, false, None, 1),
    rule(Some(OR), None, false, false, None, 2),
    rule(None, None, false, false, SPLIT_BY, 2),
    rule(Some(BIG_AND), Some(BIG_AND), true, false, None, 1),
    rule(Some(BIG_OR), Some(BIG_OR), true, false, None, 2),
    rule(Some(FALSE), None, false, false, None, 0),
    rule(Some(LITERAL), Some(NEGATED), false, false, None, 0),
    rule(Some(BIG_OR), None, false, false, None, 0),
    rule(None, None, false, true, LINK_BY, 0),
];

/// A node row, with its set found among the members.
#[derive(Clone, Copy)]
struct Node<'a> {
    up: i32,
    rule: i32,
    on: i32,
    with: i32,
    other: i32,
    to: i32,
    by: i32,
    set: &'a [i32],
}

impl<'a> Node<'a> {
    /// The first seven numbers of a row, and its set.
    fn new(row: &[i32], set: &'a [i32]) -> Node<'a> {
        let [up, rule, on, with, other, to, by] = std::array::from_fn(|field| row[field]);
        Node { up, rule, on, with, other, to, by, set }
    }
}

/// n ≥ `least`, and n ≤ `most` if there is an upper bound.
#[derive(Clone, Copy)]
struct Bound {
    least: i64,
    most: Option<i64>,
}

impl Bound {
    /// K of a split with this `by`.
    fn named(self, by: i32) -> i64 {
        if by == 0 {
            self.least
        } else {
            i64::from(by)
        }
    }

    /// The largest K of a split.
    fn last_split(self) -> i64 {
        self.most.unwrap_or(i64::from(MAX_N)) - 1
    }

    /// Every n of this bound, lowered by k, is within the target's bound.
    fn lowered_into(self, k: i32, target: Bound) -> bool {
        let k = i64::from(k);
        let above = self.least - k >= target.least;
        let below = target.most.is_none_or(|highest| self.most.is_some_and(|most| most - k <= highest));
        above && below
    }
}

/// What a check is lent: root and least value, then the four tables, each with its count.
#[derive(Clone, Copy, Debug)]
pub struct Record<'a> {
    pub root: i32,
    pub least: i32,
    pub schema: &'a [i32],
    pub schema_count: usize,
    pub proof: &'a [i32],
    pub proof_count: usize,
    pub nodes: &'a [i32],
    pub node_count: usize,
    pub members: &'a [i32],
    pub member_count: usize,
}

/// The check.
pub fn check(record: &Record) -> Verdict {
    verdict(judge_tables(Twice::Refused, Missing::Refused, record))
}

/// The check of older records: proof rows may be written twice.
pub fn check_older(record: &Record) -> Verdict {
    verdict(judge_tables(Twice::Allowed, Missing::Refused, record))
}

fn verdict(judged: Result<Kept, Refusal>) -> Verdict {
    match judged {
        Ok(kept) => Verdict::accepted(kept.nodes(), kept.links()),
        Err(refusal) => Verdict::refused(refusal),
    }
}

/// Whether a tableau may have no node, and a node too few children: while it grows it may.
#[derive(Clone, Copy, Debug, PartialEq, Eq)]
pub(crate) enum Missing {
    Refused,
    Allowed,
}

/// A tableau that keeps the rules.
pub(crate) struct Kept<'a> {
    root: i32,
    least: i64,
    formulas: Formulas,
    nodes: Vec<Node<'a>>,
    bounds: Vec<Bound>,
    children: Vec<usize>,
}

pub(crate) fn judge_tables<'a>(twice: Twice, missing: Missing, record: &Record<'a>) -> Result<Kept<'a>, Refusal> {
    let Record { root, least, schema, schema_count, proof, proof_count, .. } = *record;
    let Record { nodes, node_count, members, member_count, .. } = *record;
    let long_enough = holds(schema.len(), schema_count, ROW_WIDTH)
        && holds(proof.len(), proof_count, ROW_WIDTH)
        && holds(nodes.len(), node_count, NODE_WIDTH)
        && holds(members.len(), member_count, 1);
    if !long_enough {
        return refuse(2, -1);
    }
    if schema_count.saturating_add(proof_count) > MAX_ROWS || node_count > MAX_NODES || member_count > MAX_MEMBERS {
        return refuse(5, -1);
    }
    let formulas = judge_rows(twice, root, least, schema, schema_count, proof, proof_count)?;
    let nodes = find_sets(&formulas, &nodes[..node_count * NODE_WIDTH], &members[..member_count])?;
    if nodes.is_empty() && missing == Missing::Refused {
        return refuse(10, -1);
    }
    check_tree(&nodes, root)?;
    let least = i64::from(least);
    let (bounds, children) = check_rules(&formulas, &nodes, least, missing)?;
    Ok(Kept { root, least, formulas, nodes, bounds, children })
}

impl<'a> Kept<'a> {
    pub(crate) fn nodes(&self) -> usize {
        self.nodes.len()
    }

    /// The rule 8 rows.
    pub(crate) fn links(&self) -> usize {
        self.nodes.iter().filter(|node| node.rule == RULE_LOOP as i32).count()
    }

    /// Takes the last row away; false if there is none.
    pub(crate) fn pop(&mut self) -> bool {
        self.bounds.pop();
        self.children.pop();
        let last = self.nodes.pop();
        if let Some(up) = last.and_then(|node| usize::try_from(node.up).ok()) {
            self.children[up] -= 1;
        }
        last.is_some()
    }

    /// A further row at the end: 9, of its set's order and members, and 10; then 17 if its parent has all its children,
    /// and 11 to 16.
    pub(crate) fn push(&mut self, row: &[i32; 7], set: &'a [i32]) -> Result<(), Refusal> {
        let number = self.nodes.len();
        let node = Node::new(row, set);
        if !set_is_right(&self.formulas, set) {
            return refuse(9, number as i32);
        }
        if !parent_is_right(number, &node, self.root) {
            return refuse(10, number as i32);
        }
        let mut bound = Bound { least: self.least, most: None };
        if number > 0 {
            let up = node.up as usize;
            let (parent, position) = (&self.nodes[up], self.children[up]);
            if position == RULES[parent.rule as usize].children {
                return refuse(17, number as i32);
            }
            if !set_fits(&self.formulas, parent, position, set) {
                return refuse(11, number as i32);
            }
            bound = bound_of_child(self.bounds[up], parent, position);
            self.children[up] += 1;
        }
        self.nodes.push(node);
        self.bounds.push(bound);
        self.children.push(0);
        check_node(&self.formulas, &self.nodes, &self.bounds, number, 0, Missing::Allowed)
            .or_else(|answer| refuse(answer, number as i32))
    }
}

/// Refusal 9: sets follow one another from 0 to the last member; each is strictly ascending and
/// has outer rows only.
fn find_sets<'a>(formulas: &Formulas, nodes: &[i32], members: &'a [i32]) -> Result<Vec<Node<'a>>, Refusal> {
    let count = nodes.len() / NODE_WIDTH;
    let mut found = Vec::with_capacity(count);
    let mut used = 0;
    for (number, row) in nodes.chunks_exact(NODE_WIDTH).enumerate() {
        let (start, length) = (usize::try_from(row[7]), usize::try_from(row[8]));
        let (Ok(start), Ok(length)) = (start, length) else {
            return refuse(9, number as i32);
        };
        if start != used || length > members.len() - used {
            return refuse(9, number as i32);
        }
        let set = &members[start..start + length];
        used += length;
        let left_over = number + 1 == count && used < members.len();
        if !set_is_right(formulas, set) || left_over {
            return refuse(9, number as i32);
        }
        found.push(Node::new(row, set));
    }
    Ok(found)
}

fn set_is_right(formulas: &Formulas, set: &[i32]) -> bool {
    set.windows(2).all(|pair| pair[0] < pair[1]) && set.iter().all(|&row| formulas.outer(row))
}

/// Refusal 10: every up is right, node 0's set is the root alone.
fn check_tree(nodes: &[Node], root: i32) -> Result<(), Refusal> {
    match nodes.iter().enumerate().find(|(number, node)| !parent_is_right(*number, node, root)) {
        Some((number, _)) => refuse(10, number as i32),
        None => Ok(()),
    }
}

fn parent_is_right(number: usize, node: &Node, root: i32) -> bool {
    if number == 0 {
        node.up == -1 && node.set == [root]
    } else {
        usize::try_from(node.up).is_ok_and(|up| up < number)
    }
}

/// Refusals 11 to 17, node by node. A parent has a smaller number, so all is known to be right with
/// it, its number of children included, when its children are looked at. Gives each node's bound and number of children.
fn check_rules(
    formulas: &Formulas,
    nodes: &[Node],
    least: i64,
    missing: Missing,
) -> Result<(Vec<Bound>, Vec<usize>), Refusal> {
    // How many children each node has, and which child of its parent each node is (0 the first).
    let mut children = vec![0_usize; nodes.len()];
    let mut position = vec![0_usize; nodes.len()];
    for (number, node) in nodes.iter().enumerate().skip(1) {
        position[number] = children[node.up as usize];
        children[node.up as usize] += 1;
    }

    let mut bounds: Vec<Bound> = Vec::with_capacity(nodes.len());
    for (number, node) in nodes.iter().enumerate() {
        if number == 0 {
            bounds.push(Bound { least, most: None });
        } else {
            let up = node.up as usize;
            bounds.push(bound_of_child(bounds[up], &nodes[up], position[number]));
            if !set_fits(formulas, &nodes[up], position[number], node.set) {
                return refuse(11, number as i32);
            }
        }
        if let Err(answer) = check_node(formulas, nodes, &bounds, number, children[number], missing) {
            return refuse(answer, number as i32);
        }
    }
    Ok((bounds, children))
}

fn bound_of_child(bound: Bound, parent: &Node, position: usize) -> Bound {
    if parent.rule != RULE_SPLIT as i32 {
        bound
    } else if position == 0 {
        Bound { most: Some(bound.named(parent.by)), ..bound }
    } else {
        Bound { least: bound.named(parent.by) + 1, ..bound }
    }
}

/// The child's set is drawn from its parent's set and what the parent's rule gives this child.
fn set_fits(formulas: &Formulas, parent: &Node, position: usize, set: &[i32]) -> bool {
    let parts = formulas.row(parent.on);
    let (left, right) = match (parent.rule as usize, parts) {
        (RULE_AND | RULE_OR, Some([_, a, b, _])) => (Some(a), Some(b)),
        (RULE_UNFOLD_AND | RULE_UNFOLD_OR, _) => (Some(parent.with), Some(parent.other)),
        _ => (None, None),
    };
    let given = match parent.rule as usize {
        RULE_AND | RULE_UNFOLD_AND => [left, right],
        RULE_OR | RULE_UNFOLD_OR if position == 0 => [left, None],
        RULE_OR | RULE_UNFOLD_OR => [None, right],
        _ => [None, None],
    };
    set.iter().all(|row| given.contains(&Some(*row)) || stands_in(*row, parent.set))
}

/// Sets are strictly ascending.
fn stands_in(row: i32, set: &[i32]) -> bool {
    set.binary_search(&row).is_ok()
}

/// Refusals 12 to 17 at one node.
fn check_node(
    formulas: &Formulas,
    nodes: &[Node],
    bounds: &[Bound],
    number: usize,
    children: usize,
    missing: Missing,
) -> Result<(), u8> {
    let node = &nodes[number];
    let bound = bounds[number];

    // 12: the rule, and what the table says of its fields.
    let rule_number = usize::try_from(node.rule).unwrap_or(usize::MAX);
    let Some(rule) = RULES.get(rule_number) else {
        return Err(12);
    };
    let kind = |row: i32| formulas.row(row).map(|row| row[0]);
    let on_fits = match rule.on {
        Some(_) => kind(node.on) == rule.on && stands_in(node.on, node.set),
        None => node.on == -1,
    };
    let with_fits = match rule.with {
        Some(_) => kind(node.with) == rule.with,
        None => node.with == -1,
    };
    let other_fits = if rule.other { kind(node.other).is_some() } else { node.other == -1 };
    let to_fits = rule.to || node.to == -1;
    let by_fits = rule.by.map_or(node.by == 0, |least| node.by >= least);
    if !(on_fits && with_fits && other_fits && to_fits && by_fits) {
        return Err(12);
    }
    // From here on a used `on` or `with` is a row; an unused one is not looked at.
    let [_, on_a, on_b, on_c] = formulas.row(node.on).unwrap_or_default();
    let [_, with_a, with_b, with_c] = formulas.row(node.with).unwrap_or_default();
    if rule_number == RULE_CLASH && !(stands_in(node.with, node.set) && on_a == with_a) {
        return Err(12);
    }

    // 13: a link goes to a node with a smaller number.
    let target = if rule.to {
        match usize::try_from(node.to) {
            Ok(to) if to < number => to,
            _ => return Err(13),
        }
    } else {
        number
    };

    // 14: the bound, a split's K, a link's two bounds, or the index of a clash.
    let first_limit = i64::from(on_b) + i64::from(on_c);
    let bound_fits = match rule_number {
        RULE_SPLIT => (bound.least..=bound.last_split()).contains(&bound.named(node.by)),
        RULE_UNFOLD_AND | RULE_UNFOLD_OR => bound.least >= first_limit,
        RULE_CLASH => {
            (on_b, on_c) == (with_b, with_c)
                || (bound.most == Some(bound.least)
                    && value(on_b, on_c, bound.least) == value(with_b, with_c, bound.least))
        }
        RULE_VOID => bound.most.is_some_and(|most| most < first_limit),
        RULE_LOOP => bound.lowered_into(node.by, bounds[target]),
        _ => true,
    };
    if !bound_fits {
        return Err(14);
    }

    // 15: what an iteration is unfolded to.
    if rule_number == RULE_UNFOLD_AND || rule_number == RULE_UNFOLD_OR {
        let with_is_right = (with_a, with_b, with_c) == (on_a, on_b, on_c + 1);
        if !with_is_right || !formulas.instance(on_a, node.other, on_c) {
            return Err(15);
        }
    }

    // 16: each row of the target's set stands in this set, lowered.
    if rule.to && !formulas.all_lowered(nodes[target].set, node.set, node.by) {
        return Err(16);
    }

    // 17: the number of children.
    if children > rule.children || (missing == Missing::Refused && children < rule.children) {
        return Err(17);
    }
    Ok(())
}

/// The index of a literal outside an iteration, for this n.
fn value(base: i32, offset: i32, n: i64) -> i64 {
    i64::from(offset) + if base == ON_N { n } else { 0 }
}
