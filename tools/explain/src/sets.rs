//! Sets and parents: 9 a set's place, order or members, 10 a wrong parent, 11 a row that the parent does not give.

use crate::formulas::no_row;
use crate::notation::columns;
use crate::tableau::{Node, Tableau};
use crate::why::{things, Why};

/// Members of a set that are shown.
const SHOWN: usize = 12;

/// A set as its numbers, `2 3 7`, of a long one the start.
pub fn set_text(set: &[i32]) -> String {
    match set.len() {
        0 => "empty".to_string(),
        1..=SHOWN => columns(set),
        count => format!("{} .. ({count} rows)", columns(&set[..SHOWN])),
    }
}

pub fn set(tableau: &Tableau, node: usize) -> Option<Why> {
    placed(tableau, node).or_else(|| members(tableau, node)).or_else(|| left_over(tableau, node))
}

/// Where the sets before it end; what they lack is refused before.
fn end_before(tableau: &Tableau, node: usize) -> i64 {
    let of = |node: &Node| i64::from(node.start) + i64::from(node.length);
    node.checked_sub(1).map_or(0, |before| of(&tableau.nodes[before]))
}

/// The set's start, length and end among the members.
fn placed(tableau: &Tableau, node: usize) -> Option<Why> {
    let Node { start, length, .. } = tableau.nodes[node];
    let (end, count) = (end_before(tableau, node), tableau.members.len() as i64);
    let mend = "let each set start where the one before it ends, and end within the members counted";
    if i64::from(start) != end {
        let before =
            if node == 0 { "the first set starts at 0".to_string() } else { format!("the set before ends at {end}") };
        return Some(Why::new(format!("node {node}: its set starts at member {start}; {before}"), mend));
    }
    if length < 0 {
        return Some(Why::new(format!("node {node}: its set has length {length}, which is below 0"), mend));
    }
    let last = end + i64::from(length);
    (last > count).then(|| {
        let line = format!("node {node}: its set takes members {end} to {}; {count} are counted", last - 1);
        Why::new(line, mend)
    })
}

/// The first member that is no row, is not outer, or does not ascend.
fn members(tableau: &Tableau, node: usize) -> Option<Why> {
    let set = tableau.set(node);
    let whole = format!("its set: {}", set_text(set));
    set.iter()
        .enumerate()
        .find_map(|(at, &row)| member(tableau, node, at.checked_sub(1).map(|at| set[at]), row))
        .map(|why| why.with(whole))
}

fn member(tableau: &Tableau, node: usize, before: Option<i32>, row: i32) -> Option<Why> {
    let rows = &tableau.rows;
    if rows.get(row).is_none() {
        let line = format!("node {node}: {row} in its set is no row; {}", no_row(rows));
        return Some(Why::new(line, "a set lists numbers of formula rows, the schema's or the proof's"));
    }
    if let Some(stray) = rows.first(row, |facts| facts.on_i) {
        let text = tableau.row(row);
        let inner = if stray == row { "it".to_string() } else { tableau.row(stray) };
        let line = format!("node {node}: {text} in its set is not outer: {inner} is on i outside an iteration");
        return Some(Why::new(
            line,
            "a node's rows are true or false at n by themselves: list the iteration, or an instance, not its body",
        ));
    }
    let before = before?;
    if before == row {
        let line = format!("node {node}: row {row} stands twice in its set");
        return Some(Why::new(line, format!("write {row} once")));
    }
    (before > row).then(|| {
        let line = format!("node {node}: row {row} comes after row {before} in its set, which has to ascend");
        Why::new(line, "sort the set's numbers, each once")
    })
}

fn left_over(tableau: &Tableau, node: usize) -> Option<Why> {
    let end = end_before(tableau, node) + i64::from(tableau.nodes[node].length);
    let count = tableau.members.len() as i64;
    let is_last = node + 1 == tableau.nodes.len();
    (is_last && end < count).then(|| {
        let line = format!(
            "node {node} is the last, its set ends at member {end}, and {count} are counted: {} left over",
            count - end
        );
        Why::new(line, "count only the members that a set has")
    })
}

pub fn parent(tableau: &Tableau, place: Option<usize>) -> Option<Why> {
    let Some(node) = place else {
        return tableau.nodes.is_empty().then(|| {
            let line = "there is no node, so nothing is refuted";
            let first = format!("the first node has the root alone as its set: -1 RULE .. {}", tableau.root);
            Why::new(line, "write the tableau's nodes below the heading 'up rule on with other to by set'").with(first)
        });
    };
    let up = tableau.nodes[node].up;
    if node > 0 {
        let before = if node == 1 { "0".to_string() } else { format!("0 to {}", node - 1) };
        return tableau.parent(node).is_none().then(|| {
            let line = format!("node {node}: up is {up}; a parent is a node before it, {before}");
            Why::new(line, "number the nodes so that each comes after its parent; only node 0 has none (-1)")
        });
    }
    if up != -1 {
        let line = format!("node 0: up is {up}; node 0 has no parent, so its up is -1");
        return Some(Why::new(line, "write -1 for the first node's up"));
    }
    let set = tableau.set(0);
    (set != [tableau.root]).then(|| {
        let line = format!("node 0: its set is {}; it is the root alone, row {}", set_text(set), tableau.root);
        Why::new(line, "let the first node's set be the root; its parts come by rule 0 or 1")
            .with(format!("the root is {}", tableau.row(tableau.root)))
    })
}

/// The rows that the parent's rule gives this child, and what they are of it.
pub fn given(tableau: &Tableau, parent: usize, order: usize) -> (Vec<i32>, String) {
    let Node { rule, on, with, other, .. } = tableau.nodes[parent];
    let [_, left, right, _] = tableau.rows.get(on).unwrap_or_default();
    let child = if order == 0 { "its first child" } else { "its second child" };
    let name = tableau.nodes[parent].rule_name();
    let (rows, to) = match (rule, order) {
        (0, _) => (vec![left, right], "its child"),
        (1, 0) => (vec![left], child),
        (1, _) => (vec![right], child),
        (3, _) => (vec![with, other], "its child"),
        (4, 0) => (vec![with], child),
        (4, _) => (vec![other], child),
        _ => (Vec::new(), "its children"),
    };
    let texts: Vec<String> = rows.iter().map(|row| tableau.row(*row)).collect();
    let what = if texts.is_empty() { "nothing".to_string() } else { texts.join(" and ") };
    (rows, format!("{name}, gives {to} {what}"))
}

pub fn drawn(tableau: &Tableau, node: usize) -> Option<Why> {
    let parent = tableau.parent(node)?;
    let (rows, gives) = given(tableau, parent, tableau.order(node));
    let set = tableau.set(parent);
    let strays: Vec<i64> = tableau
        .set(node)
        .iter()
        .filter(|row| !set.contains(row) && !rows.contains(row))
        .map(|row| i64::from(*row))
        .collect();
    let first = i32::try_from(*strays.first()?).ok()?;
    let line = format!(
        "node {node}: {} is not in the set of its parent, node {parent}, nor given by its rule: {gives}",
        tableau.row(first)
    );
    let mut why = Why::new(
        line,
        "take it out of the set, or give it by a node between: a child's rows are its parent's and what the rule gives",
    )
    .see("proof.txt", tableau.line(parent))
    .with(format!("set of node {parent}: {}", set_text(set)))
    .with(format!("set of node {node}: {}", set_text(tableau.set(node))));
    if strays.len() > 1 {
        why = why.with(format!("so with {}", things("row", &strays)));
    }
    Some(why)
}
