//! A node's fields: 12 those that do not fit the rule, 13 a link's target, 17 the number of children.

use crate::formulas::no_row;
use crate::rows::kind_name;
use crate::sets::set_text;
use crate::tableau::{Node, Tableau, CHILDREN};
use crate::why::{things, Why};
use zorambi::words::{counted, RULES};

/// What a rule uses: the kinds of on and with, and whether it uses other and to.
#[derive(Clone, Copy, Debug, PartialEq, Eq)]
pub struct Uses {
    pub on: Option<i32>,
    pub with: Option<i32>,
    pub other: bool,
    pub to: bool,
}

const fn uses(on: Option<i32>, with: Option<i32>, other: bool, to: bool) -> Uses {
    Uses { on, with, other, to }
}

pub const USES: [Uses; 9] = [
    uses(Some(4), None, false, false),
    uses(Some(5), None, false, false),
    uses(None, None, false, false),
    uses(Some(6), Some(6), true, false),
    uses(Some(7), Some(7), true, false),
    uses(Some(1), None, false, false),
    uses(Some(2), Some(3), false, false),
    uses(Some(7), None, false, false),
    uses(None, None, false, true),
];

/// What a field is to be, in the mend of one that is not used.
fn unused(node: usize, rule: &str, field: &str, value: i32, empty: i32) -> Option<Why> {
    (value != empty).then(|| {
        let line = format!("node {node}: {field} is {value}; {rule}, does not use it, so it has to be {empty}");
        Why::new(line, format!("write {empty} for {field}, or another rule"))
    })
}

pub fn fields(tableau: &Tableau, node: usize) -> Option<Why> {
    let at = tableau.nodes[node];
    let Some(rule) = at.rule() else {
        let rules: Vec<String> = RULES.iter().enumerate().map(|(rule, name)| format!("{rule} {name}")).collect();
        return Some(
            Why::new(
                format!("node {node}: rule is {}; rules are 0 to 8", at.rule),
                "write a rule's number into the second column",
            )
            .with(format!("the rules: {}", rules.join(", "))),
        );
    };
    let (name, uses) = (at.rule_name(), &USES[rule]);
    let row = |field: &'static str, value: i32, kind: Option<i32>, used: bool| {
        if used {
            row_fits(tableau, node, field, value, kind)
        } else {
            unused(node, &name, field, value, -1)
        }
    };
    row("on", at.on, uses.on, uses.on.is_some())
        .or_else(|| row("with", at.with, uses.with, uses.with.is_some()))
        .or_else(|| row("other", at.other, None, uses.other))
        .or_else(|| if uses.to { None } else { unused(node, &name, "to", at.to, -1) })
        .or_else(|| by(node, &at, &name))
        .or_else(|| in_set(tableau, node, "on", at.on, uses.on.is_some()))
        .or_else(|| in_set(tableau, node, "with", at.with, rule == 6))
        .or_else(|| symbols(tableau, node, &at))
        .map(|why| why.with(format!("set of node {node}: {}", set_text(tableau.set(node)))))
}

/// A field is a row of the kind that the rule names.
fn row_fits(tableau: &Tableau, node: usize, field: &str, value: i32, kind: Option<i32>) -> Option<Why> {
    let name = tableau.nodes[node].rule_name();
    let Some([found, ..]) = tableau.rows.get(value) else {
        let wants = kind.map_or("a row".to_string(), kind_name);
        let line = format!(
            "node {node}: {field} is {value}, which is no row; {name}, wants {wants}, and {}",
            no_row(&tableau.rows)
        );
        return Some(Why::new(line, format!("write the number of the row into {field}")));
    };
    let wanted = kind.filter(|kind| *kind != found)?;
    let line = format!(
        "node {node}: {field}, {}, is {}; {name}, wants {}",
        tableau.row(value),
        kind_name(found),
        kind_name(wanted)
    );
    Some(Why::new(line, mend_kind(field, wanted, found)))
}

/// What to write for a row of another kind: often its rule is meant.
fn mend_kind(field: &str, wanted: i32, found: i32) -> String {
    let rule = USES.iter().position(|uses| field == "on" && uses.on == Some(found));
    let meant = rule
        .map_or(String::new(), |rule| format!(", or rule {rule}, {}, which takes {}", RULES[rule], kind_name(found)));
    format!("write the number of {} into {field}{meant}", kind_name(wanted))
}

fn in_set(tableau: &Tableau, node: usize, field: &str, row: i32, wanted: bool) -> Option<Why> {
    (wanted && !tableau.set(node).contains(&row)).then(|| {
        let line = format!("node {node}: {field}, {}, is not in its set", tableau.row(row));
        Why::new(line, format!("a rule works on a row of the node's set: add {row} there, if the parent has or gives it, or name another"))
    })
}

/// The symbols of a clash.
fn symbols(tableau: &Tableau, node: usize, at: &Node) -> Option<Why> {
    let ([_, p, ..], [_, q, ..]) = (tableau.rows.get(at.on)?, tableau.rows.get(at.with)?);
    (at.rule == 6 && p != q).then(|| {
        let line = format!(
            "node {node}: on, {}, has symbol {p}, and with, {}, has symbol {q}; a clash has one symbol",
            tableau.row(at.on),
            tableau.row(at.with)
        );
        Why::new(line, "name a literal and its negation")
    })
}

fn by(node: usize, at: &Node, name: &str) -> Option<Why> {
    match at.rule {
        2 => (at.by < 0).then(|| {
            let line = format!("node {node}: a split's by (its K) is {}; it is 0 or more", at.by);
            Why::new(line, "write K, the largest n of the first child, or 0 for the least n that the node knows of")
        }),
        8 => (at.by < 1).then(|| {
            let line = format!("node {node}: by is {}; a loop lowers n by at least 1", at.by);
            Why::new(line, "a link goes to a smaller n: write by how much n is smaller there")
        }),
        _ => unused(node, name, "by", at.by, 0),
    }
}

pub fn target(tableau: &Tableau, node: usize) -> Option<Why> {
    let to = tableau.nodes[node].to;
    if usize::try_from(to).is_ok_and(|to| to < node) {
        return None;
    }
    let range = match node {
        0 => "no node comes before node 0".to_string(),
        1 => "a link from node 1 goes to node 0".to_string(),
        node => format!("a link goes to a node from 0 to {}", node - 1),
    };
    let mend = match usize::try_from(to) {
        Ok(later) if later > node && later < tableau.nodes.len() => {
            format!("number the nodes so that node {to} comes before node {node}, each after its parent")
        }
        Ok(own) if own == node => "a node cannot stand for itself: link to a node before it".to_string(),
        _ => "write the number of the node before it whose rows these are, at a smaller n".to_string(),
    };
    Some(Why::new(format!("node {node}: to is {to}; {range}"), mend))
}

pub fn children(tableau: &Tableau, node: usize) -> Option<Why> {
    let (at, there) = (tableau.nodes[node], tableau.children(node));
    let wanted = CHILDREN[at.rule()?];
    let numbers: Vec<i64> = there.iter().map(|child| *child as i64).collect();
    let has = if there.is_empty() {
        "has none".to_string()
    } else {
        format!("has {}: {}", there.len(), things("node", &numbers))
    };
    let line = match wanted {
        0 => format!("node {node}: {}, ends its branch and takes no children; it {has}", at.rule_name()),
        wanted => format!("node {node}: {}, wants {} and {has}", at.rule_name(), counted_children(wanted)),
    };
    let mend = if there.len() < wanted {
        format!("add {} more whose up is {node}", counted_nodes(wanted - there.len()))
    } else {
        format!("leave {} out, or name another up there", counted_nodes(there.len() - wanted))
    };
    (there.len() != wanted).then(|| Why::new(line, mend))
}

/// While a tableau grows: the node is a child more than its parent's rule has.
pub fn child_too_many(tableau: &Tableau, node: usize) -> Option<Why> {
    let parent = tableau.parent(node)?;
    let at = tableau.nodes[parent];
    let wanted = CHILDREN[at.rule()?];
    let there: Vec<i64> =
        tableau.children(parent).into_iter().filter(|child| *child < node).map(|child| child as i64).collect();
    if there.len() < wanted {
        return None;
    }
    let has = match wanted {
        0 => format!("ends its branch by {}, and takes no children", at.rule_name()),
        _ => format!("has the {} of {}: {}", counted_children(wanted), at.rule_name(), things("node", &there)),
    };
    Some(Why::new(
        format!("node {node}: its parent, node {parent}, {has}"),
        "'open' lists the nodes that want children: name one of them as up",
    ))
}

fn counted_children(count: usize) -> String {
    if count == 1 {
        "1 child".to_string()
    } else {
        format!("{count} children")
    }
}

fn counted_nodes(count: usize) -> String {
    counted(count, "node")
}
