//! 15: with or other is not what an unfolding makes; 16: a row of a link's target has no lowered partner.

use crate::alike::{Put, Written};
use crate::notation::limit;
use crate::sets::set_text;
use crate::tableau::{Node, Tableau};
use crate::why::{things, Why};

/// Rows of a link's target that are looked at.
const LOOKED_AT: usize = 2000;

pub fn unfolded(tableau: &Tableau, node: usize) -> Option<Why> {
    let at = tableau.nodes[node];
    let on = tableau.rows.get(at.on)?;
    with(tableau, node, &at, on).or_else(|| other(tableau, node, &at, on))
}

/// with is on, one step shorter: the same body and start, and c + 1.
fn with(tableau: &Tableau, node: usize, at: &Node, [kind, body, b, c]: [i32; 4]) -> Option<Why> {
    let [_, with_body, with_b, with_c] = tableau.rows.get(at.with)?;
    let wanted = i64::from(c) + 1;
    let differs = if with_body != body {
        format!("its body is row {with_body}, not row {body}")
    } else if with_b != b {
        format!("it starts at {with_b}, not at {b}")
    } else if i64::from(with_c) != wanted {
        format!("it runs to {}, not to {}", limit(with_c.into()), limit(wanted))
    } else {
        return None;
    };
    let line = format!(
        "node {node}: with, {}, is not {} without its last step: {differs}",
        tableau.row(at.with),
        tableau.row(at.on)
    );
    let row = format!("{kind} {body} {b} {wanted}");
    let there = i32::try_from(wanted)
        .ok()
        .and_then(|wanted| tableau.rows.all().iter().position(|row| *row == [kind, body, b, wanted]));
    let mend = match there {
        Some(there) => format!("row {there} is that row: write {there} into with"),
        None => format!("add the row {row} to the proof and name it in with"),
    };
    Some(
        Why::new(line, mend)
            .with(format!("with has to be the row {row}: the same body row, the same start, c larger by 1")),
    )
}

/// other is the body with n - c for i.
fn other(tableau: &Tableau, node: usize, at: &Node, [_, body, _, c]: [i32; 4]) -> Option<Why> {
    let mut written = Written::new(&tableau.rows);
    let wanted = written.write(body, Put::Instance(c.into()))?;
    let stands = written.write(at.other, Put::NOTHING)?;
    if written.are_alike(stands, wanted) {
        return None;
    }
    let line = format!(
        "node {node}: other, {}, is not the body of row {} (row {body}) with {} for i",
        tableau.row(at.other),
        at.on,
        limit(c.into())
    );
    let parting = written.first_parting(stands, wanted);
    let first = format!(
        "they part first where {} stands and {} is wanted",
        written.text(parting.stands),
        written.text(parting.wanted)
    );
    let wanted_text = written.text(wanted);
    let there = (0..tableau.rows.len() as i32)
        .find(|row| written.write(*row, Put::NOTHING).is_some_and(|row| written.are_alike(row, wanted)));
    let mend = match there {
        Some(there) => format!("row {there} is that formula: write {there} into other"),
        None => format!(
            "add the row for {wanted_text} to the proof and name it in other; sides may be swapped, not regrouped"
        ),
    };
    Some(Why::new(line, mend).with(format!("wanted: {wanted_text}")).with(first))
}

pub fn lowered(tableau: &Tableau, node: usize) -> Option<Why> {
    let at = tableau.nodes[node];
    let to = usize::try_from(at.to).ok().filter(|to| *to < node)?;
    let (set, k) = (tableau.set(node), i64::from(at.by));
    let mut written = Written::new(&tableau.rows);
    let here: Vec<usize> = set.iter().filter_map(|row| written.write(*row, Put::NOTHING)).collect();
    let mut lost = Vec::new();
    for &row in tableau.set(to).iter().take(LOOKED_AT) {
        let wanted = written.write(row, Put::Lower(k))?;
        if !here.iter().any(|row| written.are_alike(*row, wanted)) {
            lost.push((row, wanted));
        }
    }
    let &(row, wanted) = lost.first()?;
    let line = format!(
        "node {node} links to node {to}, whose {}, with n-{k} for n, has no equal in the set of node {node}",
        tableau.row(row)
    );
    let wanted_text = written.text(wanted);
    let target = tableau.line(to);
    let mut why = Why::new(line, mend(tableau, &mut written, node, row, wanted))
        .see("proof.txt", target)
        .with(format!("wanted: {wanted_text}"));
    why = match written.nearest(set, wanted) {
        None => why.with(format!("the set of node {node} is empty")),
        Some((_, stands)) if written.are_strange(stands, wanted) => why.with("no row of its set is like it"),
        Some((near, stands)) => why.with(format!(
            "nearest in the set of node {node}: {}{}",
            tableau.row(near),
            beside(&mut written, row, stands, wanted, k)
        )),
    };
    if lost.len() > 1 {
        let rows: Vec<i64> = lost.iter().map(|(row, _)| i64::from(*row)).collect();
        why = why.with(format!("so with {} of node {to}", things("row", &rows)));
    }
    Some(
        why.with(format!("set of node {to}: {}", set_text(tableau.set(to))))
            .with(format!("set of node {node}: {}", set_text(set))),
    )
}

/// What the nearest row is beside the wanted one.
fn beside(written: &mut Written, row: i32, stands: usize, wanted: usize, k: i64) -> String {
    match written.lowered_by(row, stands) {
        Some(0) => format!(", which is row {row} itself, not lowered"),
        Some(other) => format!(", which is row {row} lowered by {other}, not by {k}"),
        None => {
            let parting = written.first_parting(stands, wanted);
            format!(
                "; they part first where {} stands and {} is wanted",
                written.text(parting.stands),
                written.text(parting.wanted)
            )
        }
    }
}

/// The wanted row may be there, and only the set lack it.
fn mend(tableau: &Tableau, written: &mut Written, node: usize, row: i32, wanted: usize) -> String {
    let is_it =
        |number: &i32| written.write(*number, Put::NOTHING).is_some_and(|number| written.are_alike(number, wanted));
    let there = (0..tableau.rows.len() as i32).find(is_it);
    let parent = tableau.parent(node);
    match there {
        Some(there) if parent.is_some_and(|parent| tableau.set(parent).contains(&there)) => {
            format!("row {there} is that formula, and the parent has it: add {there} to the set of node {node}")
        }
        Some(there) => format!(
            "row {there} is that formula: get it into the set of node {node}, or take row {row} out of the target's"
        ),
        None => format!(
            "get it into the set of node {node}, by unfolding for instance, or take row {row} out of the target's set"
        ),
    }
}
