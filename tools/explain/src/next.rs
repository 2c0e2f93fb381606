//! What the next row of a tableau may be made of: the rows that a child may have, and the formula rows that a step needs.

use crate::alike::{Put, Written};
use crate::fields::USES;
use crate::sets::given;
use crate::tableau::{Node, Tableau};
use zorambi::Row;

/// What the next child of a node may have.
#[derive(Clone, Debug, PartialEq, Eq)]
pub struct Child {
    /// The set of its parent.
    pub set: Vec<i32>,
    /// The rows that its parent's rule gives it.
    pub given: Vec<i32>,
    /// That in words: `rule 4, unfold or, gives its first child row 5 (..)`.
    pub gives: String,
}

/// A formula row that a step needs.
#[derive(Clone, Debug, PartialEq, Eq)]
pub struct Needed {
    /// The field that names it; none for a row that a link's set has to have.
    pub field: Option<&'static str>,
    /// What it is: `row 2 without its last step`.
    pub what: String,
    pub text: String,
    /// The row that is it, if there is one.
    pub there: Option<i32>,
    /// If there is none, the rows to be written, of which it is the last.
    pub rows: Vec<Row>,
}

/// Rows of a link's target that are looked at.
const LOOKED_AT: usize = 2000;

pub fn child(tableau: &Tableau, parent: usize) -> Option<Child> {
    tableau.nodes.get(parent)?;
    let (given, gives) = given(tableau, parent, tableau.children(parent).len());
    Some(Child { set: tableau.set(parent).to_vec(), given, gives })
}

pub fn needed(tableau: &Tableau, node: usize) -> Option<Vec<Needed>> {
    let at = *tableau.nodes.get(node)?;
    match at.rule {
        3 | 4 => unfolded(tableau, &at),
        8 => lowered(tableau, node, &at),
        _ => None,
    }
}

/// The shortened iteration and the instance.
fn unfolded(tableau: &Tableau, at: &Node) -> Option<Vec<Needed>> {
    let [kind, body, b, c] = tableau.rows.get(at.on)?;
    if USES[at.rule()?].on != Some(kind) {
        return None;
    }
    let mut rows = tableau.rows.all().to_vec();
    let shorter = [kind, body, b, c.checked_add(1)?];
    let there = rows.iter().position(|row| *row == shorter);
    rows.push(shorter);
    let with = Needed {
        field: Some("with"),
        what: format!("row {} without its last step", at.on),
        text: tableau.rows.voice.formula(&rows, there.unwrap_or(rows.len() - 1)),
        there: there.map(|row| row as i32),
        rows: there.map_or(vec![shorter], |_| Vec::new()),
    };
    let mut written = Written::new(&tableau.rows);
    let instance = written.write(body, Put::Instance(c.into()))?;
    let what = format!("the last step of row {}", at.on);
    Some(vec![with, put(tableau, &mut written, instance, Some("other"), what)])
}

/// The lowered rows that are not there.
fn lowered(tableau: &Tableau, node: usize, at: &Node) -> Option<Vec<Needed>> {
    let to = usize::try_from(at.to).ok().filter(|to| *to < node)?;
    let mut written = Written::new(&tableau.rows);
    let mut needed = Vec::new();
    for &row in tableau.set(to).iter().take(LOOKED_AT) {
        let wanted = written.write(row, Put::Lower(at.by.into()))?;
        let what = format!("row {row} with n-{} for n", at.by);
        needed.push(put(tableau, &mut written, wanted, None, what));
    }
    needed.retain(|needed| needed.there.is_none());
    Some(needed)
}

/// What was written out as a row of the tables, or as rows that can follow them.
fn put(tableau: &Tableau, written: &mut Written, wanted: usize, field: Option<&'static str>, what: String) -> Needed {
    let all = tableau.rows.all();
    let is_it = |row: &i32| written.write(*row, Put::NOTHING).is_some_and(|row| written.are_alike(row, wanted));
    let there = (0..all.len() as i32).find(is_it);
    let mut rows = all.to_vec();
    if there.is_none() {
        written.put(wanted, &mut rows);
    }
    Needed { field, what, text: written.text(wanted), there, rows: rows.split_off(all.len()) }
}
