//! The rule of a node in words, with its formulas.

use crate::bounds::Bound;
use crate::notation::{last_i, Notation};
use zorambi::words::RULES;
use zorambi::Node;

/// Columns of a literal, or of what stands in its place.
const LITERAL: usize = 40;

/// The rule of a node: `rule 0, and: both parts of row 4`. What it says of n it takes from what the node knows of n.
pub fn rule(node: &Node, bound: Option<Bound>, notation: &Notation) -> String {
    let [_, rule, ..] = *node;
    match usize::try_from(rule).ok().and_then(|rule| RULES.get(rule)) {
        Some(name) => format!("rule {rule}, {name}: {}", what_follows(node, bound, notation)),
        None => format!("rule {rule}: there is no such rule"),
    }
}

/// What the rule says of its node.
fn what_follows(&[_, rule, on, with, other, to, by, ..]: &Node, bound: Option<Bound>, notation: &Notation) -> String {
    match rule {
        0 => format!("both parts of row {on}"),
        1 => format!("the left or the right part of row {on}"),
        2 => split(by, bound),
        3 => format!("row {on} with its last i apart is row {with} and row {other}"),
        4 => format!("row {on} with its last i apart is row {with} or row {other}"),
        5 => format!("row {on} is false"),
        6 => clash(on, with, bound, notation),
        7 => void(on, bound, notation),
        _ => format!("a link to node {to} by {by}"),
    }
}

/// `n is 1, or it is 2 or more`.
fn split(by: i32, bound: Option<Bound>) -> String {
    let Some(bound) = bound else { return format!("n is up to {by}, or it is more") };
    let [first, second] = bound.split(by).map(|Bound { least, most }| match most {
        None => format!("{least} or more"),
        Some(most) if most == least => least.to_string(),
        Some(most) => format!("{least} to {most}"),
    });
    format!("n is {first}, or it is {second}")
}

/// `p(n) and ¬p(n)`; where the indices are written otherwise, that they are equal at the n that is known.
fn clash(on: i32, with: i32, bound: Option<Bound>, notation: &Notation) -> String {
    let both = format!("{} and {}", notation.brief(on, LITERAL), notation.brief(with, LITERAL));
    let index = |row: i32| usize::try_from(row).ok().and_then(|row| notation.rows.get(row)).map(|row| [row[2], row[3]]);
    match bound {
        Some(Bound { least, .. }) if bound.is_some_and(|bound| bound.is_exact()) && index(on) != index(with) => {
            format!("{both}, where n is {least}")
        }
        _ => both,
    }
}

/// `there is no i from 2 to 1, so row 2 is false`.
fn void(on: i32, bound: Option<Bound>, notation: &Notation) -> String {
    let row = usize::try_from(on).ok().and_then(|on| notation.rows.get(on));
    let Some([6 | 7, _, first, c]) = row else { return format!("row {on} has no i, so it is false") };
    let last = match bound {
        Some(Bound { least, most: Some(most) }) => {
            let or_less = if least == most { "" } else { " or less" };
            format!("{}{or_less}", most - i64::from(*c))
        }
        _ => last_i(*c),
    };
    format!("there is no i from {first} to {last}, so row {on} is false")
}

#[cfg(test)]
mod tests {
    use super::*;
    use crate::{Names, Style};

    #[test]
    fn every_rule() {
        let rows = [[2, 0, 1, 0], [3, 0, 0, 3], [7, 0, 5, 1], [3, 0, 1, 0]];
        let names = Names::default();
        let notation = Notation::new(&rows, &names, Style::Unicode);
        let (open, exact) = (Bound { least: 1, most: None }, Bound { least: 3, most: Some(3) });
        let range = Bound { least: 2, most: Some(4) };
        for (rule_and_fields, bound, words) in [
            ([0, 2, -1, -1, -1, 0], open, "rule 0, and: both parts of row 2"),
            ([1, 2, -1, -1, -1, 0], open, "rule 1, or: the left or the right part of row 2"),
            ([2, -1, -1, -1, -1, 0], open, "rule 2, split: n is 1, or it is 2 or more"),
            ([2, -1, -1, -1, -1, 7], open, "rule 2, split: n is 1 to 7, or it is 8 or more"),
            ([2, -1, -1, -1, -1, 0], range, "rule 2, split: n is 2, or it is 3 to 4"),
            ([2, -1, -1, -1, -1, 3], range, "rule 2, split: n is 2 to 3, or it is 4"),
            ([3, 2, 7, 8, -1, 0], open, "rule 3, unfold and: row 2 with its last i apart is row 7 and row 8"),
            ([4, 2, 7, 8, -1, 0], open, "rule 4, unfold or: row 2 with its last i apart is row 7 or row 8"),
            ([5, 2, -1, -1, -1, 0], open, "rule 5, false: row 2 is false"),
            ([6, 0, 3, -1, -1, 0], open, "rule 6, clash: p0(n) and ¬p0(n)"),
            ([6, 0, 3, -1, -1, 0], exact, "rule 6, clash: p0(n) and ¬p0(n)"),
            ([6, 0, 1, -1, -1, 0], exact, "rule 6, clash: p0(n) and ¬p0(3), where n is 3"),
            ([6, 0, 9, -1, -1, 0], open, "rule 6, clash: p0(n) and <row 9>"),
            ([7, 2, -1, -1, -1, 0], exact, "rule 7, void: there is no i from 5 to 2, so row 2 is false"),
            ([7, 2, -1, -1, -1, 0], range, "rule 7, void: there is no i from 5 to 3 or less, so row 2 is false"),
            ([7, 2, -1, -1, -1, 0], open, "rule 7, void: there is no i from 5 to n-1, so row 2 is false"),
            ([7, 0, -1, -1, -1, 0], open, "rule 7, void: row 0 has no i, so it is false"),
            ([8, -1, -1, -1, 1, 2], open, "rule 8, loop: a link to node 1 by 2"),
            ([9, 0, 0, 0, 0, 0], open, "rule 9: there is no such rule"),
            ([-1, 0, 0, 0, 0, 0], open, "rule -1: there is no such rule"),
        ] {
            let [r, on, with, other, to, by] = rule_and_fields;
            assert_eq!(rule(&[0, r, on, with, other, to, by, 0, 0], Some(bound), &notation), words);
        }
        assert_eq!(
            rule(&[0, 2, -1, -1, -1, -1, 5, 0, 0], None, &notation),
            "rule 2, split: n is up to 5, or it is more"
        );
    }
}
