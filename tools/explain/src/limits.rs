//! 14: what a node knows of n is not what its rule asks.

use crate::notation::{index, limit};
use crate::tableau::{Node, Tableau};
use crate::why::Why;

/// The largest K of a split at an open node.
const MAX_K: i64 = 9998;

pub fn bound(tableau: &Tableau, node: usize) -> Option<Why> {
    let at = tableau.nodes[node];
    match at.rule {
        2 => split(tableau, node, &at),
        3 | 4 => unfold(tableau, node, &at),
        6 => clash(tableau, node, &at),
        7 => void(tableau, node, &at),
        8 => link(tableau, node, &at),
        _ => None,
    }
}

fn split(tableau: &Tableau, node: usize, at: &Node) -> Option<Why> {
    let bound = tableau.bound(node);
    let knows = format!("node {node} knows {}", tableau.knows(bound));
    let (k, last) = (at.k(bound), bound.most.map_or(MAX_K, |high| high - 1));
    if (bound.least..=last).contains(&k) {
        return None;
    }
    if bound.least > last {
        let why = match bound.most {
            Some(_) => "there is nothing to split".to_string(),
            None => format!("a split's K is at most {MAX_K}, so none is left"),
        };
        return Some(Why::new(
            format!("{knows}: {why}"),
            "close the branch by another rule: only one n, or none below 9999, is left here",
        ));
    }
    let line = format!("{knows}: its split needs K from {} to {last}, by gives {k}", bound.least);
    let [first, second] = bound.split(0).map(|bound| tableau.knows(bound));
    Some(Why::new(line, format!("write a K from {} to {last} into by, or 0 for {}", bound.least, bound.least)).with(
        format!(
            "K is the largest n of the first child: with K = {} the children know {first} and {second}",
            bound.least
        ),
    ))
}

/// An iteration's first i, and the n from which on its range is not empty.
fn range(tableau: &Tableau, row: i32) -> Option<[i64; 3]> {
    let [_, _, b, c] = tableau.rows.get(row)?;
    let [b, c] = [b, c].map(i64::from);
    Some([b, c, b + c])
}

fn unfold(tableau: &Tableau, node: usize, at: &Node) -> Option<Why> {
    let knows = format!("node {node} knows {}", tableau.knows(tableau.bound(node)));
    let ([b, c, from], bound) = (range(tableau, at.on)?, tableau.bound(node));
    if bound.least >= from {
        return None;
    }
    let (row, runs) = (tableau.row(at.on), format!("runs from {b} to {}", limit(c)));
    if bound.most.is_some_and(|high| high < from) {
        let line = format!("{knows}, but {row} {runs} and is empty below n = {from}, so it has no last step");
        let mend = if at.rule == 4 {
            "an empty big or is false: close the branch by rule 7, void"
        } else {
            "an empty big and is true: leave it out"
        };
        return Some(Why::new(line, mend));
    }
    let line = format!("{knows}, but {row} {runs} and may be empty below n = {from}; split first");
    Some(
        Why::new(line, format!("split before it with by {}: the second child knows n >= {from}", from - 1)).with(
            format!("unfolding asks for n >= {from} here: its range has to have a last i, which is {}", limit(c)),
        ),
    )
}

fn clash(tableau: &Tableau, node: usize, at: &Node) -> Option<Why> {
    let knows = format!("node {node} knows {}", tableau.knows(tableau.bound(node)));
    let ([_, _, b, c], [_, _, d, e]) = (tableau.rows.get(at.on)?, tableau.rows.get(at.with)?);
    let (bound, rows) = (tableau.bound(node), format!("{} and {}", tableau.row(at.on), tableau.row(at.with)));
    let n = bound.least;
    let value = |b: i32, c: i32| i64::from(c) + if b == 1 { n } else { 0 };
    if (b, c) == (d, e) || bound.is_exact() && value(b, c) == value(d, e) {
        return None;
    }
    let mend = "name a literal and its negation with one index, or split until n is known";
    if bound.is_exact() {
        let line = format!("{knows}: {rows} have the indices {} and {} there", value(b, c), value(d, e));
        return Some(Why::new(line, mend));
    }
    if b == d {
        let line = format!("{knows}: {rows} have the indices {} and {}, never the same", index(b, c), index(d, e));
        return Some(Why::new(line, "name a literal and its negation with one index"));
    }
    let same = if b == 1 { i64::from(e) - i64::from(c) } else { i64::from(c) - i64::from(e) };
    let line = format!("{knows}: {rows} need not have the same index there");
    Some(Why::new(line, mend).with(format!(
        "their indices {} and {} are the same at n = {same} alone",
        index(b, c),
        index(d, e)
    )))
}

fn void(tableau: &Tableau, node: usize, at: &Node) -> Option<Why> {
    let knows = format!("node {node} knows {}", tableau.knows(tableau.bound(node)));
    let ([b, c, from], bound) = (range(tableau, at.on)?, tableau.bound(node));
    if bound.most.is_some_and(|high| high < from) {
        return None;
    }
    let row = tableau.row(at.on);
    let runs = format!("it runs from {b} to {}, so it has an i from n = {from} on", limit(c));
    if bound.least >= from {
        let line = format!("{knows}, but {row} is empty only up to n = {}", from - 1);
        return Some(Why::new(line, "it is never empty here: unfold it by rule 4 instead").with(runs));
    }
    let line = format!("{knows}, but {row} is empty only up to n = {}", from - 1);
    Some(
        Why::new(
            line,
            format!("split before it with by {}: in the first child it is void, in the second it unfolds", from - 1),
        )
        .with(runs),
    )
}

fn link(tableau: &Tableau, node: usize, at: &Node) -> Option<Why> {
    let to = usize::try_from(at.to).ok().filter(|to| *to < node)?;
    let (here, there, k) = (tableau.bound(node), tableau.bound(to), i64::from(at.by));
    let [here_text, there_text] = [here, there].map(|bound| tableau.knows(bound));
    let knows = |what: String| {
        format!("node {node} knows {here_text}, so n - {k} may be {what}; its target, node {to}, knows {there_text}")
    };
    let lowered = match here.most {
        None => format!("n - {k} is {} or more", here.least - k),
        Some(high) if high == here.least => format!("n - {k} is {}", high - k),
        Some(high) => format!("n - {k} is {} to {}", here.least - k, high - k),
    };
    let context = format!("at node {node} {lowered}, and node {to} has to know all of these");
    if here.least - k < there.least {
        let mend = format!(
            "link from where n >= {} is known, for instance below a split with by {}",
            there.least + k,
            there.least + k - 1
        );
        return Some(
            Why::new(knows((here.least - k).to_string()), mend).see("proof.txt", tableau.line(to)).with(context),
        );
    }
    let high = there.most?;
    here.most.is_none_or(|top| top - k > high).then(|| {
        let mend = format!("link from where n <= {} is known, or to a node without an upper bound", high + k);
        Why::new(knows(format!("over {high}")), mend).see("proof.txt", tableau.line(to)).with(context)
    })
}
