//! The tools' own refusals: 23 of converting, 24 to 26 of growing, 28 and 29 of joining, 31 of small tables. The
//! library has judged the tables that are counted here.

use crate::formulas::ill_small;
use crate::rows::{MAX_DEPTH, MAX_ROWS, MAX_SIZE};
use crate::tableau::{MAX_MEMBERS, MAX_NODES};
use crate::why::Why;
use std::collections::HashMap;
use zorambi::words::{counted, grouped};
use zorambi::{Proof, Record, Row, Schema};

/// 23: the limit that the plain rows of a wide schema pass.
pub fn plain(wide: &Schema) -> Option<Why> {
    let mend = "write the wide schema with fewer equivalences and exclusive ors: each of these gives six rows, and doubles its parts";
    Some(Why::new(plain_limit(wide)?, mend))
}

/// 28: both least values.
pub fn leasts(first: &Record, second: &Record) -> Option<Why> {
    let [one, other] = [first, second].map(|record| record.schema.least);
    (one != other).then(|| {
        let line = format!("the first record has the least value {one}, the second {other}");
        Why::new(
            line,
            format!("refute both from the same least n on: a record from {} on may be split there", one.min(other)),
        )
    })
}

/// 29: the limit that a join passes.
pub fn joint(first: &Record, second: &Record) -> Option<Why> {
    let line = format!("the join would have {}", joint_limit(first, second)?);
    Some(Why::new(line, "keep the two as records of their own, or make one of them smaller"))
}

/// 24: there is no room for a row with so many members in a tableau that grows.
pub fn room(held: &Record, set: usize) -> Option<Why> {
    let [nodes, members] = [held.proof.nodes.len(), held.proof.members.len()];
    if nodes >= MAX_NODES {
        let line = format!("{} nodes are held, and {} are allowed", grouped(nodes as u64), grouped(MAX_NODES as u64));
        return Some(Why::new(line, "take rows back, and close branches sooner"));
    }
    (members + set > MAX_MEMBERS).then(|| {
        let line = format!(
            "the row's set has {}, and {} are held: {} are allowed, so {} too many",
            counted(set, "member"),
            grouped(members as u64),
            grouped(MAX_MEMBERS as u64),
            grouped((members + set - MAX_MEMBERS) as u64)
        );
        Why::new(line, "leave rows out of the sets that are not needed below")
    })
}

/// 25: nothing to take back.
pub fn no_row() -> Why {
    Why::new("no node is held", "add a row first: '-1 RULE ..' with the root as its set")
}

/// 26: nothing to commit.
pub fn no_waiting() -> Why {
    let line = "none was asked about, or the answer was no, or a row was added or taken back since";
    Why::new(line, "ask with '? ROW' first; after a yes commit adds that row")
}

/// 31: the number of rows, or why a table is not on the list.
pub fn small(table: &[Row]) -> Option<Why> {
    if !(1..=3).contains(&table.len()) {
        return Some(small_rows(table.len()));
    }
    ill_small(table)
}

/// 31 of a number of rows.
pub fn small_rows(rows: usize) -> Why {
    Why::new(format!("{} asked for; small tables have 1 to 3", counted(rows, "row")), "ask for 1, 2 or 3 rows")
}

/// The limit that a size or a depth passes.
fn too_large(what: &str, size: u64, depth: u64) -> Option<String> {
    if size > MAX_SIZE {
        return Some(format!("{what} of size {}, {} allowed", grouped(size), grouped(MAX_SIZE)));
    }
    (depth > MAX_DEPTH).then(|| format!("{what} of depth {depth}, {MAX_DEPTH} allowed"))
}

fn too_many(what: &str, count: usize, most: usize) -> Option<String> {
    (count > most).then(|| format!("{} {what}, {} allowed", grouped(count as u64), grouped(most as u64)))
}

/// The limit that the plain rows of a wide schema pass.
fn plain_limit(wide: &Schema) -> Option<String> {
    let plain: usize = wide.rows.iter().map(|row| [2, 0, 2, 6, 6][(row[0] as usize).saturating_sub(7).min(4)]).sum();
    // Size and depth of a row itself and of its negation.
    let mut sizes: Vec<[[u64; 2]; 2]> = Vec::new();
    for &[kind, a, b, _] in &wide.rows {
        let both = |[x, y]: [[u64; 2]; 2]| [1 + x[0] + y[0], 1 + x[1].max(y[1])];
        let part = |row: i32| sizes[row as usize];
        sizes.push(match kind {
            4 | 5 => [0, 1].map(|side| both([part(a)[side], part(b)[side]])),
            6 | 7 => part(a).map(|[size, depth]| [1 + size, 1 + depth]),
            8 => [part(a)[1], part(a)[0]],
            9 => [both([part(a)[1], part(b)[0]]), both([part(a)[0], part(b)[1]])],
            10 | 11 => {
                let same = both([both([part(a)[0], part(b)[0]]), both([part(a)[1], part(b)[1]])]);
                let other = both([both([part(a)[0], part(b)[1]]), both([part(a)[1], part(b)[0]])]);
                if kind == 10 {
                    [same, other]
                } else {
                    [other, same]
                }
            }
            _ => [[1, 1]; 2],
        });
    }
    let large = |(row, [itself, negated]): (usize, &[[u64; 2]; 2])| {
        too_large(&format!("wide row {row} comes to a plain row"), itself[0].max(negated[0]), itself[1].max(negated[1]))
    };
    let many =
        too_many("plain rows", plain, MAX_ROWS).map(|many| format!("its {} wide rows come to {many}", wide.rows.len()));
    many.or_else(|| sizes.iter().enumerate().find_map(large))
}

/// The limit that the join of two records passes.
fn joint_limit(first: &Record, second: &Record) -> Option<String> {
    let [(size, depth), (more, deeper)] = [first, second].map(|record| root_size(&record.schema));
    too_many("formula rows", joint_rows(first, second), MAX_ROWS)
        .or_else(|| too_many("nodes", 1 + first.proof.nodes.len() + second.proof.nodes.len(), MAX_NODES))
        .or_else(|| too_many("members", 1 + first.proof.members.len() + second.proof.members.len(), MAX_MEMBERS))
        .or_else(|| too_large("a root", 1 + size + more, 1 + depth.max(deeper)))
}

/// Size and depth of the root.
fn root_size(schema: &Schema) -> (u64, u64) {
    let mut sizes: Vec<(u64, u64)> = Vec::new();
    for &[kind, a, b, _] in &schema.rows {
        sizes.push(match kind {
            4 | 5 => {
                let [(x, deep), (y, deeper)] = [a, b].map(|part| sizes[part as usize]);
                (1 + x + y, 1 + deep.max(deeper))
            }
            6 | 7 => (1 + sizes[a as usize].0, 1 + sizes[a as usize].1),
            _ => (1, 1),
        });
    }
    sizes[schema.root as usize]
}

/// The rows of the join: both schemata, the or, and the proof rows that equal no row before them.
fn joint_rows(first: &Record, second: &Record) -> usize {
    let [ours, theirs] = [first, second].map(|record| record.schema.rows.len());
    let mut rows: HashMap<Row, usize> = HashMap::new();
    let mut count = 0;
    // Where each row of either record stands in the join.
    let mut places = [Vec::new(), Vec::new()];
    let schemata = [(0, first), (1, second)];
    for (which, record) in schemata {
        for row in &record.schema.rows {
            rows.entry(moved(row, &places[which])).or_insert(count);
            places[which].push(count);
            count += 1;
        }
    }
    let roots = [(first.schema.root, 0), (second.schema.root, ours)].map(|(root, from)| root + from as i32);
    rows.entry([5, roots[0], roots[1], 0]).or_insert(ours + theirs);
    count += 1;
    for (which, Record { proof: Proof { rows: proof, .. }, .. }) in schemata {
        for row in proof {
            let place = *rows.entry(moved(row, &places[which])).or_insert(count);
            places[which].push(place);
            count += usize::from(place == count);
        }
    }
    count
}

/// A row with its parts where they stand in the join.
fn moved(&[kind, a, b, c]: &Row, places: &[usize]) -> Row {
    let at = |part: i32| places[part as usize] as i32;
    match kind {
        4 | 5 => [kind, at(a), at(b), c],
        6 | 7 => [kind, at(a), b, c],
        _ => [kind, a, b, c],
    }
}
