//! Rows that are not written as a text: 21 a number beyond 5 digits, or sets that do not follow one another, 22 an output that is too
//! short, or a text that is too long.

use crate::counts::{self, Lent};
use crate::why::Why;
use zorambi::words::grouped;
use zorambi::{Refusal, Refused, MAX_TEXT};

/// The largest number of a text.
const MOST: u32 = 99_999;

/// What is to be written: a line of numbers between the headings, if there is one, and rows.
pub struct Writing<'a> {
    /// Root and least, or n.
    pub first: &'a [i32],
    /// The formula rows or the pairs: the name of their table, its numbers, how many rows, the numbers of a row.
    pub rows: (&'static str, &'a [i32], usize, usize),
    /// The node rows and the members, each with its count, of a proof.
    pub nodes: Option<[(&'a [i32], usize); 2]>,
    /// The bytes of the headings.
    pub headings: usize,
    /// The bytes of the output.
    pub room: usize,
}

pub fn why(writing: &Writing, refused: Refused) -> Option<Why> {
    match refused.refusal {
        Refusal::TableTooShort => counts::too_short(&lent(writing)),
        Refusal::TooMany => {
            let formulas = if writing.rows.3 == 4 { writing.rows.2 } else { 0 };
            counts::too_many(formulas, 0, &lent(writing))
        }
        Refusal::Number => long_number(writing).or_else(|| stray_set(writing)),
        Refusal::Output => output(writing),
        _ => None,
    }
}

fn lent(writing: &Writing) -> Vec<Lent> {
    let (name, table, rows, width) = writing.rows;
    let mut lent = vec![Lent { name, length: table.len(), rows, width }];
    if let Some([(nodes, node_rows), (members, count)]) = writing.nodes {
        lent.push(Lent { name: "node", length: nodes.len(), rows: node_rows, width: 9 });
        lent.push(Lent { name: "member", length: members.len(), rows: count, width: 1 });
    }
    lent
}

/// The rows that are written, each with its name: of a node the seven numbers.
fn rows<'a>(writing: &Writing<'a>) -> Vec<(String, &'a [i32])> {
    let (name, table, count, width) = writing.rows;
    let mut rows = vec![("the first line".to_string(), writing.first)];
    rows.extend(table.chunks(width).take(count).enumerate().map(|(at, row)| (format!("{name} row {at}"), row)));
    if let Some([(nodes, node_rows), (members, count)]) = writing.nodes {
        rows.extend(
            nodes
                .chunks(9)
                .take(node_rows)
                .enumerate()
                .map(|(at, row)| (format!("node {at}"), &row[..row.len().min(7)])),
        );
        rows.push(("a set".to_string(), &members[..members.len().min(count)]));
    }
    rows
}

fn long_number(writing: &Writing) -> Option<Why> {
    let long = |(name, row): (String, &[i32])| Some((name, *row.iter().find(|number| number.unsigned_abs() > MOST)?));
    let (name, number) = rows(writing).into_iter().find_map(long)?;
    let line = format!("{name} has the number {number}; a text has numbers of at most 5 digits");
    Some(Why::new(line, "no row that the check accepts has such a number"))
}

fn stray_set(writing: &Writing) -> Option<Why> {
    let [(nodes, node_rows), (_, count)] = writing.nodes?;
    let mend = "let the sets follow one another from 0 to the last member";
    let mut end = 0;
    for (at, node) in nodes.as_chunks::<9>().0.iter().take(node_rows).enumerate() {
        let [.., start, length] = *node;
        if i64::from(start) != end || length < 0 {
            let line = format!(
                "node {at}: its set starts at member {start} with length {length}; the sets before end at {end}"
            );
            return Some(Why::new(line, mend));
        }
        end += i64::from(length);
    }
    (end != count as i64).then(|| Why::new(format!("the sets end at member {end}; {count} are counted"), mend))
}

fn output(writing: &Writing) -> Option<Why> {
    let digits = |number: &i32| number.to_string().len() as u64 + 1;
    let [sets, lines] = [true, false].map(|sets| {
        let rows = rows(writing).into_iter().filter(|(name, _)| (name == "a set") == sets);
        rows.map(|(_, row)| row.iter().map(digits).sum::<u64>()).sum::<u64>()
    });
    let bytes = writing.headings as u64 + sets + lines;
    let most = MAX_TEXT as u64;
    let line = if bytes > most {
        format!(
            "the text would have {} bytes, {} allowed: {} too many",
            grouped(bytes),
            grouped(most),
            grouped(bytes - most)
        )
    } else if bytes > writing.room as u64 {
        format!("the text has {} bytes, and the output has room for {}", grouped(bytes), grouped(writing.room as u64))
    } else {
        return None;
    };
    Some(Why::new(line, "make the text smaller, with fewer rows and members, or lend an output of 65,536 bytes"))
}
