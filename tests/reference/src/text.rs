//! Texts: reading them into tables, writing them from tables, and lines by number.

use crate::{
    holds, refuse, Refusal, MAX_MEMBERS, MAX_NODES, MAX_PAIRS, MAX_ROWS, MAX_TEXT, NODE_WIDTH, PAIR_WIDTH, ROW_WIDTH,
};

const ROWS_HEADING: &[u8] = b"kind a b c";
const NODES_HEADING: &[u8] = b"up rule on with other to by set";

/// A text with one line of numbers and one table: their headings, the width of the table's rows and how many there may be.
struct Form {
    line: &'static [u8],
    table: &'static [u8],
    width: usize,
    limit: usize,
}

const SCHEMA: Form = Form { line: b"root least", table: ROWS_HEADING, width: ROW_WIDTH, limit: MAX_ROWS };
const MODEL: Form = Form { line: b"n", table: b"symbol index", width: PAIR_WIDTH, limit: MAX_PAIRS };

const LINE_END: u8 = 10;
/// The numbers of a node row before its set.
const NODE_FIELDS: usize = 7;
/// The largest number of five digits.
const MAX_NUMBER: i32 = 99_999;

#[derive(Clone, Copy, Debug, Default, PartialEq, Eq)]
pub struct SchemaRead {
    pub answer: u8,
    pub place: i32,
    pub root: i32,
    pub least: i32,
    pub rows: usize,
}

#[derive(Clone, Copy, Debug, Default, PartialEq, Eq)]
pub struct ProofRead {
    pub answer: u8,
    pub place: i32,
    pub rows: usize,
    pub nodes: usize,
    pub members: usize,
}

#[derive(Clone, Copy, Debug, Default, PartialEq, Eq)]
pub struct ModelRead {
    pub answer: u8,
    pub place: i32,
    pub n: i32,
    pub pairs: usize,
}

#[derive(Clone, Copy, Debug, Default, PartialEq, Eq)]
pub struct Written {
    pub answer: u8,
    pub place: i32,
    pub bytes: usize,
}

// ---------------------------------------------------------------------------------------------
// Reading

/// The next line of a text: there is none, it lacks its byte 10, or it is whole (without byte 10).
enum Line<'a> {
    Missing,
    Unfinished(&'a [u8]),
    Whole(&'a [u8]),
}

/// A text and how far it has been read.
struct Lines<'a> {
    text: &'a [u8],
    at: usize,
    /// The number of the line handed out last, from 1; a missing line counts as the next one.
    number: i32,
}

impl<'a> Lines<'a> {
    /// The start of a text that is not too long, or 1, if the tables are long enough for any, or 2.
    fn begin(text: &'a [u8], long_enough: bool) -> Result<Lines<'a>, Refusal> {
        if text.len() > MAX_TEXT {
            return refuse(1, 0);
        }
        if !long_enough {
            return refuse(2, 0);
        }
        Ok(Lines { text, at: 0, number: 0 })
    }

    fn next(&mut self) -> Line<'a> {
        self.number += 1;
        let rest = &self.text[self.at..];
        match rest.iter().position(|&byte| byte == LINE_END) {
            Some(length) => {
                self.at += length + 1;
                Line::Whole(&rest[..length])
            }
            None => {
                self.at = self.text.len();
                if rest.is_empty() {
                    Line::Missing
                } else {
                    Line::Unfinished(rest)
                }
            }
        }
    }

    fn refuse<T>(&self, answer: u8) -> Result<T, Refusal> {
        refuse(answer, self.number)
    }

    /// The next line is this heading, or 3.
    fn heading(&mut self, heading: &[u8]) -> Result<(), Refusal> {
        match self.next() {
            Line::Whole(line) if line == heading => Ok(()),
            _ => self.refuse(3),
        }
    }

    /// The next line is numbers, as many as `values` has places, or 4.
    fn one_line(&mut self, values: &mut [i32]) -> Result<(), Refusal> {
        match self.next() {
            Line::Whole(line) if numbers(line, values) == Some(values.len()) => Ok(()),
            _ => self.refuse(4),
        }
    }

    /// All further lines are rows of `width` numbers, at most `limit`; stores them from the start of
    /// `table` and gives their number.
    fn rows_to_the_end(&mut self, width: usize, limit: usize, table: &mut [i32]) -> Result<usize, Refusal> {
        let mut count = 0;
        loop {
            match self.next() {
                Line::Missing => return Ok(count),
                Line::Unfinished(_) => return self.refuse(4),
                Line::Whole(line) => self.store_row(line, width, limit, table, &mut count)?,
            }
        }
    }

    /// This line is a row of `width` numbers, or 4; there is room for it, or 5.
    fn store_row(
        &self,
        line: &[u8],
        width: usize,
        limit: usize,
        table: &mut [i32],
        count: &mut usize,
    ) -> Result<(), Refusal> {
        let mut values = [0; ROW_WIDTH];
        let values = &mut values[..width];
        if numbers(line, values) != Some(width) {
            return self.refuse(4);
        }
        if *count == limit {
            return self.refuse(5);
        }
        table[*count * width..][..width].copy_from_slice(values);
        *count += 1;
        Ok(())
    }
}

/// Reads a line of numbers with one space between. Stores as many as `values` has room for and gives
/// the number of all, or `None` if the line has another form.
fn numbers(line: &[u8], values: &mut [i32]) -> Option<usize> {
    let mut count = 0;
    for word in line.split(|&byte| byte == b' ') {
        let value = number(word)?;
        if let Some(place) = values.get_mut(count) {
            *place = value;
        }
        count += 1;
    }
    Some(count)
}

/// 0, or an optional minus and 1 to 5 digits, the first not 0.
fn number(word: &[u8]) -> Option<i32> {
    if word == b"0" {
        return Some(0);
    }
    let (negative, digits) = match word {
        [b'-', digits @ ..] => (true, digits),
        digits => (false, digits),
    };
    if digits.is_empty() || digits.len() > 5 || digits[0] == b'0' || !digits.iter().all(u8::is_ascii_digit) {
        return None;
    }
    let value = digits.iter().fold(0, |value, digit| value * 10 + i32::from(digit - b'0'));
    Some(if negative { -value } else { value })
}

impl Form {
    /// The numbers of the line and how many rows the table has; after a refusal the table is all 0.
    fn read<const N: usize>(&self, text: &[u8], table: &mut [i32]) -> Result<([i32; N], usize), Refusal> {
        table.fill(0);
        let read = self.lines(text, table);
        if read.is_err() {
            table.fill(0);
        }
        read
    }

    fn lines<const N: usize>(&self, text: &[u8], table: &mut [i32]) -> Result<([i32; N], usize), Refusal> {
        let mut lines = Lines::begin(text, table.len() >= self.limit * self.width)?;
        let mut line = [0; N];
        lines.heading(self.line)?;
        lines.one_line(&mut line)?;
        lines.heading(self.table)?;
        Ok((line, lines.rows_to_the_end(self.width, self.limit, table)?))
    }
}

/// Reads a schema text; the rows go into `rows`, of at least 4,096 numbers.
pub fn read_schema(text: &[u8], rows: &mut [i32]) -> SchemaRead {
    match SCHEMA.read(text, rows) {
        Ok(([root, least], rows)) => SchemaRead { answer: 0, place: 0, root, least, rows },
        Err(Refusal { answer, place }) => SchemaRead { answer, place, ..SchemaRead::default() },
    }
}

/// Reads a proof text; `rows` has at least 4,096 numbers, `nodes` 9,216, `members` 8,192.
pub fn read_proof(text: &[u8], rows: &mut [i32], nodes: &mut [i32], members: &mut [i32]) -> ProofRead {
    rows.fill(0);
    nodes.fill(0);
    members.fill(0);
    let read = proof_lines(text, rows, nodes, members);
    read.unwrap_or_else(|refusal| {
        rows.fill(0);
        nodes.fill(0);
        members.fill(0);
        ProofRead { answer: refusal.answer, place: refusal.place, ..ProofRead::default() }
    })
}

fn proof_lines(text: &[u8], rows: &mut [i32], nodes: &mut [i32], members: &mut [i32]) -> Result<ProofRead, Refusal> {
    let long_enough =
        rows.len() >= MAX_ROWS * ROW_WIDTH && nodes.len() >= MAX_NODES * NODE_WIDTH && members.len() >= MAX_MEMBERS;
    let mut lines = Lines::begin(text, long_enough)?;
    lines.heading(ROWS_HEADING)?;
    let row_count = proof_rows(&mut lines, rows)?;
    let (node_count, member_count) = node_rows(&mut lines, nodes, members)?;
    Ok(ProofRead { answer: 0, place: 0, rows: row_count, nodes: node_count, members: member_count })
}

/// The formula rows of a proof and the second heading. A line that starts with `u`, or is missing,
/// is judged as the heading.
fn proof_rows(lines: &mut Lines, rows: &mut [i32]) -> Result<usize, Refusal> {
    let mut count = 0;
    loop {
        match lines.next() {
            Line::Whole(line) if line == NODES_HEADING => return Ok(count),
            Line::Missing => return lines.refuse(3),
            Line::Whole([b'u', ..]) | Line::Unfinished([b'u', ..]) => return lines.refuse(3),
            Line::Unfinished(_) => return lines.refuse(4),
            Line::Whole(line) => lines.store_row(line, ROW_WIDTH, MAX_ROWS, rows, &mut count)?,
        }
    }
}

/// The node rows to the end: seven numbers and a set each. The set's start and length are added.
fn node_rows(lines: &mut Lines, nodes: &mut [i32], members: &mut [i32]) -> Result<(usize, usize), Refusal> {
    let mut count = 0;
    let mut used = 0;
    let mut values = [0; NODE_FIELDS + MAX_MEMBERS];
    loop {
        let line = match lines.next() {
            Line::Missing => return Ok((count, used)),
            Line::Unfinished(_) => return lines.refuse(4),
            Line::Whole(line) => line,
        };
        let length = match numbers(line, &mut values) {
            Some(total) if total >= NODE_FIELDS => total - NODE_FIELDS,
            _ => return lines.refuse(4),
        };
        if count == MAX_NODES || length > MAX_MEMBERS - used {
            return lines.refuse(5);
        }
        let node = &mut nodes[count * NODE_WIDTH..][..NODE_WIDTH];
        node[..NODE_FIELDS].copy_from_slice(&values[..NODE_FIELDS]);
        node[NODE_FIELDS] = used as i32;
        node[NODE_FIELDS + 1] = length as i32;
        members[used..][..length].copy_from_slice(&values[NODE_FIELDS..][..length]);
        count += 1;
        used += length;
    }
}

/// Reads a model text; the pairs go into `pairs`, of at least 8,192 numbers.
pub fn read_model(text: &[u8], pairs: &mut [i32]) -> ModelRead {
    match MODEL.read(text, pairs) {
        Ok(([n], pairs)) => ModelRead { answer: 0, place: 0, n, pairs },
        Err(Refusal { answer, place }) => ModelRead { answer, place, ..ModelRead::default() },
    }
}

// ---------------------------------------------------------------------------------------------
// Writing

impl Form {
    fn text(&self, line: &[i32], table: &[i32], count: usize) -> Result<Vec<u8>, Refusal> {
        if !holds(table.len(), count, self.width) {
            return refuse(2, -1);
        }
        if count > self.limit {
            return refuse(5, -1);
        }
        let table = &table[..count * self.width];
        if !writable(line) || !writable(table) {
            return refuse(21, -1);
        }
        let mut text = Vec::new();
        put_heading(&mut text, self.line);
        put_line(&mut text, line, &[]);
        put_heading(&mut text, self.table);
        put_rows(&mut text, table, self.width);
        Ok(text)
    }
}

/// Writes a schema text into `out`.
pub fn write_schema(root: i32, least: i32, rows: &[i32], row_count: usize, out: &mut [u8]) -> Written {
    hand_over(SCHEMA.text(&[root, least], rows, row_count), out)
}

/// Writes a proof text into `out`.
pub fn write_proof(
    rows: &[i32],
    row_count: usize,
    nodes: &[i32],
    node_count: usize,
    members: &[i32],
    member_count: usize,
    out: &mut [u8],
) -> Written {
    hand_over(proof_text(rows, row_count, nodes, node_count, members, member_count), out)
}

fn proof_text(
    rows: &[i32],
    row_count: usize,
    nodes: &[i32],
    node_count: usize,
    members: &[i32],
    member_count: usize,
) -> Result<Vec<u8>, Refusal> {
    let long_enough = holds(rows.len(), row_count, ROW_WIDTH)
        && holds(nodes.len(), node_count, NODE_WIDTH)
        && holds(members.len(), member_count, 1);
    if !long_enough {
        return refuse(2, -1);
    }
    if row_count > MAX_ROWS || node_count > MAX_NODES || member_count > MAX_MEMBERS {
        return refuse(5, -1);
    }
    let rows = &rows[..row_count * ROW_WIDTH];
    let nodes = &nodes[..node_count * NODE_WIDTH];
    let members = &members[..member_count];
    let nodes_writable = nodes.chunks_exact(NODE_WIDTH).all(|node| writable(&node[..NODE_FIELDS]));
    if !writable(rows) || !nodes_writable || !writable(members) || !sets_follow(nodes, member_count) {
        return refuse(21, -1);
    }
    let mut text = Vec::new();
    put_heading(&mut text, ROWS_HEADING);
    put_rows(&mut text, rows, ROW_WIDTH);
    put_heading(&mut text, NODES_HEADING);
    let mut rest = members;
    for node in nodes.chunks_exact(NODE_WIDTH) {
        let (set, after) = rest.split_at(node[NODE_FIELDS + 1] as usize);
        put_line(&mut text, &node[..NODE_FIELDS], set);
        rest = after;
    }
    Ok(text)
}

/// The sets follow one another from 0 to the last member.
fn sets_follow(nodes: &[i32], member_count: usize) -> bool {
    let mut end = 0_i64;
    for node in nodes.chunks_exact(NODE_WIDTH) {
        let (start, length) = (i64::from(node[NODE_FIELDS]), i64::from(node[NODE_FIELDS + 1]));
        if start != end || length < 0 {
            return false;
        }
        end += length;
    }
    end == member_count as i64
}

/// Writes a model text into `out`.
pub fn write_model(n: i32, pairs: &[i32], pair_count: usize, out: &mut [u8]) -> Written {
    hand_over(MODEL.text(&[n], pairs, pair_count), out)
}

/// No number has more than five digits.
fn writable(numbers: &[i32]) -> bool {
    numbers.iter().all(|number| (-MAX_NUMBER..=MAX_NUMBER).contains(number))
}

fn put_heading(text: &mut Vec<u8>, heading: &[u8]) {
    text.extend_from_slice(heading);
    text.push(LINE_END);
}

fn put_rows(text: &mut Vec<u8>, table: &[i32], width: usize) {
    for row in table.chunks_exact(width) {
        put_line(text, row, &[]);
    }
}

fn put_line(text: &mut Vec<u8>, first: &[i32], then: &[i32]) {
    for (place, value) in first.iter().chain(then).enumerate() {
        if place > 0 {
            text.push(b' ');
        }
        put_number(text, *value);
    }
    text.push(LINE_END);
}

fn put_number(text: &mut Vec<u8>, value: i32) {
    if value < 0 {
        text.push(b'-');
    }
    let mut digits = [0_u8; 10];
    let mut at = digits.len();
    let mut rest = value.unsigned_abs();
    loop {
        at -= 1;
        digits[at] = b'0' + (rest % 10) as u8;
        rest /= 10;
        if rest == 0 {
            break;
        }
    }
    text.extend_from_slice(&digits[at..]);
}

/// Puts the text at the start of `out` and 0 after it; after a refusal `out` is all 0.
fn hand_over(text: Result<Vec<u8>, Refusal>, out: &mut [u8]) -> Written {
    out.fill(0);
    let fitting = text.and_then(|text| {
        if text.len() > out.len() || text.len() > MAX_TEXT {
            return refuse(22, -1);
        }
        Ok(text)
    });
    match fitting {
        Ok(text) => {
            out[..text.len()].copy_from_slice(&text);
            Written { answer: 0, place: 0, bytes: text.len() }
        }
        Err(refusal) => Written { answer: refusal.answer, place: refusal.place, bytes: 0 },
    }
}

// ---------------------------------------------------------------------------------------------
// Lines by number

/// Which of two lent texts is meant.
#[derive(Clone, Copy, Debug, PartialEq, Eq)]
pub enum Named {
    Schema,
    Proof,
}

/// Line `number` (from 1) of the named text, without its byte 10; the text's empty start if there is
/// no such finished line.
pub fn line<'a>(named: Named, schema: &'a [u8], proof: &'a [u8], number: usize) -> &'a [u8] {
    let text = match named {
        Named::Schema => schema,
        Named::Proof => proof,
    };
    let mut start = 0;
    let mut at_line = 0;
    for (at, byte) in text.iter().enumerate() {
        if *byte == LINE_END {
            at_line += 1;
            if at_line == number {
                return &text[start..at];
            }
            start = at + 1;
        }
    }
    &text[..0]
}

/// The line of schema row `row` in the schema text; `None` if it passes `usize::MAX`.
pub fn schema_row_line(row: usize) -> Option<usize> {
    row.checked_add(4)
}

/// The line of proof row `row` (counted on from the schema's rows) in the proof text; `None` if
/// `row` is a schema row or the line passes `usize::MAX`.
pub fn proof_row_line(schema_count: usize, row: usize) -> Option<usize> {
    row.checked_sub(schema_count)?.checked_add(2)
}

/// The line of node `node` in the proof text; `None` if it passes `usize::MAX`.
pub fn node_line(proof_count: usize, node: usize) -> Option<usize> {
    proof_count.checked_add(3)?.checked_add(node)
}

/// The text and line of formula row `row` with this many schema and proof rows; `None` if there is
/// no such row.
pub fn row_line(schema_count: usize, proof_count: usize, row: usize) -> Option<(Named, usize)> {
    if row < schema_count {
        return Some((Named::Schema, schema_row_line(row)?));
    }
    if row - schema_count < proof_count {
        return Some((Named::Proof, proof_row_line(schema_count, row)?));
    }
    None
}
