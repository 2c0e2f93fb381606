//! Formula rows that are refused: 6 root or least, 7 an ill-formed row, 8 one too large or too deep, 27 one written twice.

use crate::notation::{columns, index, Voice};
use crate::rows::{kind_name, range_of_rows, Facts, Rows, KINDS, MAX_DEPTH, MAX_OFFSET, MAX_SIZE, MAX_SYMBOL};
use crate::why::Why;
use zorambi::words::grouped;
use zorambi::{Refusal, Refused, Row};

pub const MAX_LEAST: i32 = 9999;

/// Why formula rows are refused, by the numbers that a pass over them gives.
pub fn why(rows: &Rows, root: i32, least: i32, refused: Refused) -> Option<Why> {
    match (refused.refusal, refused.place) {
        (Refusal::Root, _) => Some(root_or_least(rows, root, least)?.see(rows.schema_text(), 2)),
        (Refusal::IllFormed, Some(row)) => ill_formed(rows, row),
        (Refusal::TooLarge, Some(row)) => too_large(rows, row),
        (Refusal::Repeated, Some(row)) => repeated(rows, row),
        _ => None,
    }
}

fn root_or_least(rows: &Rows, root: i32, least: i32) -> Option<Why> {
    let is_row = usize::try_from(root).is_ok_and(|root| root < rows.schema_rows());
    if !is_row {
        let there = match rows.schema_rows() {
            0 => "the schema has no row".to_string(),
            1 => "the schema's only row is 0".to_string(),
            count => format!("the schema's rows are 0 to {}", count - 1),
        };
        return Some(Why::new(
            format!("root is {root}; {there}"),
            "let root be the number of the schema row that is to be refuted, mostly the last one",
        ));
    }
    if !(0..=MAX_LEAST).contains(&least) {
        return Some(Why::new(
            format!("least is {least}; it is 0 to {MAX_LEAST}"),
            "let least be the smallest n that the schema speaks of",
        ));
    }
    let stray = rows.first(root, |facts| facts.on_i)?;
    let text = rows.text(root);
    let line = if stray == root {
        format!("the root, {text}, is not outer: it stands on i, and no iteration around it says what i is")
    } else {
        format!("the root, {text}, is not outer: in it {} stands on i outside an iteration", rows.text(stray))
    };
    Some(Why::new(line, "let root be a row in which every literal on i stands inside a big and or a big or"))
}

/// A row whose columns are at fault is told by its columns.
fn ill_formed(rows: &Rows, row: usize) -> Option<Why> {
    let columns_of = *rows.all().get(row)?;
    let (what, mend) = ill_columns(rows, row, columns_of).or_else(|| ill_parts(rows, row, columns_of))?;
    Some(Why::new(format!("row {row} ({}): {what}", columns(&columns_of)), mend))
}

/// Which column is wrong, and what it has to be.
fn ill_columns(rows: &Rows, row: usize, [kind, a, b, c]: [i32; 4]) -> Option<(String, String)> {
    let told = |what: String, mend: &str| Some((what, mend.to_string()));
    let last = if rows.wide { 11 } else { 7 };
    if !(0..=last).contains(&kind) {
        let mend = match kind {
            8..=11 => "a wide schema stands in wide.txt and is made plain by 'zorambi convert'",
            _ => "the first column says what the row is: see the kinds in the manual",
        };
        return told(format!("kind is {kind}; kinds are 0 to {last}"), mend);
    }
    let name = KINDS[kind as usize];
    let unused = |column: &str, value: i32| {
        (value != 0).then(|| {
            let what = format!("{column} is {value}; {name} (kind {kind}) does not use it, so it has to be 0");
            (what, format!("write 0 for {column}"))
        })
    };
    let within = |column: &str, what: &str, value: i32, [low, high]: [i32; 2]| {
        (!(low..=high).contains(&value)).then(|| {
            let told = format!("{column} is {value}; {what} is {low} to {high}");
            (told, format!("write a number from {low} to {high} for {column}"))
        })
    };
    let part = |column: &str, what: &str, value: i32| {
        let is_before = usize::try_from(value).is_ok_and(|value| value < row);
        let mend = || {
            let own = usize::try_from(value).is_ok_and(|value| value == row);
            let later = if own { "a row cannot be its own part: " } else { "" };
            format!("{later}write the parts before the row, and their numbers into its columns")
        };
        let before = || match row {
            0 => "no row stands before row 0".to_string(),
            1 => "the only row before row 1 is row 0".to_string(),
            row => format!("the rows before row {row} are 0 to {}", row - 1),
        };
        (!is_before).then(|| (format!("{column} is {value}; {what} is a row before it, and {}", before()), mend()))
    };
    let offsets = [-MAX_OFFSET, MAX_OFFSET];
    match kind {
        0 | 1 => unused("a", a).or_else(|| unused("b", b)).or_else(|| unused("c", c)),
        2 | 3 => within("a", "a symbol", a, [0, MAX_SYMBOL])
            .or_else(|| {
                let what = format!("b is {b}; it is 0 (c is the index itself), 1 (c is added to n) or 2 (to i)");
                (!(0..=2).contains(&b)).then(|| (what, "write 0, 1 or 2 for b".to_string()))
            })
            .or_else(|| within("c", "an offset", c, offsets)),
        4 | 5 | 9..=11 => part("a", "a part", a).or_else(|| part("b", "a part", b)).or_else(|| unused("c", c)),
        6 | 7 => part("a", "a body", a)
            .or_else(|| within("b", "where i begins", b, offsets))
            .or_else(|| within("c", "the c of its limit n - c", c, offsets)),
        _ => part("a", "a part", a).or_else(|| unused("b", b)).or_else(|| unused("c", c)),
    }
}

/// What stands in the parts that may not stand there.
fn ill_parts(rows: &Rows, row: usize, [kind, a, ..]: [i32; 4]) -> Option<(String, String)> {
    let row = i32::try_from(row).ok()?;
    if matches!(kind, 6 | 7) {
        let stray = rows.first(a, |facts| facts.not_on_i)?;
        let body = rows.text(a);
        let what = match rows.get(stray)? {
            [6 | 7, ..] if stray == a => format!("its body, {body}, is an iteration itself"),
            [6 | 7, ..] => format!("its body, {body}, holds an iteration, {}", rows.text(stray)),
            [_, _, b, c] if stray == a => format!("its body, {body}, has the index {}, which is not on i", index(b, c)),
            [_, _, b, c] => {
                format!("its body, {body}, holds {}, whose index {} is not on i", rows.text(stray), index(b, c))
            }
        };
        return Some((what, "a body holds literals on i alone (b = 2), and no iteration".to_string()));
    }
    let Facts { on_i, not_on_i, .. } = rows.facts(row);
    if !(on_i && not_on_i) {
        return None;
    }
    let [inner, outer] =
        [rows.first(row, |facts| facts.on_i)?, rows.first(row, |facts| facts.not_on_i)?].map(|at| rows.text(at));
    let what = format!("{} mixes {inner}, on i outside an iteration, with {outer}, which is not on i", kind_name(kind));
    Some((what, "put the literals on i into the body of a big and or a big or of their own".to_string()))
}

/// The limit that a row passes.
fn too_large(rows: &Rows, row: usize) -> Option<Why> {
    let Facts { size, depth, .. } = rows.facts(i32::try_from(row).ok()?);
    if size > MAX_SIZE {
        let line = format!("row {row} has size {size}, {} allowed", grouped(MAX_SIZE));
        return Some(
            Why::new(line, "split the schema, or write it with smaller parts: each occurrence of a part counts")
                .with(parts_line(rows, row, "size", |facts| facts.size)),
        );
    }
    (depth > MAX_DEPTH).then(|| {
        let line = format!("row {row} has depth {depth}, {MAX_DEPTH} allowed");
        Why::new(line, "group long chains of ands and ors as trees, the left half and the right half").with(parts_line(
            rows,
            row,
            "depth",
            |facts| facts.depth,
        ))
    })
}

/// How large the parts are: `1 more than its parts: row 11 has size 4095, row 0 has size 1`.
fn parts_line(rows: &Rows, row: usize, what: &str, fact: fn(&Facts) -> u64) -> String {
    let of = |part: &usize| format!("row {part} has {what} {}", fact(&rows.facts(*part as i32)));
    let parts: Vec<String> = rows.parts(row).iter().map(of).collect();
    let whole = if what == "size" { "1 and the sizes of its parts" } else { "1 and the depth of its deepest part" };
    format!("its {what} is {whole}: {}", parts.join(", "))
}

fn repeated(rows: &Rows, row: usize) -> Option<Why> {
    let earlier = rows.repeats(row)?;
    let (file, line) = rows.place(earlier);
    Some(
        Why::new(
            format!("row {row} is row {earlier} ({file}:{line}) again"),
            format!("leave row {row} out and write {earlier} where it is used, which 'zorambi tidy' does"),
        )
        .see(file, line)
        .with(format!("both are {}", rows.formula(row))),
    )
}

/// What a number has to be to be a row: `rows are 0 to 8`.
pub fn no_row(rows: &Rows) -> String {
    range_of_rows(rows.len())
}

/// Why a table of 1 to 3 rows is not on the list of small ones.
pub fn ill_small(table: &[Row]) -> Option<Why> {
    let rows = Rows::new([(table.as_flattened(), table.len()), (&[], 0)], false, &Voice::default());
    let mend =
        "small tables have symbol 0, literal offsets -1 to 1, iterations from 0 with c 0 or 1, and an outer last row";
    let told = |row: usize, what: String| Some(Why::new(format!("row {row} ({}): {what}", columns(&table[row])), mend));
    for (row, &[kind, a, b, c]) in table.iter().enumerate() {
        if let Some((what, _)) = ill_columns(&rows, row, table[row]).or_else(|| ill_parts(&rows, row, table[row])) {
            return told(row, what);
        }
        match kind {
            2 | 3 if a != 0 => return told(row, format!("the symbol is {a}; small tables have symbol 0 alone")),
            2 | 3 if !(-1..=1).contains(&c) => {
                return told(row, format!("the offset is {c}; in small tables it is -1 to 1"))
            }
            6 | 7 if b != 0 => return told(row, format!("it starts at {b}; in small tables iterations start at 0")),
            6 | 7 if !(0..=1).contains(&c) => return told(row, format!("its c is {c}; in small tables it is 0 or 1")),
            _ => {}
        }
    }
    let last = table.len().checked_sub(1)?;
    rows.facts(i32::try_from(last).ok()?)
        .on_i
        .then(|| told(last, "the last row is the root, and it is not outer".to_string()))?
}
