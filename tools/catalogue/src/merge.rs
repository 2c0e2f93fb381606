//! The command `merge`.

use crate::report::Report;
use crate::stop::Stop;
use crate::table::{tree, Of, Part, Row, Table};
use crate::totals::Totals;
use crate::walk::order;
use crate::writing::Tables;
use std::collections::BTreeMap;
use std::path::{Path, PathBuf};
use zorambi::shown_name;
use zorambi_commands::Given;

/// Says whether everything found was accepted.
pub fn merge(given: &Given) -> Result<bool, Stop> {
    let mut parts = BTreeMap::new();
    let mut first: Option<(PathBuf, Of)> = None;
    for path in &given.names {
        let path = Path::new(path);
        let Table { rows, of } = Table::read(path)?;
        let part = of.part;
        fits(path, &of, first.get_or_insert_with(|| (path.to_path_buf(), of.clone())))?;
        if let Some(stray) = rows.iter().find(|row| !part.has(&row.name)) {
            return Err(Stop::Told(format!(
                "{} has {}, which is not of its part {part}",
                shown_name(path),
                stray.name
            )));
        }
        if let Some((other, _)) = parts.insert(part, (path, rows)) {
            return Err(Stop::Told(format!(
                "part {part} is there twice: {} and {}",
                shown_name(other),
                shown_name(path)
            )));
        }
    }
    let Some((_, of)) = first else { return Err(Stop::Told("no table".to_string())) };
    all_there(&parts.keys().copied().collect::<Vec<_>>())?;
    let mut rows: Vec<Row> = parts.into_values().flat_map(|(_, rows)| rows).collect();
    rows.sort_by(|one, other| order(&one.name).cmp(order(&other.name)));
    if tree(rows.iter().map(|row| &row.name[..])) != of.tree {
        return Err(Stop::Told("the parts do not have all records that each of them found".to_string()));
    }
    write(given, &rows, &Of { part: Part::WHOLE, ..of })
}

/// The table is of the same whole as the first.
fn fits(path: &Path, of: &Of, (other, first): &(PathBuf, Of)) -> Result<(), String> {
    let (shown, other) = (shown_name(path), shown_name(other));
    if of.part.of != first.part.of {
        return Err(format!("{shown} is part {}, but {other} is part {}", of.part, first.part));
    }
    if of.library != first.library {
        return Err(format!("{shown} and {other} are of different libraries: {}; {}", of.library, first.library));
    }
    if of.tree != first.tree {
        return Err(format!(
            "{shown} and {other} found different records: the folder changed meanwhile, or is another"
        ));
    }
    Ok(())
}

fn all_there(parts: &[Part]) -> Result<(), String> {
    let of = parts.first().map_or(1, |part| part.of);
    let missing = (1..=of).map(|number| Part { number, of }).filter(|part| parts.binary_search(part).is_err());
    let missing: Vec<String> = missing.map(|part| part.to_string()).collect();
    match &missing[..] {
        [] => Ok(()),
        [one] => Err(format!("part {one} is missing: run 'zorambi catalogue DIR --shard {one} --csv FILE'")),
        [one, ..] => Err(format!(
            "{} parts are missing: {}; run 'zorambi catalogue DIR --shard {one} --csv FILE' and so on",
            missing.len(),
            missing.join(", ")
        )),
    }
}

fn write(given: &Given, rows: &[Row], of: &Of) -> Result<bool, Stop> {
    let mut tables = Tables::new(given)?;
    let mut totals = Totals::default();
    for row in rows {
        tables.row(row, &of.library, None)?;
        totals.count(row);
    }
    Report::new(given.has("--quiet")).totals(&totals)?;
    tables.end(of, &totals)?;
    Ok(totals.all_accepted())
}
