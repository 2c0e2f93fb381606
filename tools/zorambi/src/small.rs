//! `small ROWS`: every small schema of ROWS rows as a schema text, with an empty line between two texts; or how many there are.

use crate::end::{Ended, Stop};
use crate::texts::number;
use zorambi::words::Known;
use zorambi::{write_schema, Refused};
use zorambi_commands::Given;

pub fn small(given: &Given) -> Result<Ended, Stop> {
    let rows = usize::try_from(number(&given.names[0])?).map_err(|_| Stop::Wrong("rows below 0".to_string()))?;
    let refused = |refused: Refused| {
        Stop::refused(refused, &Known::default(), Some(zorambi_explain::small_rows(rows)), None).aside()
    };
    let schemata = zorambi::small(rows).map_err(refused)?;
    if given.has("--count") {
        return Ok(Ended::printed(format!("{}\n", schemata.count())));
    }
    let texts: Vec<Vec<u8>> =
        schemata.map(|schema| write_schema(&schema)).collect::<Result<_, _>>().map_err(refused)?;
    Ok(Ended::printed(texts.join(&b'\n')))
}
