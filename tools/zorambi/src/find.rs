//! `find DIR N`: a model of the schema in DIR at n = N, as a model text, or `none`.

use crate::end::{Ended, Stop};
use crate::texts::{number, Text};
use zorambi::words::Known;
use zorambi::{find_model, json_string, shown_name, write_model, Model};
use zorambi_commands::Given;
use zorambi_explain::Sort;

pub fn find(given: &Given) -> Result<Ended, Stop> {
    let n = number(&given.names[1])?;
    let text = Text::load(&given.names[0], Sort::Schema, given.has("--follow"))?;
    let found = found(&text, n);
    if let Err(Stop::Wrong(_) | Stop::Unread) = found {
        return found.map(|_| Ended::default());
    }
    let status = u8::from(found.is_err());
    if given.has("--quiet") {
        return Ok(Ended { status, ..Ended::default() });
    }
    if given.has("--json") {
        let printed = object(&shown_name(&given.names[0]), n, found);
        return Ok(Ended { printed: printed.into_bytes(), status, ..Ended::default() });
    }
    match found? {
        None => Ok(Ended::printed("none\n")),
        Some(model) => {
            let text = write_model(&model).map_err(|refused| Stop::refused(refused, &Known::default(), None, None))?;
            Ok(Ended::printed(text))
        }
    }
}

fn found(text: &Text, n: i32) -> Result<Option<Model>, Stop> {
    let schema = text.schema()?;
    find_model(&schema, n).map_err(|refused| text.refused_at(&schema, n, refused))
}

/// The object of --json.
fn object(folder: &str, n: i32, found: Result<Option<Model>, Stop>) -> String {
    let (is_found, pairs, refusal) = match found {
        Ok(None) => ("false", "null".to_string(), None),
        Ok(Some(model)) => {
            let pairs: Vec<String> = model.pairs.iter().map(|[symbol, index]| format!("[{symbol},{index}]")).collect();
            ("true", format!("[{}]", pairs.join(",")), None)
        }
        Err(Stop::Refused(told)) => ("null", "null".to_string(), Some(told)),
        Err(_) => ("null", "null".to_string(), None),
    };
    let (answer, place, words, why) = match refusal {
        None => (0, 0, "null".to_string(), "null".to_string()),
        Some(told) => {
            let place = told.refused.place.map_or(-1, |place| place as i64);
            let why = told.why.as_deref().map_or("null".to_string(), json_string);
            (told.refused.refusal.number(), place, json_string(&told.about), why)
        }
    };
    format!(
        "{{\"record\":{},\"n\":{n},\"found\":{is_found},\"pairs\":{pairs},\"answer\":{answer},\"place\":{place},\"refusal\":{words},\"why\":{why}}}\n",
        json_string(folder)
    )
}
