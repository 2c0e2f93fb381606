//! `convert DIR [OUT]`: the plain schema of the wide one in DIR, as a schema text, printed or as schema.txt in the folder OUT.

use crate::end::{Ended, Stop};
use crate::out::Out;
use crate::texts::Text;
use zorambi::words::Known;
use zorambi::{write_schema, MAX_TEXT};
use zorambi_commands::Given;
use zorambi_explain::{Sort, Voice};

pub fn convert(given: &Given) -> Result<Ended, Stop> {
    let out = given.names.get(1).map(Out::named).transpose()?;
    let text = Text::load(&given.names[0], Sort::Wide, given.has("--follow"))?;
    let plain = || {
        let wide = text.schema()?;
        let plain = zorambi::convert(&wide).map_err(|refused| {
            let why = zorambi_explain::convert(&(&wide).into(), refused, &Voice::default());
            text.refused_row(refused, Some(why))
        })?;
        write_schema(&plain).map_err(|refused| {
            let why = zorambi_explain::write_schema(&(&plain).into(), MAX_TEXT, refused);
            Stop::refused(refused, &Known::default(), Some(why), None)
        })
    };
    match out {
        None => plain().map(Ended::printed).map_err(Stop::aside),
        Some(out) => out.write(&[("schema.txt", plain()?)]),
    }
}
