//! `tidy DIR [OUT]`: the proof of the older record in DIR with no row written twice, as a proof text, printed or as proof.txt in the
//! folder OUT, beside the schema.

use crate::end::{Ended, Stop};
use crate::out::Out;
use crate::texts::Text;
use zorambi::words::Known;
use zorambi::{check_older_texts, write_proof};
use zorambi_commands::Given;
use zorambi_explain::{Sort, Tables, Voice};

pub fn tidy(given: &Given) -> Result<Ended, Stop> {
    let out = given.names.get(1).map(Out::named).transpose()?;
    let follow = given.has("--follow");
    let load = |sort| Text::load(&given.names[0], sort, follow);
    let texts = [load(Sort::Schema)?, load(Sort::Proof)?];
    let tidied = || {
        let record = Text::record(&texts)?;
        let tidied = zorambi::tidy(&record).map_err(|refused| {
            let why = zorambi_explain::check(&Tables::from(&record), refused, &Voice::default());
            let fault = check_older_texts(texts[0].bytes(), texts[1].bytes()).fault;
            Text::refused_at_fault(fault, &texts, refused, Some(why))
        })?;
        write_proof(&tidied).map_err(|refused| Stop::refused(refused, &Known::default(), None, None))
    };
    match out {
        None => tidied().map(Ended::printed).map_err(Stop::aside),
        Some(out) => out.write(&[("schema.txt", texts[0].bytes().to_vec()), ("proof.txt", tidied()?)]),
    }
}
