//! `widths DIR FROM TO`: a solver's answer at each width, a line each, with the proved model check's verdict on a model
//! that it finds.

use crate::end::{print, Ended, Stop, Told};
use crate::out::Out;
use crate::private::{ends, Private};
use crate::texts::{number, Text};
use std::fs;
use std::io::ErrorKind;
use std::path::{Path, PathBuf};
use zorambi::words::Known;
use zorambi::{json_string, shown_name, write_model, Model, Schema};
use zorambi_commands::Given;
use zorambi_explain::Sort;
use zorambi_widths::circuit::judge;
use zorambi_widths::{solver, Finding, Solver, Stopped};

pub fn widths(given: &Given) -> Result<Ended, Stop> {
    let [from, to] = [number(&given.names[1])?, number(&given.names[2])?];
    if from > to {
        return Err(Stop::Wrong(format!("no width from {from} to {to}: FROM is over TO")));
    }
    let models = given.value("--models").map(PathBuf::from);
    models.iter().try_for_each(|folder| Out::named(&folder.clone().into_os_string()).map(drop))?;
    let solver = match given.value("--solver") {
        Some(command) => Solver::named(command),
        None => Solver::installed(),
    };
    let text = Text::load(&given.names[0], Sort::Schema, given.has("--follow"))?;
    let lines = Lines { record: shown_name(&given.names[0]), json: given.has("--json"), quiet: given.has("--quiet") };
    let schema = match judged(&text, [from, to]) {
        Ok(schema) => schema,
        Err(stop) => return lines.refused(from, stop),
    };
    let solver = solver.map_err(Stop::Wrong)?;
    let mut ended = Ended::default();
    for n in from..=to {
        let finding = find(&schema, n, &solver)?;
        if let (Some(folder), Finding::Proved(model)) = (&models, &finding) {
            write(folder, &text, model)?;
        }
        if finding == Finding::Nothing {
            ended.status = 2;
        }
        lines.print(n, &finding, &solver)?;
    }
    Ok(ended)
}

/// The schema, if it is well formed and these widths are in range.
fn judged(text: &Text, widths: [i32; 2]) -> Result<Schema, Stop> {
    let schema = text.schema()?;
    for n in widths {
        judge(&schema, n).map_err(|refused| text.refused_at(&schema, n, refused))?;
    }
    Ok(schema)
}

/// What is found at n. The files that the solver is asked by are gone afterwards.
fn find(schema: &Schema, n: i32, solver: &Solver) -> Result<Finding, Stop> {
    let private = Private::with(&solver::FILES.map(|name| (name, &b""[..])))?;
    Finding::of(schema, n, solver, &private.folder, &ends).map_err(|stopped| match stopped {
        Stopped::Refused(refused) => Stop::refused(refused, &Known::default(), None, None),
        Stopped::Failed(why) => Stop::Wrong(format!("n = {n}: {why}")),
    })
}

/// Writes a model into the folder, as a folder with its schema that `zorambi model` takes.
fn write(folder: &Path, schema: &Text, model: &Model) -> Result<(), Stop> {
    let text = write_model(model).map_err(|refused| Stop::refused(refused, &Known::default(), None, None))?;
    match fs::create_dir(folder) {
        Err(error) if error.kind() != ErrorKind::AlreadyExists => {
            return Err(Stop::Wrong(format!("{}: {error}", shown_name(folder))));
        }
        _ => {}
    }
    let out = Out::named(&folder.join(model.n.to_string()).into_os_string())?;
    out.write(&[("schema.txt", schema.bytes().to_vec()), ("model.txt", text)]).map(drop)
}

/// How the widths are told.
struct Lines {
    record: String,
    json: bool,
    quiet: bool,
}

impl Lines {
    fn print(&self, n: i32, finding: &Finding, solver: &Solver) -> Result<(), Stop> {
        if self.quiet {
            return Ok(());
        }
        let words = finding.words();
        let line = if self.json { self.object(n, Ok((finding, solver))) } else { format!("n = {n}: {words}\n") };
        print(line.as_bytes())
    }

    /// A schema that is refused before a solver is asked.
    fn refused(&self, from: i32, stop: Stop) -> Result<Ended, Stop> {
        match stop {
            Stop::Refused(_) if self.quiet => Ok(Ended { status: 1, ..Ended::default() }),
            Stop::Refused(told) if self.json => {
                Ok(Ended { printed: self.object(from, Err(&told)).into_bytes(), status: 1, ..Ended::default() })
            }
            stop => Err(stop),
        }
    }

    /// The object of --json.
    fn object(&self, n: i32, what: Result<(&Finding, &Solver), &Told>) -> String {
        let (finding, solver, told) = match what {
            Ok((finding, solver)) => (Some(finding), Some(solver), None),
            Err(told) => (None, None, Some(told)),
        };
        let or_null = |value: Option<String>| value.unwrap_or_else(|| "null".to_string());
        let found = finding.and_then(|finding| match finding {
            Finding::Nothing => None,
            finding => Some(finding.model().is_some().to_string()),
        });
        let pairs = finding.and_then(Finding::model).map(|model| {
            let pairs: Vec<String> = model.pairs.iter().map(|[symbol, index]| format!("[{symbol},{index}]")).collect();
            format!("[{}]", pairs.join(","))
        });
        let place = told.and_then(|told| told.refused.place).map_or(-1, |place| place as i64);
        format!(
            "{{\"record\":{},\"n\":{n},\"found\":{},\"proved\":{},\"pairs\":{},\"solver\":{},\"words\":{},\
             \"answer\":{},\"place\":{},\"refusal\":{},\"why\":{}}}\n",
            json_string(&self.record),
            or_null(found),
            matches!(finding, Some(Finding::Proved(_))),
            or_null(pairs),
            or_null(solver.map(|solver| json_string(&solver.name()))),
            or_null(finding.map(|finding| json_string(&finding.words()))),
            told.map_or(0, |told| told.refused.refusal.number()),
            told.map_or(0, |_| place),
            or_null(told.map(|told| json_string(&told.about))),
            or_null(told.and_then(|told| told.why.as_deref()).map(json_string)),
        )
    }
}
