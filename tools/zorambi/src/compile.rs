//! `compile FILE [OUT]`: the wide schema of a source, as a schema text, printed or as wide.txt in the folder OUT,
//! with the symbols' names beside it.

use crate::end::{coloured, Ended, Stop, RED};
use crate::out::{write_new, Out};
use std::ffi::OsStr;
use std::fs::File;
use std::io::{self, IsTerminal, Read};
use std::path::Path;
use zorambi::words::Known;
use zorambi::{shown_name, write_schema};
use zorambi_commands::Given;
use zorambi_compile::{Fault, MAX_SOURCE};

pub fn compile(given: &Given) -> Result<Ended, Stop> {
    let out = given.names.get(1).map(Out::named).transpose()?;
    if out.is_some() && given.has("--names") {
        return Err(Stop::Wrong(
            "--names is for a wide schema that is printed: OUT has its names.txt anyway".to_string(),
        ));
    }
    let file = &given.names[0];
    let source = read(file)?;
    let compiled = match zorambi_compile::compile(&source) {
        Ok(compiled) => compiled,
        Err(fault) => return Ok(mistaken(&fault, file, &source)),
    };
    let wide =
        write_schema(&compiled.schema).map_err(|refused| Stop::refused(refused, &Known::default(), None, None))?;
    let names = compiled.names_text().into_bytes();
    if let Some(path) = given.value("--names") {
        write_new(Path::new(path), &names).map_err(|error| Stop::Wrong(format!("{}: {error}", shown_name(path))))?;
    }
    match out {
        None => Ok(Ended::printed(wide)),
        Some(out) => out.write(&[("wide.txt", wide), ("names.txt", names)]),
    }
}

/// The source's bytes, or standard input's: at most one more than a source may have.
fn read(file: &OsStr) -> Result<Vec<u8>, Stop> {
    let mut source = Vec::new();
    let most = MAX_SOURCE as u64 + 1;
    let read = match file.to_str() {
        Some("-") => io::stdin().lock().take(most).read_to_end(&mut source),
        _ => File::open(file).and_then(|opened| opened.take(most).read_to_end(&mut source)),
    };
    read.map_err(|error| Stop::Wrong(format!("{}: {error}", called(file))))?;
    Ok(source)
}

fn called(file: &OsStr) -> String {
    match file.to_str() {
        Some("-") => "standard input".to_string(),
        _ => shown_name(file),
    }
}

/// A mistake, its first line in colour on a terminal.
fn mistaken(fault: &Fault, file: &OsStr, source: &[u8]) -> Ended {
    let told = fault.told(&called(file), source);
    let (first, rest) = told.split_once('\n').unwrap_or((&told, ""));
    let said = format!("{}\n{rest}", coloured(RED, first, io::stderr().is_terminal()));
    Ended { said, status: 1, ..Ended::default() }
}
