//! `zorambi catalogue` and `zorambi merge`: every record folder below a folder is checked and told, with a table of them, and
//! the tables of parts are put together.

mod catalogue;
mod csv;
mod each;
mod judge;
mod merge;
mod names;
mod pages;
mod report;
mod since;
mod stop;
mod table;
mod totals;
mod walk;
mod writing;

use std::io::{self, Write};
use stop::Stop;
use zorambi_commands::Given;

/// `zorambi catalogue`: the exit status is 0 if all are accepted, 1 if one is not, 2 on wrong use or a failure.
pub fn run(given: &Given) -> u8 {
    ended("catalogue", catalogue::catalogue(given))
}

/// `zorambi merge`: the exit status is that of the catalogue of the whole, or 2 if the parts do not make one.
pub fn merge(given: &Given) -> u8 {
    ended("merge", merge::merge(given))
}

fn ended(command: &str, result: Result<bool, Stop>) -> u8 {
    match result {
        Ok(all_accepted) => u8::from(!all_accepted),
        Err(Stop::Quiet) => 2,
        Err(Stop::Told(why)) => {
            let _ = writeln!(io::stderr(), "zorambi {command}: {why}");
            2
        }
    }
}
