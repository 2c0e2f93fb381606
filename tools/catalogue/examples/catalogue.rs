//! The two commands by themselves, for the tests of this crate.

use std::io::{self, Write};
use std::process::ExitCode;
use zorambi_commands::{asked, Asked};

fn main() -> ExitCode {
    let words: Vec<_> = std::env::args_os().skip(1).collect();
    match asked(&words) {
        Asked::Run(command, given) if command.name == "catalogue" => zorambi_catalogue::run(&given).into(),
        Asked::Run(command, given) if command.name == "merge" => zorambi_catalogue::merge(&given).into(),
        Asked::Wrong(why) => {
            let _ = io::stderr().write_all(why.as_bytes());
            2.into()
        }
        _ => 2.into(),
    }
}
