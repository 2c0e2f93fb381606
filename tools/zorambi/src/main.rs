//! `zorambi COMMAND ..`: the commands over the proved programs and the proved library. What a command gives goes to standard output,
//! what is said of it to standard error. The exit status is 0 for success and acceptance, 1 for a refusal, 2 for wrong use or a
//! failure.

mod check;
mod circuit;
mod compile;
mod convert;
mod edit;
mod end;
mod explain;
mod find;
mod grow;
mod held;
mod join;
mod live;
mod offers;
mod out;
mod private;
mod programs;
mod show;
mod small;
mod texts;
mod tidy;
mod widths;

use end::{say, Ended, Stop};
use std::ffi::OsString;
use std::process::ExitCode;
use zorambi_commands::{asked, Asked, Command, Given};

fn main() -> ExitCode {
    let words: Vec<OsString> = std::env::args_os().skip(1).collect();
    ExitCode::from(match asked(&words) {
        Asked::Help(text) => Ended::printed(text).end(),
        Asked::Version => Ended::printed(format!("{}\n", zorambi::IDENTITY)).end(),
        Asked::Wrong(why) => {
            say(&why);
            2
        }
        Asked::Run(command, given) => run(command, &given),
    })
}

fn run(command: &Command, given: &Given) -> u8 {
    let run = match command.name {
        "check" => check::check,
        "model" => check::model,
        "show" => show::show,
        "catalogue" => return zorambi_catalogue::run(given),
        "merge" => return zorambi_catalogue::merge(given),
        "explain" => explain::explain,
        "find" => find::find,
        "widths" => widths::widths,
        "dimacs" => circuit::dimacs,
        "verilog" => circuit::verilog,
        "compile" => compile::compile,
        "convert" => convert::convert,
        "small" => small::small,
        "tidy" => tidy::tidy,
        "join" => join::join,
        "grow" => grow::grow,
        "edit" => edit::edit,
        name => {
            say(&format!("zorambi: {name} is a command of ./zorambi in the project's folder\n"));
            return 2;
        }
    };
    run(given).map_or_else(|stop: Stop| stop.end(command.name), Ended::end)
}
