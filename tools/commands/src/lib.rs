//! The commands of zorambi: what each is for, the words that it takes, its help. Help, manual pages and completion are made of this
//! table, and words are told right from wrong by it, before anything is proved or built.

mod catalogue;
mod checks;
mod circuits;
mod help;
mod show;
mod texts;
mod words;

#[path = "../../../bindings/rust/src/shown.rs"]
#[allow(dead_code, clippy::doc_lazy_continuation)]
mod shown;

pub use help::{help, list, overview};
pub use words::{asked, nearest, Asked, Given};

/// A command.
#[derive(Debug)]
pub struct Command {
    pub name: &'static str,
    /// The words that it takes, as its use shows them.
    pub takes: &'static str,
    /// What it is for, in one line without a stop.
    pub about: &'static str,
    /// More of it: paragraphs with an empty line between, each one line.
    pub text: &'static str,
    pub options: &'static [Opt],
    /// How many names it takes, at least and at most.
    pub names: [usize; 2],
    pub examples: &'static [Example],
    /// A command of the script `./zorambi` in the project's folder alone.
    pub of_script: bool,
}

/// An option of a command.
#[derive(Debug)]
pub struct Opt {
    pub name: &'static str,
    /// What its value is called, if it takes one.
    pub value: Option<&'static str>,
    pub about: &'static str,
}

/// A command line that can be run in the project's folder, and what it does.
#[derive(Debug)]
pub struct Example {
    pub line: &'static str,
    pub about: &'static str,
}

const fn flag(name: &'static str, about: &'static str) -> Opt {
    Opt { name, value: None, about }
}

const fn valued(name: &'static str, value: &'static str, about: &'static str) -> Opt {
    Opt { name, value: Some(value), about }
}

const fn example(line: &'static str, about: &'static str) -> Example {
    Example { line, about }
}

/// All commands, in the order in which they are listed.
pub fn commands() -> &'static [&'static Command] {
    &[
        &checks::CHECK,
        &checks::MODEL,
        &show::SHOW,
        &checks::EXPLAIN,
        &catalogue::CATALOGUE,
        &catalogue::MERGE,
        &texts::FIND,
        &circuits::WIDTHS,
        &circuits::DIMACS,
        &circuits::VERILOG,
        &texts::COMPILE,
        &texts::CONVERT,
        &texts::SMALL,
        &texts::TIDY,
        &texts::JOIN,
        &texts::GROW,
        &texts::EDIT,
        &checks::HELP,
        &checks::BUILD,
        &checks::TEST,
        &checks::FUZZ,
        &checks::BENCH,
        &catalogue::INSTALL,
    ]
}

/// The command of that name.
pub fn command(name: &str) -> Option<&'static Command> {
    commands().iter().copied().find(|command| command.name == name)
}
