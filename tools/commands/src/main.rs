//! `zorambi-use WORD..`: whether these words ask for something that zorambi does, for the time when the program itself is not built.
//! Help goes to standard output, with exit status 0; what is wrong with them to standard error, with 2. Words that are right end
//! with 3: the program is to be built, and to be given them.

use std::ffi::OsString;
use std::io::{self, Write};
use std::process::ExitCode;
use zorambi_commands::{asked, Asked};

fn main() -> ExitCode {
    let words: Vec<OsString> = std::env::args_os().skip(1).collect();
    let (said, status) = match asked(&words) {
        Asked::Help(text) => (io::stdout().write_all(text.as_bytes()), 0),
        Asked::Wrong(why) => (io::stderr().write_all(why.as_bytes()), 2),
        Asked::Version | Asked::Run(..) => (Ok(()), 3),
    };
    ExitCode::from(if said.is_ok() { status } else { 2 })
}
