//! A solver, run on a circuit's clauses. Any that follows the conventions of the SAT competition will do: it is given
//! the name of a DIMACS file, ends with exit status 10 for satisfiable and 20 for unsatisfiable (0 if it does not
//! know), and prints the values of the variables in lines that begin with `v`. minisat does as well: it writes them
//! into a file, whose name it is given second.

use crate::circuit::Circuit;
use crate::dimacs;
use std::env;
use std::ffi::{OsStr, OsString};
use std::fs::{self, File};
use std::io::{BufWriter, ErrorKind, Write};
use std::os::unix::ffi::OsStrExt;
use std::os::unix::fs::PermissionsExt;
use std::os::unix::process::{CommandExt, ExitStatusExt};
use std::path::Path;
use std::process::{Command, ExitStatus, Output, Stdio};
use zorambi::{shown, shown_name};

/// The solvers that are looked for, in this order.
pub const KNOWN: [&str; 4] = ["cadical", "kissat", "minisat", "cryptominisat5"];

/// The files of a question, in a folder of their own: the clauses, and what minisat answers.
pub const FILES: [&str; 2] = ["schema.cnf", "answer.txt"];

/// What a solver says.
#[derive(Clone, Debug, PartialEq, Eq)]
pub enum Answer {
    /// Satisfiable, by this value of each pair.
    Model(Vec<bool>),
    Unsatisfiable,
    /// It does not know: its exit status is 0.
    Unknown,
}

/// A command: a program, and what it is given before the file.
#[derive(Clone, Debug)]
pub struct Solver {
    program: OsString,
    words: Vec<OsString>,
}

impl Solver {
    /// The command of these words, with blanks between. No shell reads them.
    pub fn named(command: &OsStr) -> Result<Solver, String> {
        let mut words = command.as_bytes().split(u8::is_ascii_whitespace).filter(|word| !word.is_empty());
        let program = words.next().ok_or("the solver's command is empty")?;
        let owned = |word: &[u8]| OsStr::from_bytes(word).to_os_string();
        Ok(Solver { program: owned(program), words: words.map(owned).collect() })
    }

    /// The first known one that is installed.
    pub fn installed() -> Result<Solver, String> {
        let folders: Vec<_> = env::var_os("PATH").map(|path| env::split_paths(&path).collect()).unwrap_or_default();
        let is_there = |name: &&&str| folders.iter().any(|folder| is_program(&folder.join(name)));
        match KNOWN.iter().find(is_there) {
            Some(name) => Ok(Solver { program: name.into(), words: Vec::new() }),
            None => Err(format!(
                "no SAT solver is installed: {} are looked for, and --solver names any other; on Debian 'apt install \
                 cadical' installs one",
                KNOWN.join(", ")
            )),
        }
    }

    /// The program, as it can be shown.
    pub fn name(&self) -> String {
        shown_name(&self.program)
    }

    /// It writes the values of the variables into a file.
    fn writes_file(&self) -> bool {
        let name = Path::new(&self.program).file_name().unwrap_or_default();
        name.as_bytes().starts_with(b"minisat")
    }

    /// Asks it about a circuit by files in a folder. `running` is told the number of its process group once it runs,
    /// and `None` when it has ended.
    pub fn ask(&self, circuit: &Circuit, folder: &Path, running: &dyn Fn(Option<u32>)) -> Result<Answer, String> {
        let [question, answer] = FILES.map(|name| folder.join(name));
        write_question(circuit, &question).map_err(|error| format!("{}: {error}", shown_name(&question)))?;
        let mut command = Command::new(&self.program);
        command.args(&self.words).arg(&question);
        if self.writes_file() {
            command.arg(&answer);
        }
        let output = self.run(&mut command, running)?;
        if output.status.code() == Some(10) && self.writes_file() {
            let bytes = fs::read(&answer).map_err(|error| format!("{}: {error}", shown_name(&answer)))?;
            return self.read(&output, values_of_file(&bytes), circuit);
        }
        self.read(&output, values_of_lines(&output.stdout), circuit)
    }

    /// Runs it to its end, in a process group of its own, so that all that it starts can be ended with it.
    fn run(&self, command: &mut Command, running: &dyn Fn(Option<u32>)) -> Result<Output, String> {
        command.stdin(Stdio::null()).stdout(Stdio::piped()).stderr(Stdio::piped()).process_group(0);
        let child = command.spawn().map_err(|error| match error.kind() {
            ErrorKind::NotFound => format!("no such solver: {}", self.name()),
            _ => format!("{} cannot be run: {error}", self.name()),
        })?;
        running(Some(child.id()));
        let output = child.wait_with_output();
        running(None);
        output.map_err(|error| format!("what {} prints cannot be read: {error}", self.name()))
    }

    /// What its exit status, its `s` line and the values say. Where they do not fit together it is no answer.
    fn read(&self, output: &Output, values: Result<Vec<i64>, String>, circuit: &Circuit) -> Result<Answer, String> {
        let name = self.name();
        let says = output.stdout.split(|byte| *byte == b'\n').find_map(|line| line.strip_prefix(b"s "));
        let agrees = |word: &[u8]| match says.map(<[u8]>::trim_ascii) {
            Some(says) if says != word => {
                Err(format!("{name} contradicts itself: {}, but it prints 's {}'", output.status, shown(says)))
            }
            _ => Ok(()),
        };
        match output.status.code() {
            Some(10) => {
                agrees(b"SATISFIABLE")?;
                let values = values.map_err(|why| format!("{name} gives no values: {why}"))?;
                assignment(&values, circuit).map(Answer::Model).map_err(|why| format!("{name} gives no values: {why}"))
            }
            Some(20) => agrees(b"UNSATISFIABLE").map(|()| Answer::Unsatisfiable),
            Some(0) => agrees(b"UNKNOWN").map(|()| Answer::Unknown),
            _ => Err(format!("{name} {}{}", ended(output.status), last_words(output))),
        }
    }
}

fn is_program(path: &Path) -> bool {
    fs::metadata(path).is_ok_and(|file| file.is_file() && file.permissions().mode() & 0o111 != 0)
}

fn write_question(circuit: &Circuit, path: &Path) -> std::io::Result<()> {
    let mut file = BufWriter::new(File::create(path)?);
    dimacs::write(circuit, &mut file)?;
    file.flush()
}

/// The numbers of the `v` lines up to their 0.
fn values_of_lines(printed: &[u8]) -> Result<Vec<i64>, String> {
    let lines = printed.split(|byte| *byte == b'\n').filter_map(|line| line.strip_prefix(b"v"));
    let mut lines = lines.filter(|line| line.first().is_none_or(u8::is_ascii_whitespace)).peekable();
    if lines.peek().is_none() {
        return Err("it says that the clauses are satisfiable, but prints no line that begins with 'v'".to_string());
    }
    numbers(lines.flat_map(|line| line.split(u8::is_ascii_whitespace)))
}

/// The numbers after the word SAT, as minisat writes them.
fn values_of_file(text: &[u8]) -> Result<Vec<i64>, String> {
    let rest = text.strip_prefix(b"SAT").ok_or("what it wrote does not begin with SAT")?;
    numbers(rest.split(u8::is_ascii_whitespace))
}

/// These words as numbers up to the first 0, which has to be there: what is cut short has none.
fn numbers<'a>(words: impl Iterator<Item = &'a [u8]>) -> Result<Vec<i64>, String> {
    let mut read = Vec::new();
    for word in words.filter(|word| !word.is_empty()) {
        match std::str::from_utf8(word).ok().and_then(|word| word.parse().ok()) {
            Some(0) => return Ok(read),
            Some(number) => read.push(number),
            None => return Err(format!("'{}' is no number", shown(&word[..word.len().min(20)]))),
        }
    }
    Err("they do not end with 0".to_string())
}

/// The value of each pair; one that is not named is false.
fn assignment(values: &[i64], circuit: &Circuit) -> Result<Vec<bool>, String> {
    let mut pairs = vec![false; circuit.pairs.count()];
    for value in values {
        let variable = value.unsigned_abs() as usize;
        if variable > dimacs::variables(circuit) {
            return Err(format!("there is no variable {variable}"));
        }
        if let Some(pair) = pairs.get_mut(variable - 1) {
            *pair = *value > 0;
        }
    }
    Ok(pairs)
}

fn ended(status: ExitStatus) -> String {
    match (status.signal(), status.code()) {
        (Some(signal), _) => format!("was ended by signal {signal}"),
        (_, Some(code)) => format!("ended with exit status {code}, which is no answer (10 and 20 are)"),
        _ => "ended without an exit status".to_string(),
    }
}

/// The last line that it said on standard error, or printed.
fn last_words(output: &Output) -> String {
    let last = |bytes: &[u8]| {
        let lines = bytes.split(|byte| *byte == b'\n').map(<[u8]>::trim_ascii);
        lines.rev().find(|line| !line.is_empty()).map(|line| format!(": {}", shown(&line[..line.len().min(200)])))
    };
    last(&output.stderr).or_else(|| last(&output.stdout)).unwrap_or_default()
}
