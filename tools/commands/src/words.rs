//! The words of a command line, told right from wrong by the table.

use crate::help::{help, list, overview, usage};
use crate::shown::shown_name;
use crate::{command, commands, Command};
use std::ffi::{OsStr, OsString};
use std::os::unix::ffi::OsStrExt;

/// The words that a command was given.
#[derive(Debug, Default, PartialEq, Eq)]
pub struct Given {
    options: Vec<(&'static str, OsString)>,
    pub names: Vec<OsString>,
}

impl Given {
    pub fn has(&self, option: &str) -> bool {
        self.value(option).is_some()
    }

    /// The value of an option; empty if it takes none.
    pub fn value(&self, option: &str) -> Option<&OsStr> {
        self.options.iter().find(|(name, _)| *name == option).map(|(_, value)| value.as_os_str())
    }
}

/// What a command line asks for.
#[derive(Debug)]
pub enum Asked {
    /// This, on standard output.
    Help(String),
    Version,
    /// Wrong use: what is said of it on standard error.
    Wrong(String),
    Run(&'static Command, Given),
}

/// What these words ask for; the first is a command's name.
pub fn asked(words: &[OsString]) -> Asked {
    let Some((name, words)) = words.split_first() else { return Asked::Wrong(overview()) };
    match name.to_str() {
        Some("--help" | "-h") => Asked::Help(overview()),
        Some("--version" | "-V") => Asked::Version,
        _ => match name.to_str().and_then(command) {
            None => Asked::Wrong(unknown_command(name)),
            Some(command) => of_command(command, words),
        },
    }
}

fn of_command(command: &'static Command, words: &[OsString]) -> Asked {
    let before_names = words.iter().take_while(|word| *word != "--");
    if before_names.clone().any(|word| word == "--help" || word == "-h") {
        return Asked::Help(help(command));
    }
    match given(command, words) {
        Err(why) => Asked::Wrong(format!("zorambi {}: {why}\n{}", command.name, usage(command))),
        Ok(given) if command.name == "help" => help_on(&given),
        Ok(given) => Asked::Run(command, given),
    }
}

fn help_on(given: &Given) -> Asked {
    match given.names.first() {
        _ if given.has("--list") => Asked::Help(list()),
        None => Asked::Help(overview()),
        Some(name) => match name.to_str().and_then(command) {
            Some(command) => Asked::Help(help(command)),
            None => Asked::Wrong(unknown_command(name)),
        },
    }
}

fn unknown_command(name: &OsStr) -> String {
    let known = commands().iter().map(|command| command.name);
    format!("zorambi: no command '{}';{} 'zorambi help' lists them\n", shown_name(name), meant(name, known))
}

fn meant(word: &OsStr, known: impl Iterator<Item = &'static str>) -> String {
    nearest(&word.to_string_lossy(), known).map_or(String::new(), |known| format!(" did you mean '{known}'?"))
}

/// The options and names among the words. `--` ends the options; a minus with digits is a number, not an option.
fn given(command: &'static Command, words: &[OsString]) -> Result<Given, String> {
    let mut given = Given::default();
    let mut words = words.iter();
    while let Some(word) = words.next() {
        let bytes = word.as_bytes();
        if bytes == b"--" {
            given.names.extend(words.by_ref().cloned());
        } else if is_option(bytes) {
            let (name, value) = split_value(bytes);
            let known = command.options.iter().find(|option| option.name.as_bytes() == name);
            let option = known.ok_or_else(|| unknown_option(command, OsStr::from_bytes(name)))?;
            if given.has(option.name) {
                return Err(format!("{} is given twice", option.name));
            }
            let value = match (option.value, value) {
                (None, None) => OsString::new(),
                (None, Some(_)) => return Err(format!("{} takes no value", option.name)),
                (Some(_), Some(value)) => OsStr::from_bytes(value).to_os_string(),
                (Some(what), None) => words.next().cloned().ok_or_else(|| format!("{} wants a {what}", option.name))?,
            };
            given.options.push((option.name, value));
        } else {
            given.names.push(word.clone());
        }
    }
    counted(command, given)
}

fn is_option(word: &[u8]) -> bool {
    match word {
        [b'-'] => false,
        [b'-', rest @ ..] => !rest.iter().all(u8::is_ascii_digit),
        _ => false,
    }
}

fn split_value(word: &[u8]) -> (&[u8], Option<&[u8]>) {
    match word.iter().position(|byte| *byte == b'=') {
        Some(at) if word.starts_with(b"--") => (&word[..at], Some(&word[at + 1..])),
        _ => (word, None),
    }
}

fn unknown_option(command: &'static Command, name: &OsStr) -> String {
    let known = command.options.iter().map(|option| option.name);
    format!("no option '{}';{} a name that begins with a dash stands after '--'", shown_name(name), meant(name, known))
}

/// As many names as the command takes, none of them empty.
fn counted(command: &'static Command, given: Given) -> Result<Given, String> {
    let [least, most] = command.names;
    if given.names.iter().any(|name| name.is_empty()) {
        return Err("an empty word where a name is wanted".to_string());
    }
    match given.names.len() {
        count if count < least => Err(format!("{} missing", missing(command, count))),
        count if count > most => Err(format!("one word too many: '{}'", shown_name(&given.names[most]))),
        _ => Ok(given),
    }
}

/// The first name of the use that is not given.
fn missing(command: &'static Command, count: usize) -> String {
    let names = command.takes.split(' ').filter(|word| word.starts_with(|first: char| first.is_ascii_uppercase()));
    let name = names.map(|name| name.trim_end_matches('.')).nth(count).unwrap_or("a word");
    format!("{name} is")
}

/// The known word nearest to this one, if one is near enough that it may have been meant.
pub fn nearest<'a>(word: &str, known: impl Iterator<Item = &'a str>) -> Option<&'a str> {
    let near = known.map(|known| (distance(word, known), known)).min_by_key(|(distance, _)| *distance);
    near.filter(|(distance, known)| *distance <= 2.min(known.len() / 2)).map(|(_, known)| known)
}

/// How many letters are to be put in, taken out, exchanged, or swapped with their neighbour.
fn distance(one: &str, other: &str) -> usize {
    let [one, other] = [one, other].map(|word| word.chars().take(40).collect::<Vec<char>>());
    let mut rows: Vec<Vec<usize>> = vec![(0..=other.len()).collect()];
    for at in 1..=one.len() {
        let mut row = vec![at];
        for to in 1..=other.len() {
            let exchanged = rows[at - 1][to - 1] + usize::from(one[at - 1] != other[to - 1]);
            let mut least = exchanged.min(rows[at - 1][to] + 1).min(row[to - 1] + 1);
            if at > 1 && to > 1 && one[at - 1] == other[to - 2] && one[at - 2] == other[to - 1] {
                least = least.min(rows[at - 2][to - 2] + 1);
            }
            row.push(least);
        }
        rows.push(row);
    }
    rows[one.len()][other.len()]
}

#[cfg(test)]
mod tests {
    use super::*;

    fn ask(line: &[&str]) -> Asked {
        asked(&line.iter().map(OsString::from).collect::<Vec<_>>())
    }

    fn wrong(line: &[&str]) -> String {
        match ask(line) {
            Asked::Wrong(why) => why.lines().next().unwrap().to_string(),
            other => panic!("{line:?}: {other:?}"),
        }
    }

    fn run(line: &[&str]) -> (&'static str, Given) {
        match ask(line) {
            Asked::Run(command, given) => (command.name, given),
            other => panic!("{line:?}: {other:?}"),
        }
    }

    #[test]
    fn right_words() {
        let (name, given) = run(&["check", "--older", "a"]);
        assert_eq!((name, given.has("--older"), given.has("--json")), ("check", true, false));
        assert_eq!(given.names, ["a"]);
        assert!(run(&["check", "a", "--older"]).1.has("--older"));
        assert_eq!(run(&["check", "--", "--older"]).1.names, ["--older"]);
        assert_eq!(run(&["check", "--older", "--", "-x"]).1.names, ["-x"]);
        assert_eq!(run(&["check", "-"]).1.names, ["-"]);
        assert_eq!(run(&["find", "a", "-5"]).1.names, ["a", "-5"]);
        assert_eq!(run(&["check", "--", "--help"]).1.names, ["--help"]);
        assert_eq!(run(&["catalogue", "a", "--csv", "-x"]).1.value("--csv"), Some(OsStr::new("-x")));
        assert_eq!(run(&["catalogue", "a", "--csv=b=c"]).1.value("--csv"), Some(OsStr::new("b=c")));
    }

    #[test]
    fn wrong_words() {
        for (line, why) in [
            (&["chekc", "a"][..], "zorambi: no command 'chekc'; did you mean 'check'? 'zorambi help' lists them"),
            (&["cat\u{1b}[1m"], "zorambi: no command 'cat\\x1b[1m'; 'zorambi help' lists them"),
            (&["check"], "zorambi check: DIR is missing"),
            (&["find", "a"], "zorambi find: N is missing"),
            (&["join", "a", "b"], "zorambi join: OUT is missing"),
            (&["check", "--older"], "zorambi check: DIR is missing"),
            (&["check", ""], "zorambi check: an empty word where a name is wanted"),
            (&["check", "a", "b\n"], "zorambi check: one word too many: 'b\\x0a'"),
            (&["check", "--older", "--older", "a"], "zorambi check: --older is given twice"),
            (&["check", "--older=x", "a"], "zorambi check: --older takes no value"),
            (&["catalogue", "a", "--csv"], "zorambi catalogue: --csv wants a FILE"),
            (&["help", "jion"], "zorambi: no command 'jion'; did you mean 'join'? 'zorambi help' lists them"),
            (
                &["check", "--oldre", "a"],
                "zorambi check: no option '--oldre'; did you mean '--older'? a name that begins with a dash stands after '--'",
            ),
        ] {
            assert_eq!(wrong(line), why);
        }
        assert_eq!(wrong(&[]), "use: zorambi COMMAND ..");
    }

    #[test]
    fn help_of_every_command() {
        for command in commands() {
            for line in [&[command.name, "--help"][..], &["help", command.name], &[command.name, "x", "-h", "y"]] {
                let Asked::Help(text) = ask(line) else { panic!("{line:?}") };
                assert!(text.starts_with(&usage(command)), "{line:?}");
                assert!(command.options.iter().all(|option| text.contains(option.name)), "{line:?}");
                assert!(command.of_script || command.name == "merge" || text.contains("\nfor instance:\n"), "{line:?}");
                assert!(text.lines().skip(1).all(|line| line.len() <= 100), "{line:?}");
            }
            let Asked::Help(all) = ask(&["help"]) else { panic!() };
            assert!(all.contains(&format!("  {:<11}{}\n", command.name, command.about)));
        }
        let Asked::Help(all) = ask(&["help", "--list"]) else { panic!() };
        assert_eq!(all.lines().count(), commands().len());
        assert!(all.lines().all(|line| line.split('\t').count() == 3));
        assert!(matches!(ask(&["--version"]), Asked::Version));
    }

    #[test]
    fn near_words() {
        let known = || ["check", "model", "catalogue", "find"].into_iter();
        for (word, near) in [
            ("chek", Some("check")),
            ("hceck", Some("check")),
            ("modle", Some("model")),
            ("catalog", Some("catalogue")),
            ("fnid", Some("find")),
            ("x", None),
            ("", None),
            ("checkmate", None),
        ] {
            assert_eq!(nearest(word, known()), near, "{word}");
        }
    }
}
