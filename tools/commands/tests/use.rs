//! The program that tells words right from wrong before anything is built: what it prints, what it says, and its exit status.

use std::fs::File;
use std::process::{Command, Output, Stdio};

fn command(words: &[&str]) -> Command {
    let mut command = Command::new(env!("CARGO_BIN_EXE_zorambi-use"));
    command.args(words);
    command
}

fn ended(output: &Output) -> (Option<i32>, &str, &str) {
    let [printed, said] = [&output.stdout, &output.stderr].map(|bytes| std::str::from_utf8(bytes).unwrap());
    (output.status.code(), printed, said)
}

#[test]
fn right_words() {
    for words in [&["check", "a"][..], &["--version"], &["fuzz", "7"], &["check", "--", "--help"]] {
        assert_eq!(ended(&command(words).output().unwrap()), (Some(3), "", ""), "{words:?}");
    }
}

#[test]
fn help() {
    for (words, start) in [(&["help"][..], "use: zorambi COMMAND ..\n"), (&["check", "--help"], "use: zorambi check [")]
    {
        let output = command(words).output().unwrap();
        let (status, printed, said) = ended(&output);
        assert_eq!((status, said), (Some(0), ""), "{words:?}");
        assert!(printed.starts_with(start), "{words:?}: {printed}");
    }
    let full = File::options().write(true).open("/dev/full").unwrap();
    assert_eq!(command(&["help"]).stdout(Stdio::from(full)).status().unwrap().code(), Some(2));
}

#[test]
fn wrong_words() {
    for (words, why) in [
        (&["chekc", "a"][..], "zorambi: no command 'chekc'; did you mean 'check'? 'zorambi help' lists them\n"),
        (&["find", "a"], "zorambi find: N is missing\nuse: zorambi find [--follow] [--json] [--quiet] DIR N\n"),
        (&["fuzz"], "zorambi fuzz: SECONDS is missing\nuse: ./zorambi fuzz SECONDS\n"),
        (&["test", "a"], "zorambi test: one word too many: 'a'\nuse: ./zorambi test\n"),
    ] {
        assert_eq!(ended(&command(words).output().unwrap()), (Some(2), "", why), "{words:?}");
    }
}
