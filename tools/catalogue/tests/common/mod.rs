//! Records to try the commands on, and how they are run.

#![allow(dead_code)]

use std::ffi::OsStr;
use std::fs;
use std::path::{Path, PathBuf};
use std::process::{Command, Output};

/// The record of the paper.
pub const SCHEMA: &str = "root least\n4 1\nkind a b c\n2 0 2 0\n3 0 2 0\n7 0 2 0\n6 1 2 0\n4 2 3 0\n";
pub const PROOF: &str = "kind a b c\n7 0 2 1\n2 0 1 0\n6 1 2 1\n3 0 1 0\nup rule on with other to by set\n\
-1 0 4 -1 -1 -1 0 4\n0 2 -1 -1 -1 -1 0 2 3\n1 7 2 -1 -1 -1 0 2 3\n1 3 3 7 8 -1 0 2 3\n\
3 4 2 5 6 -1 0 2 7 8\n4 8 -1 -1 -1 1 1 5 7\n4 6 6 8 -1 -1 0 6 8\n";
pub const ACCEPTED: &str = "accepted: 7 nodes, 1 link";
/// With node 5 linking by 2.
pub const BOUND: &str = "refused: a link's bounds: n - by may lie outside its target's (14) at node 5: \
                         proof.txt:12: 4 8 -1 -1 -1 1 2 5 7; \
                         node 5 knows n >= 2, so n - 2 may be 0; its target, node 1, knows n >= 1";

/// The paper's proof with node 5 linking by 2.
pub fn by_two() -> String {
    PROOF.replace("-1 1 1 5 7\n", "-1 1 2 5 7\n")
}

/// The program that the tests run: the two commands by themselves. `cargo test` builds it; with `--test NAME` it is what it was.
pub fn program() -> PathBuf {
    let test = std::env::current_exe().unwrap();
    test.parent().unwrap().with_file_name("examples").join("catalogue")
}

pub fn command<Word: AsRef<OsStr>>(words: &[Word]) -> Command {
    let mut command = Command::new(program());
    command.args(words);
    command
}

pub fn run<Word: AsRef<OsStr>>(words: &[Word]) -> Output {
    command(words).output().unwrap()
}

/// `catalogue` of a folder, with further words. Of verdicts nothing is said on standard error; of a failure one line.
pub fn catalogue(folder: &Path, words: &[&str]) -> Output {
    let output = noted(folder, words);
    let said = errors(&output);
    match status(&output) {
        2 => assert!(said.starts_with("zorambi catalogue: ") && said.lines().count() == 1, "{words:?}: {said}"),
        _ => assert_eq!(said, "", "{words:?}"),
    }
    output
}

/// The same where standard error may have a note.
pub fn noted(folder: &Path, words: &[&str]) -> Output {
    command(&["catalogue"]).arg(folder).args(words).output().unwrap()
}

pub fn status(output: &Output) -> i32 {
    output.status.code().unwrap()
}

pub fn lines(output: &Output) -> Vec<String> {
    String::from_utf8(output.stdout.clone()).unwrap().lines().map(str::to_string).collect()
}

pub fn errors(output: &Output) -> String {
    String::from_utf8(output.stderr.clone()).unwrap()
}

pub fn shipped() -> PathBuf {
    Path::new(env!("CARGO_MANIFEST_DIR")).join("../../records")
}

/// An empty folder of this test's own.
pub fn scratch(test: &str) -> PathBuf {
    let folder = Path::new(env!("CARGO_TARGET_TMPDIR")).join(env!("CARGO_CRATE_NAME")).join(test);
    let _ = fs::remove_dir_all(&folder);
    fs::create_dir_all(&folder).unwrap();
    folder
}

pub fn put(folder: &Path, schema: impl AsRef<[u8]>, proof: impl AsRef<[u8]>) {
    fs::create_dir_all(folder).unwrap();
    fs::write(folder.join("schema.txt"), schema).unwrap();
    fs::write(folder.join("proof.txt"), proof).unwrap();
}

/// What the line of this record says after its path.
pub fn said(output: &Output, record: &Path) -> String {
    let start = format!("{}: ", record.display());
    let found: Vec<String> = lines(output).into_iter().filter(|line| line.starts_with(&start)).collect();
    assert_eq!(found.len(), 1, "{start}");
    found[0][start.len()..].to_string()
}

/// The names in a folder, hidden ones too.
pub fn names(folder: &Path) -> Vec<String> {
    let entries = fs::read_dir(folder).unwrap();
    let mut names: Vec<String> =
        entries.map(|entry| entry.unwrap().file_name().to_string_lossy().into_owned()).collect();
    names.sort();
    names
}

/// What a Python program prints, which is given these words.
pub fn python(program: &str, words: &[&Path]) -> String {
    let output = Command::new("python3").arg("-c").arg(program).args(words).output().unwrap();
    assert!(output.status.success(), "{}", String::from_utf8_lossy(&output.stderr));
    String::from_utf8(output.stdout).unwrap()
}

/// Rows of a CSV table as Python's csv module reads them.
pub fn rows(table: &Path) -> Vec<Vec<String>> {
    let program = "import csv, sys\n\
                   for row in csv.reader(open(sys.argv[1], newline='', encoding='ascii'), strict=True):\n\
                   \x20   print('\\t'.join(row))";
    python(program, &[table]).lines().map(|line| line.split('\t').map(str::to_string).collect()).collect()
}

/// The row of a record.
pub fn row_of(rows: &[Vec<String>], name: &str) -> Vec<String> {
    rows.iter().find(|row| row[0] == name).unwrap_or_else(|| panic!("{name}")).clone()
}
