//! Solvers that are scripts: each answer that a solver may give, and each that is none.

use std::cell::RefCell;
use std::ffi::OsStr;
use std::fs;
use std::os::unix::fs::PermissionsExt;
use std::path::PathBuf;
use std::sync::{Mutex, MutexGuard, PoisonError};
use zorambi::{Model, Schema};
use zorambi_widths::solver::FILES;
use zorambi_widths::{Finding, Solver, Stopped};

/// A folder that goes with it.
struct Folder(PathBuf);

impl Folder {
    fn new(name: &str) -> Folder {
        let folder = std::env::temp_dir().join(format!("zorambi-widths-{}-{name}", std::process::id()));
        let _ = fs::remove_dir_all(&folder);
        fs::create_dir(&folder).unwrap();
        Folder(folder)
    }
}

impl Drop for Folder {
    fn drop(&mut self) {
        let _ = fs::remove_dir_all(&self.0);
    }
}

/// p_n and not q_n, at n = 4: pairs 0 4 and 1 4, variables 1 and 2, and 3 for the and.
fn schema() -> Schema {
    Schema { root: 2, least: 0, rows: vec![[2, 0, 1, 0], [3, 1, 1, 0], [4, 0, 1, 0]] }
}

/// A script that another thread starts a process beside while it is written is busy: one at a time.
static ONE: Mutex<()> = Mutex::new(());

fn alone() -> MutexGuard<'static, ()> {
    ONE.lock().unwrap_or_else(PoisonError::into_inner)
}

/// A solver that is this script.
fn script(folder: &Folder, name: &str, script: &str) -> PathBuf {
    let program = folder.0.join(name);
    fs::write(&program, format!("#!/bin/sh\n{script}\n")).unwrap();
    fs::set_permissions(&program, fs::Permissions::from_mode(0o755)).unwrap();
    program
}

/// What is found by a script of this name.
fn found_by(name: &str, text: &str) -> Result<Finding, String> {
    let _alone = alone();
    let folder = Folder::new(name);
    let program = script(&folder, name, text);
    let solver = Solver::named(program.as_os_str()).unwrap();
    asked(&solver, &folder)
}

fn asked(solver: &Solver, folder: &Folder) -> Result<Finding, String> {
    let told = RefCell::new(Vec::new());
    let found = Finding::of(&schema(), 4, solver, &folder.0, &|running| told.borrow_mut().push(running.is_some()));
    // Told that it runs and that it has ended, if it could be run at all.
    assert!(matches!(told.borrow()[..], [] | [true, false]));
    found.map_err(|stopped| match stopped {
        Stopped::Failed(why) => why,
        Stopped::Refused(refused) => panic!("{refused}"),
    })
}

fn proved() -> Finding {
    Finding::Proved(Model { n: 4, pairs: vec![[0, 4]] })
}

#[test]
fn answers() {
    assert_eq!(found_by("right", "printf 's SATISFIABLE\\nv 1 -2\\nv 3 0\\n'; exit 10"), Ok(proved()));
    // Comments, no `s` line, a variable that is not named, blanks.
    assert_eq!(found_by("right", "printf 'c vain\\nv  1\\t3 0\\n'; exit 10"), Ok(proved()));
    assert_eq!(found_by("none", "echo 's UNSATISFIABLE'; exit 20"), Ok(Finding::NoModel));
    assert_eq!(found_by("none", "exit 20"), Ok(Finding::NoModel));
    assert_eq!(found_by("unknown", "echo 's UNKNOWN'"), Ok(Finding::Nothing));
    assert_eq!(found_by("unknown", ":"), Ok(Finding::Nothing));
    // A script sees the clauses in the file that it is given last.
    assert_eq!(found_by("reader", "grep -qx 'p cnf 3 3' \"$1\" && [ $# -eq 1 ] && exit 20"), Ok(Finding::NoModel));
}

#[test]
fn minisat_by_its_file() {
    let sat = "echo SATISFIABLE; echo 'SAT\n1 -2 3 0' >\"$2\"; exit 10";
    assert_eq!(found_by("minisat", sat), Ok(proved()));
    assert_eq!(found_by("minisat_core", sat), Ok(proved()));
    assert_eq!(found_by("minisat", "echo UNSATISFIABLE; echo UNSAT >\"$2\"; exit 20"), Ok(Finding::NoModel));
    for (script, why) in [
        ("exit 10", "minisat gives no values: what it wrote does not begin with SAT"),
        ("echo 'SAT\n1 -2' >\"$2\"; exit 10", "minisat gives no values: they do not end with 0"),
    ] {
        let script = format!(": >\"$2\"; {script}");
        let said = found_by("minisat", &script).unwrap_err();
        assert!(said.ends_with(why), "{said}");
    }
}

#[test]
fn what_is_no_answer() {
    for (script, why) in [
        ("exit 1", "odd ended with exit status 1, which is no answer (10 and 20 are)"),
        (
            "echo 'no such\\033 option' >&2; exit 3",
            "odd ended with exit status 3, which is no answer (10 and 20 are): no such\\x1b option",
        ),
        ("kill -9 $$", "odd was ended by signal 9"),
        (
            "exit 10",
            "odd gives no values: it says that the clauses are satisfiable, but prints no line that begins with 'v'",
        ),
        ("echo 'v 1 -2 3'; exit 10", "odd gives no values: they do not end with 0"),
        ("echo 'v 1 x 0'; exit 10", "odd gives no values: 'x' is no number"),
        ("echo 'v 1 4 0'; exit 10", "odd gives no values: there is no variable 4"),
        ("echo 'v 1 -99999999999999999999 0'; exit 10", "odd gives no values: '-9999999999999999999' is no number"),
        ("echo 's UNSATISFIABLE'; exit 10", "odd contradicts itself: exit status: 10, but it prints 's UNSATISFIABLE'"),
        ("echo 's SATISFIABLE'; exit 20", "odd contradicts itself: exit status: 20, but it prints 's SATISFIABLE'"),
        ("echo 's SATISFIABLE'; exit 0", "odd contradicts itself: exit status: 0, but it prints 's SATISFIABLE'"),
    ] {
        let said = found_by("odd", script).unwrap_err();
        assert!(said.ends_with(why), "{script}: {said}");
    }
    let _alone = alone();
    let folder = Folder::new("missing");
    let missing = Solver::named(OsStr::new("zorambi-no-such-solver -q")).unwrap();
    assert_eq!(asked(&missing, &folder), Err("no such solver: zorambi-no-such-solver".to_string()));
    assert!(Solver::named(OsStr::new(" \t")).is_err());
}

#[test]
fn other_exit_statuses() {
    // As they are where a wrapper's time is up or its solver was killed, beside those that lie next to an answer.
    for status in [1, 2, 9, 11, 19, 21, 124, 127, 137, 255] {
        let said = found_by("odd", &format!("echo 'v 1 3 0'; exit {status}")).unwrap_err();
        assert!(said.contains(&format!("ended with exit status {status}, which is no answer")), "{said}");
    }
}

#[test]
fn a_model_that_the_proved_check_refuses() {
    for script in ["echo 'v 1 2 3 0'; exit 10", "echo 'v -1 -2 3 0'; exit 10", "echo 'v 0'; exit 10"] {
        let said = found_by("liar", script).unwrap_err();
        assert!(said.starts_with("WRONG: what ") && said.contains("the schema is false there (20)"), "{said}");
    }
}

#[test]
fn words_before_the_file() {
    let _alone = alone();
    let folder = Folder::new("words");
    let program = script(&folder, "words", "[ \"$1 $2 ${3##*/}\" = '-t 60 schema.cnf' ] && exit 20");
    let mut command = program.into_os_string();
    command.push("  -t 60 ");
    assert_eq!(asked(&Solver::named(&command).unwrap(), &folder), Ok(Finding::NoModel));
    assert!(folder.0.join(FILES[0]).is_file());
}

#[test]
fn a_model_with_too_many_pairs() {
    // All p_i from 1 to n, and a solver that makes all variables true.
    let schema = Schema { root: 1, least: 0, rows: vec![[2, 0, 2, 0], [6, 0, 1, 0]] };
    let _alone = alone();
    let folder = Folder::new("long");
    let program =
        script(&folder, "all", "echo \"v $(seq -s ' ' $(sed -n 's/^p cnf \\([0-9]*\\) .*/\\1/p' \"$1\")) 0\"; exit 10");
    let solver = Solver::named(program.as_os_str()).unwrap();
    let found = |n| Finding::of(&schema, n, &solver, &folder.0, &|_| {}).unwrap();
    assert!(matches!(found(4096), Finding::Proved(model) if model.pairs.len() == 4096));
    let long = found(4097);
    assert!(matches!(&long, Finding::TooLong(model) if model.pairs.len() == 4097));
    assert_eq!(long.words(), "a model, the solver's word: it has 4,097 true pairs, and the proved check takes 4,096");
}
