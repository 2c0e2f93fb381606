//! Programs from outside beside the proved library, for tests/solver.sh.
//!
//!     outside solver FOLDER RECORDS COMMAND    a SAT solver against the library's search for a model
//!     outside simulator FOLDER RECORDS         iverilog against the library's model check
//!
//! On small and on random schemata and on the schemata of the records, refused ones too. FOLDER is for files on the
//! way; the last line is 'N passed, M failed'.

#[path = "../tests/common/mod.rs"]
mod common;

use common::{random, small, Case};
use std::ffi::OsStr;
use std::fmt::Write;
use std::fs;
use std::path::Path;
use std::process::{Command, ExitCode};
use zorambi::{check_model, find_model, read_schema, Model};
use zorambi_widths::{verilog, Circuit, Finding, Solver};

fn main() -> ExitCode {
    let words: Vec<_> = std::env::args_os().skip(1).collect();
    let words: Vec<&OsStr> = words.iter().map(|word| word.as_os_str()).collect();
    let mut tally = Tally::default();
    match words[..] {
        [which, folder, records, command] if which == "solver" => {
            let solver = Solver::named(command).expect("a command");
            with_solver(Path::new(folder), Path::new(records), &solver, &mut tally);
        }
        [which, folder, records] if which == "simulator" => {
            with_simulator(Path::new(folder), Path::new(records), &mut tally);
        }
        _ => panic!("outside solver FOLDER RECORDS COMMAND | outside simulator FOLDER RECORDS"),
    }
    println!("{} passed, {} failed", tally.passed, tally.failed);
    ExitCode::from(u8::from(tally.failed > 0))
}

#[derive(Default)]
struct Tally {
    passed: usize,
    failed: usize,
}

impl Tally {
    /// A test, and what is said where it fails.
    fn test(&mut self, passes: bool, words: impl FnOnce() -> String) {
        if passes {
            self.passed += 1;
        } else {
            self.failed += 1;
            println!("FAILED {}", words());
        }
    }
}

/// The schemata of the records that are well formed, at their first widths.
fn of_records(records: &Path, widths: i32) -> Vec<Case> {
    let mut cases = Vec::new();
    for group in ["paper", "accepted", "refused", "wide", "tidy"] {
        let folders = fs::read_dir(records.join(group)).expect("a folder of records");
        let mut folders: Vec<_> = folders.map(|entry| entry.expect("an entry").path()).collect();
        folders.sort();
        for folder in folders {
            let Ok(text) = fs::read(folder.join("schema.txt")) else { continue };
            let schema = read_schema(&text).expect("a schema text");
            if Circuit::of(&schema, schema.least).is_ok() {
                cases.extend((schema.least..schema.least + widths).map(|n| Case::new(schema.clone(), n)));
            }
        }
    }
    cases
}

/// Wherever the library's search answers, the solver answers alike, and its model is accepted.
fn with_solver(folder: &Path, records: &Path, solver: &Solver, tally: &mut Tally) {
    let groups = [
        ("small", small(61).step_by(3).collect::<Vec<_>>()),
        ("random", random(2, 160).collect()),
        ("shipped", of_records(records, 12)),
    ];
    for (group, cases) in groups {
        let [mut with, mut without] = [0, 0];
        for case in cases {
            let Ok(found) = find_model(&case.schema, case.n) else { continue };
            *(if found.is_some() { &mut with } else { &mut without }) += 1;
            let agrees = match Finding::of(&case.schema, case.n, solver, folder, &|_| {}) {
                Ok(Finding::Proved(_)) => found.is_some(),
                Ok(Finding::NoModel) => found.is_none(),
                _ => false,
            };
            tally.test(agrees, || format!("find and the solver differ: {:?} at {}", case.schema, case.n));
        }
        println!("find and {} on {group} schemata: {with} with a model, {without} without", solver.name());
        tally.test(with.min(without) >= 20, || format!("{group} schemata: too few of a kind to mean something"));
    }
}

/// At most so many pairs are tried in all their values.
const MOST: usize = 8;

/// All values of the inputs of all modules, simulated at once.
fn with_simulator(folder: &Path, records: &Path, tally: &mut Tally) {
    let cases = small(97).step_by(11).chain(random(3, 70)).chain(of_records(records, 3));
    let tried: Vec<(Case, Vec<[i32; 2]>)> =
        cases.filter_map(|case| case.pairs(MOST).map(|pairs| (case, pairs))).collect();
    let (mut modules, mut instances, mut steps) = (String::new(), String::new(), String::new());
    for (at, (case, pairs)) in tried.iter().enumerate() {
        let circuit = Circuit::of(&case.schema, case.n).expect("well formed");
        let mut text = Vec::new();
        verilog::write(&circuit, &mut text).expect("memory takes all");
        let text = String::from_utf8(text).expect("ASCII");
        modules += &text.replace(&format!("module schema_at_{} (", case.n), &format!("module schema_{at} ("));
        // Inputs by their places: bit 0 is the first pair.
        let bits: String = (0..pairs.len()).map(|bit| format!("values[{bit}], ")).collect();
        writeln!(instances, "  wire root_{at};\n  schema_{at} tried_{at}({bits}root_{at});").expect("a string");
        let last = (1 << pairs.len()) - 1;
        writeln!(steps, "    for (values = 0; values <= {last}; values = values + 1) begin").expect("a string");
        writeln!(steps, "      #1 $write(\"%b\", root_{at});\n    end\n    $write(\"\\n\");").expect("a string");
    }
    let bench = format!("module bench;\n  reg [31:0] values;\n{instances}  initial begin\n{steps}  end\nendmodule\n");
    fs::write(folder.join("all.v"), modules + &bench).expect("a file");
    let run = |program: &str, words: &[&str]| {
        let output = Command::new(program).args(words).current_dir(folder).output().expect("the simulator");
        assert!(output.status.success(), "{program}: {}", String::from_utf8_lossy(&output.stderr));
        String::from_utf8(output.stdout).expect("ASCII")
    };
    let said = run("iverilog", &["-Wall", "-Wno-timescale", "-g2001", "-s", "bench", "-o", "all.vvp", "all.v"]);
    assert_eq!(said, "");
    let printed = run("vvp", &["-n", "all.vvp"]);
    let lines = printed.lines().count();
    tally.test(lines == tried.len(), || format!("{lines} lines from {} modules", tried.len()));
    for ((case, pairs), line) in tried.iter().zip(printed.lines()) {
        let told = || format!("the simulator and the model check differ: {:?} at {}: {line}", case.schema, case.n);
        tally.test(line == values_of(case, pairs), told);
    }
}

/// The model check's verdict on each assignment: 1 where it accepts.
fn values_of(case: &Case, pairs: &[[i32; 2]]) -> String {
    let accepted = |assignment: usize| {
        let listed = pairs.iter().enumerate().filter(|(at, _)| assignment >> at & 1 == 1).map(|(_, pair)| *pair);
        check_model(&case.schema, &Model { n: case.n, pairs: listed.collect() }).is_accepted()
    };
    (0..1 << pairs.len()).map(|assignment| if accepted(assignment) { '1' } else { '0' }).collect()
}
