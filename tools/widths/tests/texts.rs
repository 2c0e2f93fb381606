//! The clauses and the module, read by readers of their own, have as models what the other implementation says.

mod common;

use common::{of_rows, random, small, Case};
use std::collections::HashMap;
use zorambi_widths::{dimacs, verilog, Circuit};

/// A DIMACS text: the pair of each variable that has one, and clauses.
struct Clauses {
    pairs: Vec<[i32; 2]>,
    clauses: Vec<Vec<i64>>,
    variables: usize,
}

fn number<T: std::str::FromStr>(word: &str) -> T {
    word.parse().unwrap_or_else(|_| panic!("no number: {word}"))
}

/// Reads it strictly: comments, the header, then as many clauses as that says, each on a line and ended by 0.
fn read_clauses(text: &str) -> Clauses {
    let mut pairs = Vec::new();
    let mut lines = text.lines();
    let header = loop {
        let line = lines.next().expect("a header");
        let words: Vec<&str> = line.split(' ').collect();
        match words[..] {
            ["c", "pair", symbol, index, variable] => {
                pairs.push([number(symbol), number(index)]);
                assert_eq!(number::<usize>(variable), pairs.len());
            }
            ["c", ..] => {}
            ["p", "cnf", variables, clauses] => break [variables, clauses].map(number::<usize>),
            _ => panic!("{line}"),
        }
    };
    let [variables, count] = header;
    let clauses: Vec<Vec<i64>> = lines
        .map(|line| {
            let mut clause: Vec<i64> = line.split(' ').map(number).collect();
            assert_eq!(clause.pop(), Some(0), "{line}");
            assert!(
                clause.iter().all(|literal| *literal != 0 && literal.unsigned_abs() as usize <= variables),
                "{line}"
            );
            clause
        })
        .collect();
    assert_eq!(clauses.len(), count);
    Clauses { pairs, clauses, variables }
}

/// Whether values for the variables that have none yet satisfy all clauses: by one variable after another, those of
/// unit clauses first.
fn satisfiable(clauses: &[Vec<i64>], values: &[Option<bool>]) -> bool {
    let value = |literal: i64| values[literal.unsigned_abs() as usize].map(|value| value == (literal > 0));
    let mut open = None;
    for clause in clauses {
        if clause.iter().any(|literal| value(*literal) == Some(true)) {
            continue;
        }
        let left: Vec<i64> = clause.iter().copied().filter(|literal| value(*literal).is_none()).collect();
        match left[..] {
            [] => return false,
            [only] => {
                open = Some((only, true));
                break;
            }
            [first, ..] => open = open.or(Some((first, false))),
        }
    }
    let Some((literal, unit)) = open else { return true };
    let with = |wanted: bool| {
        let mut tried = values.to_vec();
        tried[literal.unsigned_abs() as usize] = Some((literal > 0) == wanted);
        satisfiable(clauses, &tried)
    };
    with(true) || !unit && with(false)
}

impl Clauses {
    /// Whether some values of the other variables satisfy all clauses, with these of the pairs.
    fn hold(&self, assignment: u32) -> bool {
        let mut values = vec![None; self.variables + 1];
        for at in 0..self.pairs.len() {
            values[at + 1] = Some(assignment >> at & 1 == 1);
        }
        satisfiable(&self.clauses, &values)
    }
}

/// A module: its inputs, what is assigned to each name in order, and the name that comes out.
struct Module {
    inputs: Vec<(String, [i32; 2])>,
    wires: Vec<(String, String)>,
}

fn read_module(text: &str, n: i32) -> Module {
    let code: Vec<&str> = text.lines().filter(|line| !line.starts_with("//")).collect();
    assert_eq!(code[0], format!("module schema_at_{n} ("));
    assert_eq!(code.last(), Some(&"endmodule"));
    let mut inputs = Vec::new();
    let mut at = 1;
    while let Some(rest) = code[at].strip_prefix("  input ") {
        let (name, about) = rest.split_once(", // symbol ").expect("a comment");
        let (symbol, index) = about.split_once(" at ").expect("an index");
        let index_name = index.replace('-', "m");
        assert_eq!(name, format!("p{symbol}_{index_name}"));
        inputs.push((name.to_string(), [number(symbol), number(index)]));
        at += 1;
    }
    assert_eq!(code[at..at + 2], ["  output root", ");"]);
    let body = code[at + 2..code.len() - 1].join("\n");
    let statements = body.split(';').map(str::trim).filter(|statement| !statement.is_empty());
    let wires = statements.map(|statement| {
        let declared = statement.strip_prefix("wire ").or(statement.strip_prefix("assign ")).expect("a statement");
        let (name, value) = declared.split_once(" = ").expect("a value");
        (name.to_string(), value.to_string())
    });
    Module { inputs, wires: wires.collect() }
}

impl Module {
    fn holds(&self, assignment: u32) -> bool {
        let mut values: HashMap<&str, bool> = HashMap::from([("1'b0", false), ("1'b1", true)]);
        for (at, (name, _)) in self.inputs.iter().enumerate() {
            assert!(values.insert(name, assignment >> at & 1 == 1).is_none(), "{name} twice");
        }
        for (name, value) in &self.wires {
            let of = |part: &str| match part.trim().strip_prefix('~') {
                Some(part) => !values[part],
                None => values[part.trim()],
            };
            let list = |parts: &str| parts.strip_suffix('}').expect("a list").split(',').map(of).collect::<Vec<_>>();
            let value = match (value.strip_prefix("&{"), value.strip_prefix("|{")) {
                (Some(parts), _) => list(parts).into_iter().all(|part| part),
                (_, Some(parts)) => list(parts).into_iter().any(|part| part),
                _ => of(value),
            };
            assert!(values.insert(name, value).is_none(), "{name} twice");
        }
        values["root"]
    }
}

fn text_of(circuit: &Circuit, write: fn(&Circuit, &mut Vec<u8>) -> std::io::Result<()>) -> String {
    let mut out = Vec::new();
    write(circuit, &mut out).expect("memory takes all");
    String::from_utf8(out).expect("ASCII")
}

/// Both texts of a case have its pairs and its models, and what is kept of a model is one.
fn compare(case: &Case, most: usize) -> Option<usize> {
    let pairs = case.pairs(most)?;
    let circuit = Circuit::of(&case.schema, case.n).expect("well formed");
    let clauses = read_clauses(&text_of(&circuit, dimacs::write));
    let module = read_module(&text_of(&circuit, verilog::write), case.n);
    assert_eq!(clauses.pairs, pairs, "{:?} at {}", case.schema, case.n);
    assert!(module.inputs.iter().map(|(_, pair)| pair).eq(&pairs), "{:?} at {}", case.schema, case.n);
    let mut models = 0;
    for assignment in 0..1u32 << pairs.len() {
        let is_true = |pair: [i32; 2]| pairs.binary_search(&pair).is_ok_and(|at| assignment >> at & 1 == 1);
        let expected = case.holds(&is_true);
        let told = || format!("{:?} at {} under {assignment:b}", case.schema, case.n);
        assert_eq!(clauses.hold(assignment), expected, "clauses of {}", told());
        assert_eq!(module.holds(assignment), expected, "module of {}", told());
        let given: Vec<bool> = (0..pairs.len()).map(|at| assignment >> at & 1 == 1).collect();
        let kept = circuit.enough(&given);
        assert!(kept.iter().zip(&given).all(|(kept, given)| !kept || *given), "kept of {}", told());
        let is_kept = |pair: [i32; 2]| pairs.binary_search(&pair).is_ok_and(|at| kept[at]);
        assert_eq!(case.holds(&is_kept), expected, "kept of {}", told());
        models += usize::from(expected);
    }
    Some(models)
}

#[test]
fn small_schemata() {
    let found: Vec<usize> = small(31).filter_map(|case| compare(&case, 7)).collect();
    assert!(found.len() > 2000, "{}", found.len());
    let without = found.iter().filter(|models| **models == 0).count();
    assert!(without > 200 && found.len() - without > 200, "{without} of {}", found.len());
}

#[test]
fn random_schemata() {
    let found: Vec<usize> = random(1, 600).filter_map(|case| compare(&case, 7)).collect();
    assert!(found.len() > 700, "{}", found.len());
    let without = found.iter().filter(|models| **models == 0).count();
    assert!(without > 200 && found.len() - without > 200, "{without} of {}", found.len());
}

#[test]
fn the_papers_schema() {
    // Some p_i and no p_i for i from 2 to n, at 3: p_2 is variable 1 and p_3 variable 2; then the big or, the big and,
    // the and.
    let rows = [[2, 0, 2, 0], [3, 0, 2, 0], [7, 0, 2, 0], [6, 1, 2, 0], [4, 2, 3, 0]];
    let circuit = |n| Circuit::of(&of_rows(&rows, n).schema, n).unwrap();
    let text = text_of(&circuit(3), dimacs::write);
    let clauses = "c pair 0 2 1\nc pair 0 3 2\np cnf 5 6\n-3 1 2 0\n-4 -1 0\n-4 -2 0\n-5 3 0\n-5 4 0\n5 0\n";
    assert!(text.ends_with(clauses), "{text}");
    let text = text_of(&circuit(3), verilog::write);
    let module =
        "module schema_at_3 (\n  input p0_2, // symbol 0 at 2\n  input p0_3, // symbol 0 at 3\n  output root\n);\n  \
                  wire row2 = |{p0_2, p0_3};\n  wire row3 = &{~p0_2, ~p0_3};\n  wire row4 = &{row2, row3};\n  \
                  assign root = row4;\nendmodule\n";
    assert!(text.ends_with(module), "{text}");
    // At 2 each iteration is its one literal; at 1 both are empty: false and true.
    assert!(text_of(&circuit(2), dimacs::write).ends_with("c pair 0 2 1\np cnf 2 3\n-2 1 0\n-2 -1 0\n2 0\n"));
    assert!(text_of(&circuit(1), dimacs::write).ends_with(".\np cnf 0 1\n0\n"));
    assert!(text_of(&circuit(1), verilog::write).ends_with("(\n  output root\n);\n  assign root = 1'b0;\nendmodule\n"));
}

#[test]
fn long_lists() {
    // All p_i from 1 to 30: true where all are, and not where one is missing.
    let case = of_rows(&[[2, 0, 2, 0], [6, 0, 1, 0]], 30);
    let text = text_of(&Circuit::of(&case.schema, 30).unwrap(), verilog::write);
    assert!(text.lines().all(|line| line.len() <= 100), "{text}");
    let module = read_module(&text, 30);
    let all = (1 << 30) - 1;
    assert!(module.holds(all));
    assert!((0..30).all(|missing| !module.holds(all & !(1 << missing))), "{text}");
}

#[test]
fn values_and_empty_ranges() {
    let ends = |rows: &[[i32; 4]], n, end: &str| {
        let text = text_of(&Circuit::of(&of_rows(rows, n).schema, n).unwrap(), dimacs::write);
        assert!(text.ends_with(end), "{rows:?} at {n}: {text}");
    };
    ends(&[[0, 0, 0, 0]], 0, ".\np cnf 0 0\n");
    ends(&[[1, 0, 0, 0]], 0, ".\np cnf 0 1\n0\n");
    // An empty range names no pair; one value names one.
    ends(&[[2, 3, 2, 0], [6, 0, 5, 0]], 4, ".\np cnf 0 0\n");
    ends(&[[2, 3, 2, 0], [7, 0, 5, 0]], 4, ".\np cnf 0 1\n0\n");
    ends(&[[3, 3, 2, -9], [7, 0, 5, 0]], 5, "c pair 3 -4 1\np cnf 1 1\n-1 0\n");
    // A pair that occurs beside true is a variable, though no clause has it.
    ends(&[[2, 7, 1, -1], [0, 0, 0, 0], [5, 0, 1, 0]], 0, "c pair 7 -1 1\np cnf 1 0\n");
    ends(&[[2, 7, 1, -1], [1, 0, 0, 0], [4, 0, 1, 0]], 0, "c pair 7 -1 1\np cnf 1 1\n0\n");
}

/// 700 iterations that share a body of 79 rows, from different b on.
fn heavy() -> Vec<[i32; 4]> {
    let mut rows: Vec<[i32; 4]> = (0..40).map(|symbol| [2 + symbol % 2, symbol, 2, symbol % 3]).collect();
    rows.push([5, 0, 1, 0]);
    for at in 2..40 {
        rows.push([4 + at % 2, rows.len() as i32 - 1, at, 0]);
    }
    let body = rows.len() as i32 - 1;
    let iterations = rows.len() as i32;
    rows.extend((0..700).map(|at| [6 + at % 2, body, at % 100, 0]));
    // Their conjunction, not too deep and not too large: of every fortieth.
    let parts: Vec<i32> = (0..700).step_by(40).map(|at| iterations + at).collect();
    let mut last = parts[0];
    for part in &parts[1..] {
        rows.push([4, last, *part, 0]);
        last = rows.len() as i32 - 1;
    }
    rows
}

#[test]
fn as_large_as_rows_times_ranges() {
    let sizes = [500, 1000, 2000].map(|n| {
        let case = of_rows(&heavy(), n);
        let circuit = Circuit::of(&case.schema, n).unwrap();
        let range = n as usize + 1;
        // 39 gates of the body for each i, and the outer ones.
        assert!(circuit.gate_count() <= 39 * range + 40, "{}", circuit.gate_count());
        // Two inputs a gate of the body, and a range's for each of 18 iterations and 17 conjunctions.
        let inputs: usize = circuit.gates().map(|gate| gate.inputs.len()).sum();
        assert!(inputs <= (2 * 39 + 18) * range + 40, "{inputs}");
        assert!(circuit.pairs.count() >= 40 * (range - 100), "{}", circuit.pairs.count());
        text_of(&circuit, dimacs::write).len() + text_of(&circuit, verilog::write).len()
    });
    // Twice the width, about twice the bytes.
    assert!(sizes[1] < sizes[0] * 5 / 2 && sizes[2] < sizes[1] * 5 / 2, "{sizes:?}");
}

#[test]
fn what_is_refused() {
    let refused = |rows: &[[i32; 4]], n| {
        let refused = Circuit::of(&of_rows(rows, n).schema, n).unwrap_err();
        (refused.refusal.number(), refused.place)
    };
    assert_eq!(refused(&[[2, 0, 2, 0]], 3), (6, None));
    assert_eq!(refused(&[[0, 0, 0, 0], [4, 0, 7, 0]], 3), (7, Some(1)));
    assert_eq!(refused(&[[0, 0, 0, 0]], 10_000), (19, None));
    assert_eq!(refused(&[[0, 0, 0, 0]], -1), (19, None));
}
