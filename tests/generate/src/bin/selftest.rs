//! Tests of this implementation by itself: `selftest [cases [seed [folder of records]]]`.
//!
//! The paper's record and its neighbours; the outside producer's records; generated cases checked
//! for consistency, with counts of every answer.

use std::collections::BTreeMap;
use std::panic::{catch_unwind, AssertUnwindSafe};
use std::path::Path;
use std::time::Instant;
use zorambi_generate::cases::{ACROSS, RANGES, TWICE};
use zorambi_generate::models::{find_model, pair_rows, random_assignment, random_pairs};
use zorambi_generate::sides::agree_either_way;
use zorambi_generate::tables::Tables;
use zorambi_generate::{across, ranges, twice};
use zorambi_generate::{case, run, Case, Input, Outcome, Rng};
use zorambi_reference::formula::{self, Formulas};
use zorambi_reference::formula::{AND, BIG_AND, BIG_OR, FALSE, LITERAL, NEGATED, ON_I, ON_N, OR, PLAIN, TRUE};
use zorambi_reference::program::{Fault, Judgement};
use zorambi_reference::tableau::{self, Record};
use zorambi_reference::text::{self, Named};
use zorambi_reference::{model, packed, program, Verdict};

const SCHEMA: &str = "root least\n4 1\nkind a b c\n2 0 2 0\n3 0 2 0\n7 0 2 0\n6 1 2 0\n4 2 3 0\n";
const PROOF: &str = "kind a b c\n7 0 2 1\n2 0 1 0\n6 1 2 1\n3 0 1 0\nup rule on with other to by set\n\
-1 0 4 -1 -1 -1 0 4\n0 2 -1 -1 -1 -1 0 2 3\n1 7 2 -1 -1 -1 0 2 3\n1 3 3 7 8 -1 0 2 3\n\
3 4 2 5 6 -1 0 2 7 8\n4 8 -1 -1 -1 1 1 5 7\n4 6 6 8 -1 -1 0 6 8\n";

#[derive(Default)]
struct Tally {
    passed: usize,
    failed: usize,
}

impl Tally {
    fn record(&mut self, name: &str, result: Result<(), String>) {
        match result {
            Ok(()) => self.passed += 1,
            Err(why) => {
                self.failed += 1;
                if self.failed <= 50 {
                    println!("FAILED {name}: {why}");
                }
            }
        }
    }

    fn equal<T: PartialEq + std::fmt::Debug>(&mut self, name: &str, found: T, expected: T) {
        let result = if found == expected { Ok(()) } else { Err(format!("{found:?}, expected {expected:?}")) };
        self.record(name, result);
    }
}

fn main() {
    let arguments: Vec<String> = std::env::args().skip(1).collect();
    let number = |at: usize, default: u64| arguments.get(at).and_then(|word| word.parse().ok()).unwrap_or(default);
    let (cases, seed) = (number(0, 20_000), number(1, 1));
    let records = arguments.get(2).cloned().unwrap_or_else(|| "records".to_string());
    let mut tally = Tally::default();
    paper(&mut tally);
    println!("paper: {} passed, {} failed", tally.passed, tally.failed);
    let before = tally.passed;
    rows_again(&mut tally);
    println!("rows written twice: {} passed, {} failed so far", tally.passed - before, tally.failed);
    let before = tally.passed;
    sides(&mut tally);
    println!("sides in either order: {} passed, {} failed so far", tally.passed - before, tally.failed);
    let before = tally.passed;
    outside_records(&mut tally, Path::new(&records));
    println!("records: {} passed, {} failed so far", tally.passed - before, tally.failed);
    generated(&mut tally, cases, seed);
    println!("{} passed, {} failed", tally.passed, tally.failed);
    std::process::exit(i32::from(tally.failed > 0));
}

// ---------------------------------------------------------------------------------------------
// The paper's record

fn check_texts(schema: &[u8], proof: &[u8]) -> (u8, i32, usize, usize) {
    let verdict = program::check_texts(schema, proof).verdict;
    (verdict.answer, verdict.place, verdict.nodes, verdict.links)
}

fn check_older_texts(schema: &[u8], proof: &[u8]) -> (u8, i32, usize, usize) {
    let verdict = program::check_older_texts(schema, proof).verdict;
    (verdict.answer, verdict.place, verdict.nodes, verdict.links)
}

fn check_model_texts(schema: &[u8], model: &[u8]) -> (u8, i32) {
    let verdict = program::check_model_texts(schema, model).verdict;
    (verdict.answer, verdict.place)
}

fn changed(text: &str, from: &str, to: &str) -> String {
    assert_eq!(text.matches(from).count(), 1, "{from} does not stand once in the text");
    text.replace(from, to)
}

fn paper(tally: &mut Tally) {
    let mut check = |name: &str, schema: &str, proof: &str, expected: (u8, i32, usize, usize)| {
        tally.equal(name, check_texts(schema.as_bytes(), proof.as_bytes()), expected);
    };
    check("the record", SCHEMA, PROOF, (0, 0, 7, 1));
    check("least 0", &changed(SCHEMA, "4 1\n", "4 0\n"), PROOF, (14, 3, 0, 0));
    check("least 2", &changed(SCHEMA, "4 1\n", "4 2\n"), PROOF, (14, 2, 0, 0));
    let proof = |from: &str, to: &str| changed(PROOF, from, to);
    check("node 5 by 2", SCHEMA, &proof("4 8 -1 -1 -1 1 1 5 7\n", "4 8 -1 -1 -1 1 2 5 7\n"), (14, 5, 0, 0));
    check("node 5's set 5", SCHEMA, &proof("1 1 5 7\n", "1 1 5\n"), (16, 5, 0, 0));
    check("node 6 on 8 with 6", SCHEMA, &proof("4 6 6 8 ", "4 6 8 6 "), (12, 6, 0, 0));
    check("node 4's other 8", SCHEMA, &proof("3 4 2 5 6 ", "3 4 2 5 8 "), (15, 4, 0, 0));
    check("last row gone", SCHEMA, &proof("4 6 6 8 -1 -1 0 6 8\n", ""), (17, 4, 0, 0));
    check("node 6's set 6 7 8", SCHEMA, &proof("0 6 8\n", "0 6 7 8\n"), (0, 0, 7, 1));
    check("node 6's set 5 6 8", SCHEMA, &proof("0 6 8\n", "0 5 6 8\n"), (11, 6, 0, 0));
    check("no files", "", "", (3, 1, 0, 0));
    check("no proof file", SCHEMA, "", (3, 1, 0, 0));
    check("link by 0", SCHEMA, &proof("-1 1 1 5 7\n", "-1 1 0 5 7\n"), (12, 5, 0, 0));
    // Document 02, No. 6: node 5 knows n ≥ 2. Nodes 0 and 1 know n ≥ 1, node 2 n = 1, nodes 3 and 4 n ≥ 2.
    for (to, expected) in [
        ("0", (16, 5, 0, 0)),
        ("2", (14, 5, 0, 0)),
        ("3", (14, 5, 0, 0)),
        ("4", (14, 5, 0, 0)),
        ("5", (13, 5, 0, 0)),
        ("6", (13, 5, 0, 0)),
        ("7", (13, 5, 0, 0)),
        ("99999", (13, 5, 0, 0)),
        ("-1", (13, 5, 0, 0)),
        ("-99999", (13, 5, 0, 0)),
    ] {
        let link = format!("-1 {to} 1 5 7\n");
        check(&format!("node 5 to {to}"), SCHEMA, &proof("-1 1 1 5 7\n", &link), expected);
    }
    // Document 02, No. 5: node 1 knows n ≥ 1 and splits at K; node 2 is void for n below 2.
    for (by, expected) in [
        ("1", (0, 0, 7, 1)),
        ("2", (14, 2, 0, 0)),
        ("9998", (14, 2, 0, 0)),
        ("9999", (14, 1, 0, 0)),
        ("99999", (14, 1, 0, 0)),
        ("-1", (12, 1, 0, 0)),
        ("-99999", (12, 1, 0, 0)),
    ] {
        let split = format!("0 2 -1 -1 -1 -1 {by} ");
        check(&format!("node 1 by {by}"), SCHEMA, &proof("0 2 -1 -1 -1 -1 0 ", &split), expected);
    }
    check("node 1 to 0", SCHEMA, &proof("0 2 -1 -1 -1 -1 0 ", "0 2 -1 -1 -1 0 0 "), (12, 1, 0, 0));
    check("node 2 by 1", SCHEMA, &proof("1 7 2 -1 -1 -1 0 ", "1 7 2 -1 -1 -1 1 "), (12, 2, 0, 0));

    let mut model = |name: &str, schema: &str, model: &str, expected: (u8, i32)| {
        tally.equal(name, check_model_texts(schema.as_bytes(), model.as_bytes()), expected);
    };
    let root_3 = changed(SCHEMA, "4 1\n", "3 1\n");
    model("no pair, n = 1", SCHEMA, "n\n1\nsymbol index\n", (20, -1));
    model("root 3, no pair, n = 1", &root_3, "n\n1\nsymbol index\n", (0, 0));
    model("root 3, no pair, n = 0", &root_3, "n\n0\nsymbol index\n", (19, -1));
    model("root 3, n = 3, pair 0 1", &root_3, "n\n3\nsymbol index\n0 1\n", (0, 0));
    model("root 3, n = 3, pair 0 3", &root_3, "n\n3\nsymbol index\n0 3\n", (20, -1));

    let line = |named, number| text::line(named, SCHEMA.as_bytes(), PROOF.as_bytes(), number);
    let schema_lines: Vec<&str> = SCHEMA.lines().collect();
    let proof_lines: Vec<&str> = PROOF.lines().collect();
    for (number, expected) in schema_lines.iter().enumerate() {
        tally.equal("a schema line", line(Named::Schema, number + 1), expected.as_bytes());
    }
    for (number, expected) in proof_lines.iter().enumerate() {
        tally.equal("a proof line", line(Named::Proof, number + 1), expected.as_bytes());
    }
    tally.equal("line 0", line(Named::Schema, 0), b"");
    tally.equal("a line past the last", line(Named::Proof, proof_lines.len() + 1), b"");
    tally.equal("schema row 4", text::row_line(5, 4, 4).map(|(named, at)| line(named, at)), Some(&b"4 2 3 0"[..]));
    tally.equal("proof row 5", text::row_line(5, 4, 5).map(|(named, at)| line(named, at)), Some(&b"7 0 2 1"[..]));
    tally.equal("proof row 8", text::row_line(5, 4, 8).map(|(named, at)| line(named, at)), Some(&b"3 0 1 0"[..]));
    tally.equal("row 9", text::row_line(5, 4, 9), None);
    let node = text::node_line(4, 6).map(|at| line(Named::Proof, at));
    tally.equal("node 6", node, Some(&b"4 6 6 8 -1 -1 0 6 8"[..]));

    let accepted = packed::pack(Verdict::accepted(7, 1));
    tally.equal("the one number", accepted, (8192 + 7) * 8192 + 1);
    let refused = packed::pack(Verdict { answer: 20, place: -1, nodes: 0, links: 0 });
    tally.equal("the one number of a refusal", refused, 20 * 8192 * 8192 * 8192);
}

// ---------------------------------------------------------------------------------------------
// Proof rows written twice, document 02, No. 9; all answers worked out by hand

fn rows_again(tally: &mut Tally) {
    let accepted = (0, 0, 7, 1);
    let refused = |answer: u8, place: i32| (answer, place, 0, 0);
    // More rows at the end of the proof's: the first of them is row 9, line 6 of the proof.
    for (name, rows, present, older, line) in [
        ("a schema row", "2 0 2 0\n", refused(27, 9), accepted, 6),
        ("another schema row", "4 2 3 0\n", refused(27, 9), accepted, 6),
        ("the first proof row", "7 0 2 1\n", refused(27, 9), accepted, 6),
        ("the row before", "3 0 1 0\n", refused(27, 9), accepted, 6),
        ("another kind", "2 0 1 1\n", accepted, accepted, 0),
        ("another symbol", "3 1 1 0\n", accepted, accepted, 0),
        ("another index", "3 0 0 0\n", accepted, accepted, 0),
        ("another offset", "3 0 1 1\n", accepted, accepted, 0),
        ("sides swapped", "4 3 2 0\n", accepted, accepted, 0),
        ("a new row twice", "0 0 0 0\n1 0 0 0\n0 0 0 0\n", refused(27, 11), accepted, 8),
        ("a row again, then an ill-formed one", "2 0 1 0\n8 0 0 0\n", refused(27, 9), refused(7, 10), 6),
        ("an ill-formed row, then one again", "8 0 0 0\n2 0 1 0\n", refused(7, 9), refused(7, 9), 6),
        ("an ill-formed row twice", "8 0 0 0\n8 0 0 0\n", refused(7, 9), refused(7, 9), 6),
    ] {
        let proof = changed(PROOF, "3 0 1 0\n", &format!("3 0 1 0\n{rows}"));
        let texts = [SCHEMA.as_bytes(), proof.as_bytes()];
        tally.equal(name, check_texts(texts[0], texts[1]), present);
        tally.equal(&format!("{name}, older"), check_older_texts(texts[0], texts[1]), older);
        let fault = program::check_texts(texts[0], texts[1]).fault;
        tally.equal(&format!("{name}, line at fault"), fault, Fault { second: line > 0, line });
        // A root that is not outer comes after all rows.
        let schema = changed(SCHEMA, "4 1\n", "0 1\n");
        let or_root = |answer: (u8, i32, usize, usize)| if answer == accepted { refused(6, -1) } else { answer };
        tally.equal(&format!("{name}, root 0"), check_texts(schema.as_bytes(), texts[1]), or_root(present));
        let found = check_older_texts(schema.as_bytes(), texts[1]);
        tally.equal(&format!("{name}, root 0, older"), found, or_root(older));
        // A root that is no schema row comes before all rows.
        let schema = changed(SCHEMA, "4 1\n", "5 1\n");
        tally.equal(&format!("{name}, root 5"), check_texts(schema.as_bytes(), texts[1]), refused(6, -1));
    }
    // Schema rows may repeat.
    let node = "up rule on with other to by set\n-1 5 0 -1 -1 -1 0 0\n";
    for (name, schema, proof, present) in [
        ("one row", "1 0 0 0\n", "", (0, 0, 1, 0)),
        ("a schema row twice", "1 0 0 0\n1 0 0 0\n", "", (0, 0, 1, 0)),
        ("a schema row three times", "1 0 0 0\n1 0 0 0\n0 0 0 0\n1 0 0 0\n", "", (0, 0, 1, 0)),
        ("a schema row in the proof", "1 0 0 0\n", "1 0 0 0\n", refused(27, 1)),
        ("a schema row twice and in the proof", "1 0 0 0\n1 0 0 0\n", "0 0 0 0\n1 0 0 0\n", refused(27, 3)),
    ] {
        let schema = format!("root least\n0 0\nkind a b c\n{schema}");
        let proof = format!("kind a b c\n{proof}{node}");
        tally.equal(name, check_texts(schema.as_bytes(), proof.as_bytes()), present);
        let older = check_older_texts(schema.as_bytes(), proof.as_bytes());
        tally.equal(&format!("{name}, older"), older, (0, 0, 1, 0));
    }
}

// ---------------------------------------------------------------------------------------------
// Sides in either order, document 02, No. 4; all answers worked out by hand

/// Rows of a table, for formulas over p (symbol 0), q (1) and r (2).
#[derive(Default)]
struct Table {
    rows: Vec<i32>,
}

impl Table {
    fn row(&mut self, row: [i32; 4]) -> i32 {
        self.rows.extend(row);
        self.rows.len() as i32 / 4 - 1
    }

    /// p, q and r at base + offset.
    fn literals(&mut self, base: i32, offset: i32) -> [i32; 3] {
        [0, 1, 2].map(|symbol| self.row([LITERAL, symbol, base, offset]))
    }

    fn lowered(&self, f: i32, g: i32, k: i32) -> bool {
        formula::lowered(&self.rows, self.rows.len() / 4, f, g, k)
    }

    fn instance(&self, f: i32, g: i32, c: i32) -> bool {
        formula::instance(&self.rows, self.rows.len() / 4, f, g, c)
    }
}

fn sides(tally: &mut Tally) {
    let mut t = Table::default();
    let [p, q, r] = t.literals(ON_N, 0);
    let [p1, q1, r1] = t.literals(ON_N, -1);
    let and = |t: &mut Table, a: i32, b: i32| t.row([AND, a, b, 0]);
    let or = |t: &mut Table, a: i32, b: i32| t.row([OR, a, b, 0]);

    let (pq, pq1, qp1, p_or_q1) = (and(&mut t, p, q), and(&mut t, p1, q1), and(&mut t, q1, p1), or(&mut t, q1, p1));
    tally.equal("p and q lowered", t.lowered(pq, pq1, 1), true);
    tally.equal("p and q lowered, sides swapped", t.lowered(pq, qp1, 1), true);
    tally.equal("p and q lowered by 2", t.lowered(pq, qp1, 2), false);
    tally.equal("p and q is not q or p", t.lowered(pq, p_or_q1, 1), false);
    let q1r1 = and(&mut t, q1, r1);
    tally.equal("p and q is not q and r", t.lowered(pq, q1r1, 1), false);
    let pp1 = and(&mut t, p1, p1);
    tally.equal("p and q is not p and p", t.lowered(pq, pp1, 1), false);
    tally.equal("p and p is not p", t.lowered(pp1, p1, 0), false);
    let mixed = and(&mut t, q, p1);
    tally.equal("one side lowered", t.lowered(pq, mixed, 1), false);

    // (p and q) or (q and r), swapped outside, inside one side, and inside both.
    let (qr, qr1, rq1) = (and(&mut t, q, r), and(&mut t, q1, r1), and(&mut t, r1, q1));
    let f = or(&mut t, pq, qr);
    for (name, left, right, fits) in [
        ("outside", qr1, pq1, true),
        ("inside the left", qp1, qr1, true),
        ("outside and inside one", qr1, qp1, true),
        ("outside and inside both", rq1, qp1, true),
        ("the left twice", pq1, qp1, false),
        ("the right twice", rq1, qr1, false),
    ] {
        let g = or(&mut t, left, right);
        tally.equal(&format!("two levels, swapped {name}"), t.lowered(f, g, 1), fits);
        tally.equal(&format!("two levels, swapped {name}, not lowered"), t.lowered(f, g, 0), false);
    }

    // Sides are swapped, not regrouped: (p and q) and r, p and (q and r), r and (q and p).
    let left = and(&mut t, pq, r);
    let (right, swapped) = (and(&mut t, p1, qr1), and(&mut t, r1, qp1));
    tally.equal("(p and q) and r is not p and (q and r)", t.lowered(left, right, 1), false);
    tally.equal("(p and q) and r is r and (q and p)", t.lowered(left, swapped, 1), true);
    // (p and q) and p is p and (q and p) by swapping alone.
    let (pqp, p_qp) = (and(&mut t, pq, p), and(&mut t, p1, qp1));
    tally.equal("(p and q) and p is p and (q and p)", t.lowered(pqp, p_qp, 1), true);
    // The same row for both sides, against two rows whose sides stand in different orders.
    let (twice, once_each) = (or(&mut t, pq, pq), or(&mut t, pq1, qp1));
    tally.equal("each occurrence has its own order", t.lowered(twice, once_each, 1), true);

    // Bodies, and literals that lowering leaves alone.
    let [p_i, q_i, r_i] = t.literals(ON_I, 0);
    let [p_0, q_0, _] = t.literals(PLAIN, 0);
    let (pq_i, qp_i, qr_i) = (and(&mut t, p_i, q_i), and(&mut t, q_i, p_i), and(&mut t, q_i, r_i));
    let all = t.row([BIG_AND, pq_i, 1, 0]);
    for (name, row, fits) in [
        ("body swapped", [BIG_AND, qp_i, 1, 1], true),
        ("body the same", [BIG_AND, pq_i, 1, 1], true),
        ("another body", [BIG_AND, qr_i, 1, 1], false),
        ("limit not lowered", [BIG_AND, qp_i, 1, 0], false),
        ("another first index", [BIG_AND, qp_i, 0, 1], false),
        ("a big or", [BIG_OR, qp_i, 1, 1], false),
    ] {
        let g = t.row(row);
        tally.equal(&format!("iteration lowered, {name}"), t.lowered(all, g, 1), fits);
        let (with_left, with_right) = (and(&mut t, all, p_0), and(&mut t, p_0, g));
        tally.equal(&format!("iteration and p lowered, {name}"), t.lowered(with_left, with_right, 1), fits);
        let other = and(&mut t, q_0, g);
        tally.equal(&format!("iteration and q lowered, {name}"), t.lowered(with_left, other, 1), false);
    }

    // Instances: (p_i and q_i) or not p_(i-1) at n - 1 is (q_(n-1) and p_(n-1)) or not p_(n-2).
    let before = t.row([NEGATED, 0, ON_I, -1]);
    let body = or(&mut t, pq_i, before);
    let [not_p2, not_p1] = [-2, -1].map(|offset| t.row([NEGATED, 0, ON_N, offset]));
    for (name, left, right, fits) in [
        ("in order", pq1, not_p2, true),
        ("swapped", not_p2, pq1, true),
        ("swapped inside", qp1, not_p2, true),
        ("swapped twice", not_p2, qp1, true),
        ("a leaf changed", not_p1, qp1, false),
        ("another part", not_p2, qr1, false),
    ] {
        let g = or(&mut t, left, right);
        tally.equal(&format!("instance, {name}"), t.instance(body, g, 1), fits);
        tally.equal(&format!("instance, {name}, at n"), t.instance(body, g, 0), false);
    }
    let regrouped = {
        let right = or(&mut t, q_i, r_i);
        let (body, left) = (or(&mut t, p_i, right), or(&mut t, p1, q1));
        let g = or(&mut t, left, r1);
        t.instance(body, g, 1)
    };
    tally.equal("instance, regrouped", regrouped, false);

    // Rule 3: `other` may have its sides swapped; `with` names the same body row.
    let schema = "root least\n6 1\nkind a b c\n2 0 2 0\n2 1 2 0\n5 0 1 0\n5 1 0 0\n1 0 0 0\n6 2 1 0\n4 4 5 0\n";
    for (name, with, other, expected) in [
        ("in the body's order", "6 2 1 1", "5 7 8 0", (0, 0, 3, 0)),
        ("with the instance's sides swapped", "6 2 1 1", "5 8 7 0", (0, 0, 3, 0)),
        ("with half of the instance", "6 2 1 1", "5 7 7 0", (15, 1, 0, 0)),
        ("with a body that is alike in another row", "6 3 1 1", "5 7 8 0", (15, 1, 0, 0)),
    ] {
        let proof = format!(
            "kind a b c\n2 0 1 0\n2 1 1 0\n{with}\n{other}\nup rule on with other to by set\n\
             -1 0 6 -1 -1 -1 0 6\n0 3 5 9 10 -1 0 4 5\n1 5 4 -1 -1 -1 0 4 9 10\n"
        );
        tally.equal(&format!("unfolding {name}"), check_texts(schema.as_bytes(), proof.as_bytes()), expected);
    }
}

// ---------------------------------------------------------------------------------------------
// The outside producer's records

fn outside_records(tally: &mut Tally, folder: &Path) {
    let mut found = 0;
    for sort in ["accepted", "refused"] {
        let Ok(entries) = std::fs::read_dir(folder.join(sort)) else { continue };
        let mut records: Vec<_> = entries.flatten().map(|entry| entry.path()).collect();
        records.sort();
        for record in records {
            found += 1;
            let file = |name: &str| std::fs::read(record.join(name)).unwrap_or_default();
            let name = record.display().to_string();
            let (schema, proof) = (file("schema.txt"), file("proof.txt"));
            let older = record.join("older").is_file();
            let check = if older { check_older_texts } else { check_texts };
            let (answer, place, nodes, links) = check(&schema, &proof);
            let expected = String::from_utf8_lossy(&file("expected")).trim_end().to_string();
            tally.equal(&name, format!("{answer} {place} {nodes} {links}"), expected);
            let model = file("model.txt");
            if !model.is_empty() {
                tally.equal(&format!("{name}, model"), check_model_texts(&schema, &model), (0, 0));
                tally.record(&name, reads_back(&Input::ReadModel { text: model, length: 8192, fill: 3 }));
            }
            tally.record(&name, reads_back(&Input::ReadSchema { text: schema, length: 4096, fill: 3 }));
            tally.record(&name, reads_back(&Input::ReadProof { text: proof, lengths: [4096, 9216, 8192], fill: 3 }));
        }
    }
    tally.record("records", if found > 0 { Ok(()) } else { Err(format!("none in {}", folder.display())) });
}

/// A text that is read is written back as the same bytes.
fn reads_back(input: &Input) -> Result<(), String> {
    let outcome = run(input);
    if outcome.answer() != 0 {
        return Err(format!("refused with {}", outcome.answer()));
    }
    consistent(input, &outcome, &mut Rng::new(0))
}

// ---------------------------------------------------------------------------------------------
// Generated cases

/// The answers that occur.
const ANSWERS: [usize; 24] = [0, 1, 2, 3, 4, 5, 6, 7, 8, 9, 10, 11, 12, 13, 14, 15, 16, 17, 18, 19, 20, 21, 22, 27];

#[derive(Default)]
struct Counts {
    cases: usize,
    by_answer: [usize; 28],
    /// Accepted by the older check.
    older: usize,
    linked: usize,
    links: usize,
    nodes: usize,
    most_nodes: usize,
}

fn generated(tally: &mut Tally, cases: u64, seed: u64) {
    println!("{cases} generated cases, seed {seed}");
    let start = Instant::now();
    let mut counts: BTreeMap<&'static str, Counts> = BTreeMap::new();
    let mut soundness = Rng::new(seed);
    let (mut running, mut slowest) = (0.0, (0.0, 0));
    // Cases that are made to show one thing, how many of them the older check accepts, and how many the check
    // refuses with 27, by sort and kind.
    let mut aims: BTreeMap<(&'static str, &'static str), [usize; 3]> = BTreeMap::new();
    let named = |of: &'static str, cases: Vec<Case>| {
        let cases = cases.into_iter().enumerate();
        cases.map(move |(number, case)| (number as u64, format!("edge {number} of {of}"), case))
    };
    let edges = named("K", ranges::edges()).chain(named("links", across::edges()));
    let edges = edges.chain(named("rows again", twice::edges()));
    let made = (0..cases).map(|number| {
        let case = case(seed, number);
        (number, format!("case {number} of seed {seed} ({})", case.sort), case)
    });
    for (number, name, case) in edges.chain(made) {
        let begin = Instant::now();
        let Ok(outcome) = catch_unwind(AssertUnwindSafe(|| run(&case.input))) else {
            tally.record(&name, Err("panic".to_string()));
            continue;
        };
        let took = begin.elapsed().as_secs_f64();
        running += took;
        if took > slowest.0 {
            slowest = (took, number);
        }
        let entry = counts.entry(case.sort).or_default();
        entry.cases += 1;
        entry.by_answer[usize::from(outcome.answer()).min(27)] += 1;
        let older = case.input.older().map(|input| (run(&input), input));
        if let Some((outcome, input)) = &older {
            entry.older += usize::from(outcome.answer() == 0);
            tally.record(&format!("{name}, older"), consistent(input, outcome, &mut soundness));
        }
        if let (Input::Check(_), Outcome::Verdict { verdict, .. }) = (&case.input, &outcome) {
            entry.links += verdict.links;
            entry.linked += usize::from(verdict.links > 0);
            entry.nodes += verdict.nodes;
            entry.most_nodes = entry.most_nodes.max(verdict.nodes);
        }
        tally.record(&name, consistent(&case.input, &outcome, &mut soundness));
        let verdicts = [Some(&outcome), older.as_ref().map(|(outcome, _)| outcome)].map(|outcome| match outcome {
            Some(Outcome::Verdict { verdict, .. }) => Some(*verdict),
            _ => None,
        });
        if let (Input::Check(tables), [Some(present), Some(older)]) = (&case.input, verdicts) {
            tally.record(&name, older_consistent(tables, present, older));
            let Some(aim) = &case.aim else { continue };
            let found = [present, older].map(|verdict| (verdict.answer, verdict.place));
            tally.equal(&name, found, aim.answers(tables).unwrap_or(found));
            for kind in &aim.kinds {
                let [times, accepted, again] = aims.entry((case.sort, kind)).or_default();
                *times += 1;
                *accepted += usize::from(older.answer == 0);
                *again += usize::from(present.answer == 27);
            }
        }
    }
    print_counts(&counts);
    for ((sort, kind), [times, accepted, again]) in &aims {
        println!("{:66}{times:>6}{accepted:>10}{again:>8}", format!("{sort}: {kind}"));
    }
    println!(
        "{:.1} s in all; {running:.2} s in the functions under test, {:.4} s for the slowest (case {})",
        start.elapsed().as_secs_f64(),
        slowest.0,
        slowest.1
    );
    if cases < 5000 {
        return;
    }
    for answer in ANSWERS {
        let times: usize = counts.values().map(|entry| entry.by_answer[answer]).sum();
        let result = if times > 0 { Ok(()) } else { Err("does not occur".to_string()) };
        tally.record(&format!("answer {answer}"), result);
    }
    let of_ranges = ranges::kinds().map(|(kind, answer)| (RANGES, kind, answer));
    let of_across = across::kinds().map(|(kind, answer)| (ACROSS, kind, answer));
    let as_made = |fits: bool| if fits { Ok(()) } else { Err("does not occur, or not as made".to_string()) };
    for (sort, kind, answer) in of_ranges.chain(of_across) {
        let [times, accepted, again] = aims.get(&(sort, kind)).copied().unwrap_or_default();
        let right = accepted == if answer == 0 { times } else { 0 };
        tally.record(kind, as_made(right && again < times));
    }
    for (kind, [present, older]) in twice::kinds() {
        let [times, accepted, again] = aims.get(&(TWICE, kind)).copied().unwrap_or_default();
        let right = accepted == if older == 0 { times } else { 0 } && again == if present == 27 { times } else { 0 };
        tally.record(kind, as_made(times > 0 && right));
    }
    let checks: Vec<&Counts> =
        counts.iter().filter(|(sort, _)| sort.starts_with("check")).map(|(_, entry)| entry).collect();
    let total: usize = checks.iter().map(|entry| entry.cases).sum();
    let accepted: usize = checks.iter().map(|entry| entry.by_answer[0]).sum();
    let linked: usize = checks.iter().map(|entry| entry.linked).sum();
    let enough = |fits: bool| if fits { Ok(()) } else { Err("too few".to_string()) };
    tally.record("a fifth of the tableaux accepted", enough(accepted * 5 >= total));
    tally.record("most of those with links", enough(linked * 2 > accepted));
}

fn print_counts(counts: &BTreeMap<&'static str, Counts>) {
    let groups = ["check", "model", "read", "write", "program"];
    println!("answer{}      all", groups.map(|group| format!("{group:>9}")).concat());
    for answer in ANSWERS {
        let times = |group: &str| -> usize {
            let sorts = counts.iter().filter(|(sort, _)| sort.starts_with(group));
            sorts.map(|(_, entry)| entry.by_answer[answer]).sum()
        };
        let row: String = groups.iter().map(|group| format!("{:>9}", times(group))).collect();
        let all: usize = groups.iter().map(|group| times(group)).sum();
        println!("{answer:>6}{row}{all:>9}");
    }
    println!(
        "{:26}{:>8}{:>10}{:>8}{:>8}{:>12}{:>9}{:>9}",
        "sort", "cases", "answer 0", "linked", "links", "most nodes", "again", "older 0"
    );
    for (sort, entry) in counts {
        println!(
            "{sort:26}{:>8}{:>10}{:>8}{:>8}{:>12}{:>9}{:>9}",
            entry.cases,
            entry.by_answer[0],
            entry.linked,
            entry.links,
            entry.most_nodes,
            entry.by_answer[27],
            entry.older
        );
    }
    let sum = |of: fn(&Counts) -> usize| -> usize {
        counts.iter().filter(|(sort, _)| sort.starts_with("check")).map(|(_, entry)| of(entry)).sum()
    };
    println!(
        "tableaux: {} checked, {} accepted, {} of those with links, {} links, {} nodes in accepted ones",
        sum(|entry| entry.cases),
        sum(|entry| entry.by_answer[0]),
        sum(|entry| entry.linked),
        sum(|entry| entry.links),
        sum(|entry| entry.nodes)
    );
}

fn ensure(fits: bool, why: &str) -> Result<(), String> {
    if fits {
        Ok(())
    } else {
        Err(why.to_string())
    }
}

fn is_zero<T: Copy + Default + PartialEq>(memory: &[T]) -> bool {
    memory.iter().all(|value| *value == T::default())
}

/// What must hold of an answer whatever the case.
fn consistent(input: &Input, outcome: &Outcome, rng: &mut Rng) -> Result<(), String> {
    match (input, outcome) {
        (Input::Check(tables), Outcome::Verdict { verdict, packed }) => {
            verdict_consistent(*verdict, *packed)?;
            let allowed = matches!(verdict.answer, 0 | 2 | 5..=17 | 27);
            ensure(allowed, "a number that the check does not give")?;
            write_and_read(tables)
        }
        (Input::CheckOlder(tables), Outcome::Verdict { verdict, packed }) => {
            verdict_consistent(*verdict, *packed)?;
            ensure(matches!(verdict.answer, 0 | 2 | 5..=17), "a number that the older check does not give")?;
            // What the check accepts, this one accepts too.
            if verdict.answer == 0 {
                accepted_consistent(tables, *verdict, rng)?;
            }
            Ok(())
        }
        (Input::Model(model), Outcome::Verdict { verdict, packed }) => {
            verdict_consistent(*verdict, *packed)?;
            let allowed = matches!(verdict.answer, 0 | 2 | 5..=8 | 18..=20);
            ensure(allowed, "a number that the model check does not give")?;
            ensure(verdict.nodes == 0 && verdict.links == 0, "counts of a model")?;
            if verdict.answer == 0 || verdict.answer == 20 {
                // The value once more, by rendering the ranges out.
                let formulas = Formulas::new(&model.schema, model.schema_count, &[], 0).ok_or("no rows")?;
                let pairs: std::collections::HashSet<(i32, i64)> = model.pairs[..2 * model.pair_count]
                    .chunks_exact(2)
                    .map(|pair| (pair[0], i64::from(pair[1])))
                    .collect();
                let value = plain_value(&formulas, model.root, i64::from(model.n), 0, &pairs);
                ensure(value == (verdict.answer == 0), "another value")?;
            }
            Ok(())
        }
        (Input::ReadSchema { text, .. }, Outcome::SchemaRead { read, rows }) => {
            if read.answer != 0 {
                ensure(is_zero(rows), "memory after a refusal")?;
                return ensure((read.root, read.least, read.rows) == (0, 0, 0), "results after a refusal");
            }
            ensure(read.place == 0 && is_zero(&rows[4 * read.rows..]), "memory past the last row")?;
            let mut out = vec![7; text.len()];
            let written = text::write_schema(read.root, read.least, rows, read.rows, &mut out);
            ensure(written.answer == 0 && written.bytes == text.len() && out == *text, "written back otherwise")
        }
        (Input::ReadProof { text, .. }, Outcome::ProofRead { read, rows, nodes, members }) => {
            if read.answer != 0 {
                ensure(is_zero(rows) && is_zero(nodes) && is_zero(members), "memory after a refusal")?;
                return ensure((read.rows, read.nodes, read.members) == (0, 0, 0), "results after a refusal");
            }
            let rest_is_zero = is_zero(&rows[4 * read.rows..])
                && is_zero(&nodes[9 * read.nodes..])
                && is_zero(&members[read.members..]);
            ensure(read.place == 0 && rest_is_zero, "memory past the last row")?;
            let mut out = vec![7; text.len()];
            let written = text::write_proof(rows, read.rows, nodes, read.nodes, members, read.members, &mut out);
            ensure(written.answer == 0 && written.bytes == text.len() && out == *text, "written back otherwise")
        }
        (Input::ReadModel { text, .. }, Outcome::ModelRead { read, pairs }) => {
            if read.answer != 0 {
                ensure(is_zero(pairs), "memory after a refusal")?;
                return ensure((read.n, read.pairs) == (0, 0), "results after a refusal");
            }
            ensure(read.place == 0 && is_zero(&pairs[2 * read.pairs..]), "memory past the last row")?;
            let mut out = vec![7; text.len()];
            let written = text::write_model(read.n, pairs, read.pairs, &mut out);
            ensure(written.answer == 0 && written.bytes == text.len() && out == *text, "written back otherwise")
        }
        (Input::WriteSchema { root, least, rows, row_count, .. }, Outcome::Written { written, out }) => {
            if written_consistent(*written, out)? {
                let mut back = vec![7; 4096];
                let read = text::read_schema(&out[..written.bytes], &mut back);
                let same = (read.answer, read.root, read.least, read.rows) == (0, *root, *least, *row_count)
                    && back[..4 * read.rows] == rows[..4 * row_count];
                ensure(same, "read back otherwise")?;
            }
            Ok(())
        }
        (Input::WriteProof { proof, .. }, Outcome::Written { written, out }) => {
            if written_consistent(*written, out)? {
                proof_read_back(proof, &out[..written.bytes])?;
            }
            Ok(())
        }
        (Input::WriteModel { n, pairs, pair_count, .. }, Outcome::Written { written, out }) => {
            if written_consistent(*written, out)? {
                let mut back = vec![7; 8192];
                let read = text::read_model(&out[..written.bytes], &mut back);
                let same = (read.answer, read.n, read.pairs) == (0, *n, *pair_count)
                    && back[..2 * read.pairs] == pairs[..2 * pair_count];
                ensure(same, "read back otherwise")?;
            }
            Ok(())
        }
        (Input::Line { named, schema, proof, number }, Outcome::Line { start, length }) => {
            let text = if *named == Named::Schema { schema } else { proof };
            let lines: Vec<&[u8]> = text.split(|byte| *byte == b'\n').collect();
            // The last piece has no byte 10 after it.
            if *number == 0 || *number >= lines.len() {
                return ensure((*start, *length) == (0, 0), "no such line");
            }
            let before: usize = lines[..number - 1].iter().map(|line| line.len() + 1).sum();
            ensure((*start, *length) == (before, lines[number - 1].len()), "another line")
        }
        (
            Input::Texts { schema, proof } | Input::TextsOlder { schema, proof },
            Outcome::Judgement { judgement, packed },
        ) => {
            judgement_consistent(*judgement, *packed, [schema, proof])?;
            // The same by its parts, with longer tables.
            let rows = run(&Input::ReadSchema { text: schema.clone(), length: 5000, fill: 1 });
            let tables = run(&Input::ReadProof { text: proof.clone(), lengths: [5000, 10_000, 9000], fill: -1 });
            let (Outcome::SchemaRead { read: s, rows }, Outcome::ProofRead { read: p, rows: proof, nodes, members }) =
                (rows, tables)
            else {
                return Err("read otherwise".to_string());
            };
            let expected = if s.answer != 0 {
                Verdict { answer: s.answer, place: s.place, nodes: 0, links: 0 }
            } else if p.answer != 0 {
                Verdict { answer: p.answer, place: p.place, nodes: 0, links: 0 }
            } else {
                let check = if matches!(input, Input::Texts { .. }) { tableau::check } else { tableau::check_older };
                check(&Record {
                    root: s.root,
                    least: s.least,
                    schema: &rows,
                    schema_count: s.rows,
                    proof: &proof,
                    proof_count: p.rows,
                    nodes: &nodes,
                    node_count: p.nodes,
                    members: &members,
                    member_count: p.members,
                })
            };
            ensure(judgement.verdict == expected, "another answer by its parts")
        }
        (Input::TextsModel { schema, model }, Outcome::Judgement { judgement, packed }) => {
            judgement_consistent(*judgement, *packed, [schema, model])
        }
        (
            Input::LineNumbers { schema_count, proof_count, row, node },
            Outcome::LineNumbers { row: row_line, node: node_line },
        ) => {
            let [s, p, r, j] = [*schema_count, *proof_count, *row, *node].map(|number| number as u128);
            let expected =
                if r < s { Some((Named::Schema, 4 + r)) } else { (r < s + p).then(|| (Named::Proof, 2 + r - s)) };
            let small = |number: u128| usize::try_from(number).ok();
            let expected = expected.and_then(|(named, line)| Some((named, small(line)?)));
            ensure((*row_line, *node_line) == (expected, small(3 + p + j)), "another line number")
        }
        (
            Input::Compare { rows, row_count, f, g, k },
            Outcome::Compared { well_formed, size, depth, lowered, instance, .. },
        ) => {
            let known = |at: usize| size[at].is_some_and(|s| s <= 4096) && depth[at].is_some_and(|d| d <= 64);
            if well_formed != &[true; 2] || !known(0) || !known(1) {
                return ensure(!lowered && !instance, "compared what is no formula");
            }
            let formulas = Formulas::new(rows, *row_count, &[], 0).ok_or("no rows")?;
            let plain = |row| render(&formulas, row, &|[kind, a, b, c]: [i64; 4]| Some([kind, a, b, c]));
            let by = i64::from(*k);
            let f_lowered = render(&formulas, *f, &|[kind, a, b, c]: [i64; 4]| {
                Some(match kind {
                    2 | 3 if b == 1 => [kind, a, b, c - by],
                    6 | 7 => [kind, a, b, c + by],
                    _ => [kind, a, b, c],
                })
            });
            ensure(*lowered == (f_lowered.is_some() && f_lowered == plain(*g)), "lowered otherwise")?;
            let f_instance = render(&formulas, *f, &|[kind, a, b, c]: [i64; 4]| match (kind, b) {
                (0 | 1, _) => Some([kind, a, b, c]),
                (2 | 3, 2) => Some([kind, a, 1, c - by]),
                _ => None,
            });
            ensure(*instance == (f_instance.is_some() && f_instance == plain(*g)), "another instance")?;
            // By trying both orders at each and and or.
            if *k == 0 && size.iter().all(|size| size.is_some_and(|size| size <= 40)) {
                let agree = agree_either_way(formulas.rows(), *f, *g);
                ensure(*lowered == agree && formulas.alike(*f, *g) == agree, "alike otherwise")?;
            }
            Ok(())
        }
        _ => Err("an answer of another sort".to_string()),
    }
}

/// A formula written out with the smaller side first, and each leaf changed; iterations are leaves, their
/// bodies written as they are.
fn render(formulas: &Formulas, row: i32, leaf: &dyn Fn([i64; 4]) -> Option<[i64; 4]>) -> Option<String> {
    let [kind, a, b, c] = formulas.row(row)?;
    Some(match kind {
        AND | OR => {
            let (a, b) = (render(formulas, a, leaf)?, render(formulas, b, leaf)?);
            format!("({} {kind} {})", a.clone().min(b.clone()), a.max(b))
        }
        TRUE | FALSE | LITERAL | NEGATED => format!("{:?}", leaf([kind, a, b, c].map(i64::from))?),
        _ => {
            let [kind, _, b, c] = leaf([kind, a, b, c].map(i64::from))?;
            format!("<{kind} {} {b} {c}>", render(formulas, a, &Some)?)
        }
    })
}

/// The value of a row without stopping early.
fn plain_value(formulas: &Formulas, row: i32, n: i64, i: i64, pairs: &std::collections::HashSet<(i32, i64)>) -> bool {
    let Some([kind, a, b, c]) = formulas.row(row) else { return false };
    let (b_wide, c_wide) = (i64::from(b), i64::from(c));
    match kind {
        TRUE => true,
        FALSE => false,
        LITERAL | NEGATED => {
            let index = c_wide
                + if b == ON_N {
                    n
                } else if b == ON_I {
                    i
                } else {
                    0
                };
            pairs.contains(&(a, index)) == (kind == LITERAL)
        }
        AND => plain_value(formulas, a, n, i, pairs) & plain_value(formulas, b, n, i, pairs),
        OR => plain_value(formulas, a, n, i, pairs) | plain_value(formulas, b, n, i, pairs),
        _ => {
            let mut index = b_wide;
            let (mut all, mut some) = (true, false);
            while index <= n - c_wide {
                let value = plain_value(formulas, a, n, index, pairs);
                all &= value;
                some |= value;
                index += 1;
            }
            if kind == BIG_AND {
                all
            } else {
                some
            }
        }
    }
}

/// The two checks agree, but for the first proof row that is written twice.
fn older_consistent(t: &Tables, present: Verdict, older: Verdict) -> Result<(), String> {
    if present.answer != 27 {
        ensure(present == older, "another answer of the older check")?;
        // All rows were judged, and none of the proof's is written twice.
        let judged = present.answer == 0 || present.answer >= 9;
        return ensure(!judged || t.first_repeat().is_none(), "a row written twice");
    }
    ensure(t.first_repeat() == usize::try_from(present.place).ok(), "another row written twice")?;
    let Verdict { answer, place, .. } = older;
    let later = match answer {
        7 | 8 => place > present.place,
        6 => place == -1 && (0..t.schema_count as i32).contains(&t.root) && (0..=9999).contains(&t.least),
        _ => answer == 0 || answer >= 9,
    };
    ensure(later, "27 before what comes first")
}

fn verdict_consistent(verdict: Verdict, number: i64) -> Result<(), String> {
    ensure(packed::unpack(number) == Some(verdict), "packed otherwise")?;
    let Verdict { answer, place, nodes, links } = verdict;
    if answer == 0 {
        return ensure(place == 0, "place of an acceptance");
    }
    ensure(nodes == 0 && links == 0, "counts of a refusal")?;
    let without_place = matches!(answer, 2 | 5 | 6 | 19 | 20) || (answer == 10 && place == -1);
    ensure(without_place == (place == -1), "place of a refusal")
}

/// What is said of two texts, and its number.
fn judgement_consistent(judgement: Judgement, number: i64, texts: [&[u8]; 2]) -> Result<(), String> {
    let Judgement { verdict, fault } = judgement;
    ensure(packed::unpack(number % (1 << 44)) == Some(verdict), "packed otherwise")?;
    let (pointed_to, second) = ((number >> 45) as usize, number >> 44 & 1 == 1);
    ensure((pointed_to, second) == (fault.line, fault.second), "the line packed otherwise")?;
    pointed(verdict.answer, verdict.place, texts, fault)
}

/// The line at fault, found by going through the lines from a text's last heading on.
fn pointed(answer: u8, place: i32, texts: [&[u8]; 2], fault: Fault) -> Result<(), String> {
    let lines = texts.map(|text| text.split(|byte| *byte == b'\n').collect::<Vec<_>>());
    let after = |second: usize, heading: &[u8], row: i32| {
        let before = lines[second].iter().rposition(|line| *line == heading)?;
        (row >= 0).then_some(Fault { second: second == 1, line: before + 2 + row as usize })
    };
    let rows = lines[0].len() as i32 - 1 - 3;
    let expected = match answer {
        1..=5 if place > 0 => return ensure(fault.line == place as usize, "another line than the one refused"),
        7 | 8 | 27 if place >= rows => after(1, b"kind a b c", place - rows),
        7 | 8 | 27 => after(0, b"kind a b c", place),
        9..=17 => after(1, b"up rule on with other to by set", place),
        18 => after(1, b"symbol index", place),
        _ => None,
    };
    ensure(fault.line == expected.map_or(0, |fault| fault.line), "another line at fault")?;
    ensure(expected.is_none_or(|expected| expected == fault), "the other text")
}

fn written_consistent(written: text::Written, out: &[u8]) -> Result<bool, String> {
    if written.answer != 0 {
        let right = matches!(written.answer, 2 | 5 | 21 | 22) && written.place == -1 && written.bytes == 0;
        ensure(right && is_zero(out), "memory or results after a refusal")?;
        return Ok(false);
    }
    ensure(written.place == 0 && is_zero(&out[written.bytes..]), "memory past the last byte")?;
    Ok(true)
}

fn proof_read_back(t: &Tables, text: &[u8]) -> Result<(), String> {
    let (mut rows, mut nodes, mut members) = (vec![7; 4096], vec![7; 9216], vec![7; 8192]);
    let read = text::read_proof(text, &mut rows, &mut nodes, &mut members);
    let same = (read.answer, read.rows, read.nodes, read.members) == (0, t.proof_count, t.node_count, t.member_count)
        && rows[..4 * read.rows] == t.proof[..4 * t.proof_count]
        && nodes[..9 * read.nodes] == t.nodes[..9 * t.node_count]
        && members[..read.members] == t.members[..t.member_count];
    ensure(same, "a proof read back otherwise")
}

/// What can be written of a case is read back the same.
fn write_and_read(t: &Tables) -> Result<(), String> {
    let mut out = vec![7; 65_536];
    let written = text::write_schema(t.root, t.least, &t.schema, t.schema_count, &mut out);
    if written_consistent(written, &out)? {
        let mut rows = vec![7; 4096];
        let read = text::read_schema(&out[..written.bytes], &mut rows);
        let same = (read.answer, read.root, read.least, read.rows) == (0, t.root, t.least, t.schema_count)
            && rows[..4 * read.rows] == t.schema[..4 * t.schema_count];
        ensure(same, "a schema read back otherwise")?;
    }
    out.fill(7);
    let written =
        text::write_proof(&t.proof, t.proof_count, &t.nodes, t.node_count, &t.members, t.member_count, &mut out);
    if written_consistent(written, &out)? {
        proof_read_back(t, &out[..written.bytes])?;
    }
    Ok(())
}

/// An accepted tableau: its counts, and a root without models.
fn accepted_consistent(t: &Tables, verdict: Verdict, rng: &mut Rng) -> Result<(), String> {
    let links = t.nodes[..9 * t.node_count].chunks_exact(9).filter(|node| node[1] == 8).count();
    ensure((verdict.nodes, verdict.links) == (t.node_count, links), "counts of an acceptance")?;
    let formulas = Formulas::new(&t.schema, t.schema_count, &[], 0).ok_or("no rows")?;
    for n in t.least..=t.least + 6 {
        for percent in [10, 50, 90] {
            let assignment = random_assignment(rng.bits(), percent);
            if model::value(&formulas, t.root, i64::from(n), &assignment) {
                return Err(format!("the root is true at n = {n} under a random assignment"));
            }
        }
        if let Some(fixed) = find_model(&formulas, t.root, n, rng, 2, 3000) {
            return Err(format!("the root is true at n = {n}: {fixed:?}"));
        }
        let pairs = random_pairs(rng);
        let answer = model::check_model(t.root, t.least, &t.schema, t.schema_count, n, &pairs, pairs.len() / 2).answer;
        ensure(answer == if n <= 9999 { 20 } else { 19 }, "a model of an accepted schema")?;
        let half = random_assignment(rng.bits(), 50);
        let all = (0..4).flat_map(|symbol| (-5..n as i64 % 100 + 12).map(move |index| (symbol, index)));
        let fixed = all.map(|pair| (pair, half(pair.0, pair.1))).collect();
        let pairs = pair_rows(&fixed);
        let answer = model::check_model(t.root, t.least, &t.schema, t.schema_count, n, &pairs, pairs.len() / 2).answer;
        ensure(answer != 0, "a model of an accepted schema")?;
    }
    Ok(())
}
