//! The sentences of the shipped records, word for word as they were asked for, but that formulas are in the notation of `show`.

use std::fs;
use std::path::Path;
use zorambi::{check_texts, read_proof, read_schema, Record, Refused, Verdict};
use zorambi_explain::{check, Tables, Voice};

/// The sentence of a shipped record, with its number.
fn sentence(name: &str) -> String {
    let folder = Path::new(env!("CARGO_MANIFEST_DIR")).join("../../records/refused").join(name);
    let text = |file: &str| fs::read(folder.join(file)).unwrap();
    let (schema, proof) = (text("schema.txt"), text("proof.txt"));
    let Verdict::Refused { refusal, place } = check_texts(&schema, &proof).verdict else {
        panic!("{name} is accepted")
    };
    let record = Record { schema: read_schema(&schema).unwrap(), proof: read_proof(&proof).unwrap() };
    let why = check(&Tables::from(&record), Refused { refusal, place }, &Voice::default());
    assert!(why.found && !why.mend.is_empty());
    println!("{name}\n  {}: {}", refusal.number(), why.line);
    why.context.iter().for_each(|line| println!("    {line}"));
    println!("    to mend: {}", why.mend);
    format!("{}: {}", refusal.number(), why.line)
}

#[test]
fn of_the_shipped_records() {
    for (record, words) in [
        ("instance_regrouped", "15: node 4: other, row 16 (p0[n] and p1[n] and p2[n]), is not the body of row 5 (row 4) with n for i"),
        ("link_above_upper_bound", "14: node 12 knows 2 <= n <= 4, so n - 2 may be over 1; its target, node 5, knows 0 <= n <= 1"),
        ("link_below_other_branch", "14: node 11 knows n >= 1, so n - 1 may be 0; its target, node 4, knows n >= 1"),
        ("link_bound_of_leaf", "14: node 3 knows n >= 1, so n - 1 may be 0; its target, node 1, knows n >= 1"),
        ("link_by_zero", "12: node 2: by is 0; a loop lowers n by at least 1"),
        (
            "link_lost_row_cmp_transitive",
            "16: node 61 links to node 8, whose row 72 (p3[n]), with n-1 for n, has no equal in the set of node 61",
        ),
        (
            "link_lost_row_other_branch",
            "16: node 12 links to node 4, whose row 4 (all i from 0 to n-1: not p0[i] or p0[i+1]), with n-1 for n, has no equal in the set of node 12",
        ),
        ("link_open_to_bounded", "14: node 9 knows n >= 2, so n - 2 may be over 1; its target, node 4, knows 0 <= n <= 1"),
        ("link_to_later_node", "13: node 7: to is 8; a link goes to a node from 0 to 6"),
        ("open_clash", "14: node 3 knows n >= 4: row 0 (p0[n+2]) and row 1 (not p0[5]) need not have the same index there"),
        ("row_written_twice", "27: row 130 is row 129 (proof.txt:83) again"),
        ("size_4097", "8: row 12 has size 4097, 4,096 allowed"),
        ("split_at_upper_bound", "14: node 9 knows 0 <= n <= 8: its split needs K from 0 to 7, by gives 8"),
        ("split_negative_by", "12: node 7: a split's by (its K) is -8; it is 0 or more"),
        (
            "unfold_empty_open",
            "14: node 0 knows n >= 1, but row 1 (all i from 2 to n: false) runs from 2 to n and may be empty below n = 2; split first",
        ),
        ("void_above_least", "14: node 3 knows 0 <= n <= 8, but row 1 (some i from 5 to n: p0[i]) is empty only up to n = 4"),
    ] {
        assert_eq!(sentence(record), words);
    }
}
