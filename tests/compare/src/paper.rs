//! The paper's record, its neighbours and its models, with the answers that the paper gives.

use crate::tally::Tally;
use zorambi::entries::{check_model_texts, check_older_texts, check_texts};
use zorambi_generate::Input;
use zorambi_reference::text::Named;

pub const SCHEMA: &str = "root least\n4 1\nkind a b c\n2 0 2 0\n3 0 2 0\n7 0 2 0\n6 1 2 0\n4 2 3 0\n";
pub const PROOF: &str = "kind a b c\n7 0 2 1\n2 0 1 0\n6 1 2 1\n3 0 1 0\nup rule on with other to by set\n\
-1 0 4 -1 -1 -1 0 4\n0 2 -1 -1 -1 -1 0 2 3\n1 7 2 -1 -1 -1 0 2 3\n1 3 3 7 8 -1 0 2 3\n\
3 4 2 5 6 -1 0 2 7 8\n4 8 -1 -1 -1 1 1 5 7\n4 6 6 8 -1 -1 0 6 8\n";
pub const MODEL: &str = "n\n3\nsymbol index\n0 1\n";

fn changed(text: &str, from: &str, to: &str) -> String {
    assert_eq!(text.matches(from).count(), 1, "{from:?} does not stand once in the text");
    text.replace(from, to)
}

/// answer place nodes links, as the check programs print them.
pub fn printed(packed: u64) -> String {
    let place = (packed >> 26 & 8191) as i64 - 1;
    format!("{} {place} {} {}", packed >> 39 & 31, packed >> 13 & 8191, packed & 8191)
}

pub fn equal(found: &str, expected: &str) -> Result<(), String> {
    if found == expected {
        Ok(())
    } else {
        Err(format!("{found:?}, expected {expected:?}"))
    }
}

pub fn test(tally: &mut Tally) {
    let schema = |from: &str, to: &str| changed(SCHEMA, from, to);
    let proof = |from: &str, to: &str| changed(PROOF, from, to);
    let record = [
        ("the record", SCHEMA.into(), PROOF.into(), "0 0 7 1"),
        ("least 0", schema("4 1\n", "4 0\n"), PROOF.into(), "14 3 0 0"),
        ("least 2", schema("4 1\n", "4 2\n"), PROOF.into(), "14 2 0 0"),
        ("node 5 by 2", SCHEMA.into(), proof("-1 1 1 5 7\n", "-1 1 2 5 7\n"), "14 5 0 0"),
        ("node 5's set 5", SCHEMA.into(), proof("1 1 5 7\n", "1 1 5\n"), "16 5 0 0"),
        ("node 6 on 8 with 6", SCHEMA.into(), proof("4 6 6 8 ", "4 6 8 6 "), "12 6 0 0"),
        ("node 4's other 8", SCHEMA.into(), proof("3 4 2 5 6 ", "3 4 2 5 8 "), "15 4 0 0"),
        ("last row gone", SCHEMA.into(), proof("4 6 6 8 -1 -1 0 6 8\n", ""), "17 4 0 0"),
        ("node 6's set 6 7 8", SCHEMA.into(), proof("0 6 8\n", "0 6 7 8\n"), "0 0 7 1"),
        ("node 6's set 5 6 8", SCHEMA.into(), proof("0 6 8\n", "0 5 6 8\n"), "11 6 0 0"),
        // A file that cannot be opened counts as empty, and the schema's text is refused first.
        ("no files", String::new(), String::new(), "3 1 0 0"),
        ("no proof file", SCHEMA.into(), String::new(), "3 1 0 0"),
        // Document 02, No. 5: what node 1's split names as K.
        ("node 1 by 1", SCHEMA.into(), proof("0 2 -1 -1 -1 -1 0 ", "0 2 -1 -1 -1 -1 1 "), "0 0 7 1"),
        ("node 1 by 2", SCHEMA.into(), proof("0 2 -1 -1 -1 -1 0 ", "0 2 -1 -1 -1 -1 2 "), "14 2 0 0"),
        ("node 1 by 9998", SCHEMA.into(), proof("0 2 -1 -1 -1 -1 0 ", "0 2 -1 -1 -1 -1 9998 "), "14 2 0 0"),
        ("node 1 by 9999", SCHEMA.into(), proof("0 2 -1 -1 -1 -1 0 ", "0 2 -1 -1 -1 -1 9999 "), "14 1 0 0"),
        ("node 1 by -1", SCHEMA.into(), proof("0 2 -1 -1 -1 -1 0 ", "0 2 -1 -1 -1 -1 -1 "), "12 1 0 0"),
        ("node 1 to 0", SCHEMA.into(), proof("0 2 -1 -1 -1 -1 0 ", "0 2 -1 -1 -1 0 0 "), "12 1 0 0"),
        ("node 2 by 1", SCHEMA.into(), proof("1 7 2 -1 -1 -1 0 ", "1 7 2 -1 -1 -1 1 "), "12 2 0 0"),
        // Document 02, No. 6: node 5's link to any node. Node 0 has another set, node 2 knows n = 1, node 4 n ≥ 2.
        ("node 5 to 0", SCHEMA.into(), proof("-1 1 1 5 7\n", "-1 0 1 5 7\n"), "16 5 0 0"),
        ("node 5 to 2", SCHEMA.into(), proof("-1 1 1 5 7\n", "-1 2 1 5 7\n"), "14 5 0 0"),
        ("node 5 to 4", SCHEMA.into(), proof("-1 1 1 5 7\n", "-1 4 1 5 7\n"), "14 5 0 0"),
        ("node 5 to 5", SCHEMA.into(), proof("-1 1 1 5 7\n", "-1 5 1 5 7\n"), "13 5 0 0"),
        ("node 5 to 6", SCHEMA.into(), proof("-1 1 1 5 7\n", "-1 6 1 5 7\n"), "13 5 0 0"),
        ("node 5 to 7", SCHEMA.into(), proof("-1 1 1 5 7\n", "-1 7 1 5 7\n"), "13 5 0 0"),
        ("node 5 to -1", SCHEMA.into(), proof("-1 1 1 5 7\n", "-1 -1 1 5 7\n"), "13 5 0 0"),
        // Plausible, and false.
        ("a link by 0", SCHEMA.into(), proof("-1 1 1 5 7\n", "-1 1 0 5 7\n"), "12 5 0 0"),
    ];
    for (name, schema, proof, expected) in record {
        let found = printed(check_texts(schema.as_bytes(), proof.as_bytes()));
        tally.test(name, equal(&found, expected));
        tally.compare(name, &Input::Texts { schema: schema.into_bytes(), proof: proof.into_bytes() });
    }

    rows_again(tally);

    let root_3 = schema("4 1\n", "3 1\n");
    let models = [
        ("no pair, n = 1", SCHEMA, "n\n1\nsymbol index\n", "20 -1 0 0"),
        ("root 3, no pair, n = 1", &root_3, "n\n1\nsymbol index\n", "0 0 0 0"),
        ("root 3, no pair, n = 0", &root_3, "n\n0\nsymbol index\n", "19 -1 0 0"),
        ("root 3, n = 3, pair 0 1", &root_3, "n\n3\nsymbol index\n0 1\n", "0 0 0 0"),
        ("root 3, n = 3, pair 0 3", &root_3, "n\n3\nsymbol index\n0 3\n", "20 -1 0 0"),
    ];
    for (name, schema, model, expected) in models {
        let found = printed(check_model_texts(schema.as_bytes(), model.as_bytes()));
        tally.test(name, equal(&found, expected));
        tally.compare(name, &Input::TextsModel { schema: schema.into(), model: model.into() });
    }

    for (named, text) in [(Named::Schema, SCHEMA), (Named::Proof, PROOF)] {
        for number in (0..=text.lines().count() + 2).chain([usize::MAX]) {
            let (schema, proof) = (SCHEMA.into(), PROOF.into());
            tally.compare(&format!("line {number}"), &Input::Line { named, schema, proof, number });
        }
    }
}

/// Document 02, No. 9: further rows at the end of the proof's, from row 9 on, which is line 6 of the proof. Verdict and
/// line at fault of the check, and of the older check.
fn rows_again(tally: &mut Tally) {
    const ACCEPTED: (&str, u64) = ("0 0 7 1", 0);
    let again = ("27 9 0 0", 6);
    let rows = [
        ("schema row 0 again", "4 1\n", "2 0 2 0\n", again, ACCEPTED),
        ("schema row 4 again", "4 1\n", "4 2 3 0\n", again, ACCEPTED),
        ("proof row 5 again", "4 1\n", "7 0 2 1\n", again, ACCEPTED),
        ("proof row 8 again", "4 1\n", "3 0 1 0\n", again, ACCEPTED),
        ("proof row 8, another kind", "4 1\n", "2 0 1 1\n", ACCEPTED, ACCEPTED),
        ("proof row 8, another a", "4 1\n", "3 1 1 0\n", ACCEPTED, ACCEPTED),
        ("proof row 8, another b", "4 1\n", "3 0 0 0\n", ACCEPTED, ACCEPTED),
        ("proof row 8, another c", "4 1\n", "3 0 1 1\n", ACCEPTED, ACCEPTED),
        ("schema row 4, sides swapped", "4 1\n", "4 3 2 0\n", ACCEPTED, ACCEPTED),
        ("a new row twice", "4 1\n", "0 0 0 0\n1 0 0 0\n0 0 0 0\n", ("27 11 0 0", 8), ACCEPTED),
        ("a row again, then an ill-formed one", "4 1\n", "2 0 1 0\n8 0 0 0\n", again, ("7 10 0 0", 7)),
        ("an ill-formed row, then one again", "4 1\n", "8 0 0 0\n2 0 1 0\n", ("7 9 0 0", 6), ("7 9 0 0", 6)),
        ("a row again, root not outer", "0 1\n", "2 0 1 0\n", again, ("6 -1 0 0", 0)),
        ("a row again, root no schema row", "5 1\n", "2 0 1 0\n", ("6 -1 0 0", 0), ("6 -1 0 0", 0)),
        ("a row again, least -1", "4 -1\n", "2 0 1 0\n", ("6 -1 0 0", 0), ("6 -1 0 0", 0)),
    ];
    for (name, root, rows, present, older) in rows {
        let schema = changed(SCHEMA, "4 1\n", root).into_bytes();
        let proof = changed(PROOF, "3 0 1 0\n", &["3 0 1 0\n", rows].concat()).into_bytes();
        let said = [check_texts(&schema, &proof), check_older_texts(&schema, &proof)];
        tally.test(name, equal(&printed(said[0]), present.0));
        tally.test(&format!("{name}, older"), equal(&printed(said[1]), older.0));
        // The proof's line, or none.
        let faults = [present.1, older.1].map(|line| if line > 0 { 2 * line + 1 } else { 0 });
        let found = said.map(|packed| packed >> 44);
        tally.test(&format!("{name}, lines"), equal(&format!("{found:?}"), &format!("{faults:?}")));
        tally.compare(name, &Input::Texts { schema, proof });
    }
    // Schema rows may be written twice.
    let proof = b"kind a b c\nup rule on with other to by set\n-1 5 0 -1 -1 -1 0 0\n";
    let schema = b"root least\n0 0\nkind a b c\n1 0 0 0\n0 0 0 0\n1 0 0 0\n1 0 0 0\n";
    tally.test("schema rows twice", equal(&printed(check_texts(schema, proof)), "0 0 1 0"));
    tally.test("schema rows twice, older", equal(&printed(check_older_texts(schema, proof)), "0 0 1 0"));
}
