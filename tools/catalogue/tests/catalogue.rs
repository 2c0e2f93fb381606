//! The command on the shipped records and on folders made for the purpose.

mod common;

use common::*;
use std::fs;
use std::os::unix::fs::symlink;
use std::path::Path;

/// What is there by the number of its refusal has no `expected`.
const BY_NUMBER: &str = "by_number";

/// The folders of the shipped records that have one.
fn sorts() -> Vec<String> {
    let entries = fs::read_dir(shipped()).unwrap().map(|entry| entry.unwrap());
    let folders = entries.filter(|entry| entry.file_type().unwrap().is_dir());
    folders.map(|entry| entry.file_name().into_string().unwrap()).filter(|name| name != BY_NUMBER).collect()
}

#[test]
fn shipped_records() {
    let output = catalogue(&shipped(), &[]);
    assert_eq!((status(&output), &errors(&output)[..]), (1, ""));
    let (mut accepted, mut refused) = (0, 0);
    for sort in sorts() {
        for entry in fs::read_dir(shipped().join(&sort)).unwrap() {
            let record = entry.unwrap().path();
            let expected = fs::read_to_string(record.join("expected")).unwrap();
            let numbers: Vec<&str> = expected.split_whitespace().collect();
            let mut said = said(&output, &record);
            if record.join("older").is_file() {
                said = said.strip_prefix("older, ").unwrap().to_string();
            }
            if numbers[0] == "0" {
                let words = format!("accepted: {} nodes, {} link", numbers[2], numbers[3]);
                assert!(said.starts_with(&words), "{said}");
                accepted += 1;
            } else {
                assert!(said.starts_with("refused: "), "{said}");
                assert!(said.contains(&format!(" ({}) at ", numbers[0])), "{said}");
                assert!(said.contains(&format!(" {}: ", numbers[1])), "{said}");
                refused += 1;
            }
        }
    }
    let lines = lines(&output);
    for line in lines.iter().filter(|line| line.contains(&format!("/{BY_NUMBER}/"))) {
        accepted += usize::from(line.contains(": accepted: "));
        refused += usize::from(line.contains(": refused: "));
    }
    let totals = format!("{} records: {accepted} accepted, {refused} refused", accepted + refused);
    assert!(lines.last().unwrap().starts_with(&totals), "{totals}");
    let of_records = &lines[..accepted + refused];
    assert!(of_records.is_sorted() && of_records.iter().all(|line| line.contains(": ")));

    for sort in sorts().into_iter().filter(|sort| sort != "refused") {
        let output = catalogue(&shipped().join(&sort), &[]);
        assert_eq!(status(&output), 0);
        assert_eq!(common::lines(&output).len(), fs::read_dir(shipped().join(sort)).unwrap().count() + 1);
    }
}

#[test]
fn the_line_of_a_refusal() {
    let folder = scratch("line");
    put(&folder.join("right"), SCHEMA, PROOF);
    put(&folder.join("bound"), SCHEMA, by_two());
    put(&folder.join("schema row"), SCHEMA.replace("6 1 2 0", "6 9 2 0"), PROOF);
    put(&folder.join("proof row"), SCHEMA, PROOF.replace("6 1 2 1", "6 1 2 -10000"));
    put(&folder.join("schema line"), SCHEMA.replace("7 0 2 0", "7 0 2 \x1b[0m\x7f"), PROOF);
    put(&folder.join("proof line"), SCHEMA, PROOF.replace("1 7 2", "007 7 2"));
    put(&folder.join("root"), SCHEMA.replace("4 1\n", "0 1\n"), PROOF);
    put(&folder.join("long line"), SCHEMA, PROOF.replace("3 0 1 0", &"3".repeat(65_000)));
    put(&folder.join("longest line"), SCHEMA, PROOF.replace("3 0 1 0", &"3".repeat(100)));
    put(&folder.join("longer line"), SCHEMA, PROOF.replace("3 0 1 0", &"3".repeat(101)));
    let output = catalogue(&folder, &[]);
    assert_eq!(status(&output), 1);
    let said = |name: &str| said(&output, &folder.join(name));
    assert_eq!(said("right"), ACCEPTED);
    assert_eq!(said("bound"), BOUND);
    assert_eq!(said("schema row"), "refused: an ill-formed formula (7) at row 3: schema.txt:7: 6 9 2 0; \
                                   row 3 (6 9 2 0): a is 9; a body is a row before it, and the rows before row 3 are 0 to 2");
    let row = "refused: an ill-formed formula (7) at row 7: proof.txt:4: 6 1 2 -10000; \
               row 7 (6 1 2 -10000): c is -10000; the c of its limit n - c is -9999 to 9999";
    assert_eq!(said("proof row"), row);
    let form = "refused: a line's form (4) at line";
    assert_eq!(
        said("schema line"),
        format!("{form} 6: schema.txt:6: 7 0 2 \\x1b[0m\\x7f; line 6, column 7: byte 27 where a number has to stand")
    );
    assert_eq!(
        said("proof line"),
        format!("{form} 9: proof.txt:9: 007 7 2 -1 -1 -1 0 2 3; line 9, column 1: '007' has a leading zero")
    );
    let root = "the root, row 0 (p0[i]), is not outer: it stands on i, and no iteration around it says what i is";
    assert_eq!(said("root"), format!("refused: the root or the least value (6); {root}"));
    let digits = |count: usize| {
        let start = "3".repeat(40);
        format!("; line 5, column 1: '{start}...' has {count} digits; a number has at most 5")
    };
    assert_eq!(said("long line"), format!("{form} 5: proof.txt:5: {}...{}", "3".repeat(100), digits(65_000)));
    assert_eq!(said("longest line"), format!("{form} 5: proof.txt:5: {}{}", "3".repeat(100), digits(100)));
    assert_eq!(said("longer line"), format!("{form} 5: proof.txt:5: {}...{}", "3".repeat(100), digits(101)));
    let summary = [
        "        5 refused: a line's form (4)",
        "        2 refused: an ill-formed formula (7)",
        "        1 refused: the root or the least value (6)",
        "        1 refused: a bound (14)",
        "10 records: 1 accepted, 9 refused",
    ];
    assert_eq!(lines(&output)[10..], summary);

    let failed = catalogue(&folder, &["--failed"]);
    assert_eq!(status(&failed), 1);
    let without_right: Vec<String> = lines(&output).into_iter().filter(|line| !line.contains("/right: ")).collect();
    assert_eq!(lines(&failed), without_right);
    let quiet = catalogue(&folder, &["--quiet"]);
    assert_eq!((status(&quiet), quiet.stdout.len(), quiet.stderr.len()), (1, 0, 0));
    for jobs in ["1", "2", "7"] {
        assert_eq!(catalogue(&folder, &["--jobs", jobs]).stdout, output.stdout);
    }
}

#[test]
fn texts_that_cannot_be_read() {
    let folder = scratch("unread");
    put(&folder.join("long schema"), vec![b'\n'; 65_537], PROOF);
    put(&folder.join("long proof"), SCHEMA, vec![b'\n'; 1_000_000]);
    put(&folder.join("empty schema"), "", PROOF);
    put(&folder.join("both empty"), "", "");
    put(&folder.join("no proof"), SCHEMA, "");
    fs::remove_file(folder.join("no proof/proof.txt")).unwrap();
    let output = catalogue(&folder, &[]);
    assert_eq!(status(&output), 1);
    let said = |name: &str| said(&output, &folder.join(name));
    assert_eq!(said("long schema"), "refused: schema.txt has over 65,536 bytes (1)");
    assert_eq!(said("long proof"), "refused: proof.txt has over 65,536 bytes (1)");
    let heading = "refused: a heading (3) at line 1";
    assert_eq!(
        said("empty schema"),
        format!("{heading}: schema.txt:1; schema.txt is empty; its first line is the heading 'root least'")
    );
    assert_eq!(said("both empty"), said("empty schema"));
    assert_eq!(said("no proof"), "refused: proof.txt is missing (3)");
}

#[test]
fn which_folders_are_records() {
    let folder = scratch("folders");
    put(&folder, SCHEMA, PROOF);
    put(&folder.join("deep/deeper/deepest"), SCHEMA, PROOF);
    put(&folder.join("deep/deeper"), SCHEMA, PROOF);
    put(&folder.join("deep-end"), SCHEMA, PROOF);
    fs::create_dir_all(folder.join("empty")).unwrap();
    fs::create_dir_all(folder.join("notes only")).unwrap();
    fs::write(folder.join("notes only/notes.txt"), SCHEMA).unwrap();
    let output = catalogue(&folder, &[]);
    assert_eq!(status(&output), 0);
    let expected: Vec<String> = ["", "/deep/deeper", "/deep/deeper/deepest", "/deep-end"]
        .iter()
        .map(|below| format!("{}{below}: {ACCEPTED}", folder.display()))
        .chain(["4 records: 4 accepted, 0 refused".to_string()])
        .collect();
    assert_eq!(lines(&output), expected);
    // A folder that stands for a text is looked into all the same.
    put(&folder.join("empty/schema.txt"), SCHEMA, PROOF);
    let output = catalogue(&folder.join("empty"), &[]);
    assert_eq!(status(&output), 1);
    assert_eq!(said(&output, &folder.join("empty/schema.txt")), ACCEPTED);
    assert_eq!(said(&output, &folder.join("empty")), "refused: schema.txt is a folder, not a regular file (3)");
}

#[test]
fn one_of_two_texts() {
    let folder = scratch("one");
    put(&folder.join("both"), SCHEMA, PROOF);
    put(&folder.join("schema only"), SCHEMA, PROOF);
    fs::remove_file(folder.join("schema only/proof.txt")).unwrap();
    put(&folder.join("proof only"), SCHEMA, PROOF);
    fs::remove_file(folder.join("proof only/schema.txt")).unwrap();
    let output = catalogue(&folder, &[]);
    assert_eq!(status(&output), 1);
    let path = |name: &str| folder.join(name).display().to_string();
    let expected = [
        format!("{}: {ACCEPTED}", path("both")),
        format!("{}: refused: schema.txt is missing (3)", path("proof only")),
        format!("{}: refused: proof.txt is missing (3)", path("schema only")),
        "        2 refused: a heading (3)".to_string(),
        "3 records: 1 accepted, 2 refused".to_string(),
    ];
    assert_eq!(lines(&output), expected);
}

/// Marks a record as older.
fn mark(folder: &Path) {
    fs::write(folder.join("older"), "").unwrap();
}

#[test]
fn older_records() {
    let records = scratch("older records");
    let twice = PROOF.replace("3 0 1 0\n", "3 0 1 0\n3 0 1 0\n");
    for name in ["present", "older"] {
        put(&records.join(name).join("once"), SCHEMA, PROOF);
        put(&records.join(name).join("twice"), SCHEMA, &twice);
        put(&records.join(name).join("bound"), SCHEMA, twice.replace("-1 1 1 5 7\n", "-1 1 2 5 7\n"));
        put(&records.join(name).join("row"), SCHEMA, twice.replace("6 1 2 1", "6 1 2 -10000"));
        put(&records.join(name).join("line"), SCHEMA, twice.replace("6 1 2 1", "6 1 2 x"));
    }
    for name in ["once", "twice", "bound", "row", "line"] {
        mark(&records.join("older").join(name));
    }
    // The folder of the older ones is no mark, nor is a folder in a record.
    fs::create_dir(records.join("present/twice/older")).unwrap();
    let output = catalogue(&records, &[]);
    assert_eq!(status(&output), 1);

    let repeated =
        "refused: a proof row written twice (27) at row 9: proof.txt:6: 3 0 1 0; row 9 is row 8 (proof.txt:5) again";
    let bound = &BOUND.replace(":12:", ":13:");
    let row = "refused: an ill-formed formula (7) at row 7: proof.txt:4: 6 1 2 -10000; \
               row 7 (6 1 2 -10000): c is -10000; the c of its limit n - c is -9999 to 9999";
    let line =
        "refused: a line's form (4) at line 4: proof.txt:4: 6 1 2 x; line 4, column 7: 'x' where a number has to stand";
    let tidies = &format!("{ACCEPTED}; tidying would make it present");
    let said = |name: &str| said(&output, &records.join(name));
    for (name, present, older) in [
        ("once", ACCEPTED, ACCEPTED),
        ("twice", repeated, tidies),
        ("bound", repeated, bound),
        ("row", row, row),
        ("line", line, line),
    ] {
        assert_eq!(said(&format!("present/{name}")), present);
        assert_eq!(said(&format!("older/{name}")), format!("older, {older}"));
    }
    let totals = "10 records: 3 accepted, 7 refused; of these, 5 older: 2 accepted, 3 refused";
    assert_eq!(lines(&output).last().unwrap(), totals);
    // The same counts, as numbers, and the four numbers of a record.
    let json = scratch("older table").join("t.json");
    catalogue(&records, &["--json", json.to_str().unwrap()]);
    let program = "import json, sys\n\
                   *records, end = map(json.loads, open(sys.argv[1]))\n\
                   print([end[key] for key in ('records', 'accepted', 'refused', 'older_accepted', 'older_refused',\n\
                   \x20   'not_listed', 'not_followed', 'listed_elsewhere')])\n\
                   print([records[1][key] for key in ('record', 'answer', 'place', 'nodes', 'links', 'check')])\n";
    let counts = "[10, 3, 7, 2, 3, 0, 0, 0]\n['older/line', 4, 4, 0, 0, 'older']\n";
    assert_eq!(python(program, &[&json]), counts);
    let accepted = program.replace("records[1]", "records[2]");
    assert!(python(&accepted, &[&json]).ends_with("\n['older/once', 0, 0, 7, 1, 'older']\n"));
}

#[test]
fn which_records_are_older() {
    let folder = scratch("marks");
    let twice = PROOF.replace("3 0 1 0\n", "3 0 1 0\n3 0 1 0\n");
    for name in ["empty", "words", "link", "Older", "older.txt", "lost link", "below"] {
        put(&folder.join(name), SCHEMA, &twice);
    }
    mark(&folder.join("empty"));
    fs::write(folder.join("words/older"), "from an old prover\n").unwrap();
    symlink("schema.txt", folder.join("link/older")).unwrap();
    fs::write(folder.join("Older/Older"), "").unwrap();
    fs::write(folder.join("older.txt/older.txt"), "").unwrap();
    symlink("nowhere", folder.join("lost link/older")).unwrap();
    // A folder `older` is looked into like any other.
    put(&folder.join("below/older"), SCHEMA, PROOF);
    let output = catalogue(&folder, &[]);
    assert_eq!(status(&output), 1);
    let said = |name: &str| said(&output, &folder.join(name));
    for name in ["empty", "words", "link"] {
        assert_eq!(said(name), format!("older, {ACCEPTED}; tidying would make it present"), "{name}");
    }
    for name in ["Older", "older.txt", "lost link", "below"] {
        assert!(said(name).starts_with("refused: a proof row written twice (27) at row 9"), "{name}");
    }
    assert_eq!(said("below/older"), ACCEPTED);
    let totals = "8 records: 4 accepted, 4 refused; of these, 3 older: 3 accepted, 0 refused";
    assert_eq!(lines(&output).last().unwrap(), totals);

    let output = catalogue(&folder.join("empty"), &[]);
    assert_eq!(status(&output), 0);
    let totals = "1 record: 1 accepted, 0 refused; of these, 1 older: 1 accepted, 0 refused";
    assert_eq!(lines(&output).last().unwrap(), totals);
}

#[test]
fn many_records_in_their_order() {
    let folder = scratch("many");
    for number in 0..300 {
        let proof = if number % 3 == 0 { PROOF.replace("0 6 8\n", "0 5 6 8\n") } else { PROOF.to_string() };
        put(&folder.join(format!("{number:03}")), SCHEMA, proof);
    }
    let output = catalogue(&folder, &["--jobs", "4"]);
    assert_eq!(status(&output), 1);
    let lines = lines(&output);
    assert_eq!(lines.len(), 302);
    for (number, line) in lines[..300].iter().enumerate() {
        let words =
            if number % 3 == 0 { "refused: a formula that the parent does not give (11) at node 6" } else { ACCEPTED };
        assert!(line.starts_with(&format!("{}/{number:03}: {words}", folder.display())), "{line}");
    }
    assert_eq!(lines[300], "      100 refused: a formula that the parent does not give (11)");
    assert_eq!(lines[301], "300 records: 200 accepted, 100 refused");
}

#[test]
fn wrong_use() {
    let folder = scratch("wrong");
    put(&folder.join("record"), SCHEMA, PROOF);
    fs::create_dir(folder.join("empty")).unwrap();
    let record = folder.join("record");
    let path = |name: &str| folder.join(name).display().to_string();
    let record = record.to_str().unwrap();
    for (words, why) in [
        (&[][..], "DIR is missing"),
        (&[record, "--csv"], "--csv wants a FILE"),
        (&[record, record], "one word too many: "),
        (&[record, "--other"], "no option '--other'"),
        (&[record, "--csv", "a", "--csv", "b"], "--csv is given twice"),
        (&[&path("nowhere")], "no such folder: "),
        (&[&path("record/schema.txt")], "is no folder"),
        (&[&path("empty")], "no record folder in "),
        (&[record, "--csv", &path("nowhere/table.csv")], "nowhere/table.csv cannot be written: No such file"),
        (&[record, "--csv", &path("empty")], "empty is no regular file: it is not written over"),
        (&[record, "--csv", ".."], "is no regular file"),
        (&[record, "--csv", &path("t"), "--json", &path("t")], "--csv and --json name the same file"),
        (&[record, "--jobs", "0"], "--jobs wants a number from 1 on, not '0'"),
        (&[record, "--jobs", "two"], "--jobs wants a number from 1 on, not 'two'"),
        (&[record, "--shard", "0/4"], "--shard wants K/N with K from 1 to N, not '0/4'"),
        (&[record, "--shard", "5/4"], "--shard wants K/N with K from 1 to N, not '5/4'"),
        (&[record, "--shard", "1"], "--shard wants K/N with K from 1 to N, not '1'"),
        (&[record, "--shard", "1/+4"], "--shard wants K/N with K from 1 to N, not '1/+4'"),
        (&[record, "--since", &path("nowhere")], "nowhere cannot be read: No such file"),
        (&[record, "--since", &path("record/schema.txt")], "record/schema.txt is no table of a catalogue (CSV)"),
    ] {
        let output = command(&["catalogue"]).args(words).output().unwrap();
        assert_eq!(status(&output), 2, "{words:?}");
        assert!(output.stdout.is_empty(), "{words:?}");
        let said = errors(&output);
        let lines: Vec<&str> = said.lines().collect();
        assert!(lines[0].starts_with("zorambi catalogue: ") && lines[0].contains(why), "{words:?}: {said}");
        // Words that the table of commands knows to be wrong are told with the use.
        let by_the_table = ["is missing", "wants a FILE", "too many", "no option", "given twice"];
        let with_use = by_the_table.iter().any(|part| why.contains(part));
        assert_eq!(lines.len(), 1 + usize::from(with_use), "{words:?}: {said}");
        assert!(!with_use || lines[1].starts_with("use: zorambi catalogue DIR [--csv FILE] "), "{words:?}: {said}");
    }
    assert_eq!(names(&folder), ["empty", "record"]);
}
