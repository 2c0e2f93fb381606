//! Parts and their merge, and runs held against earlier ones.

mod common;

use common::*;
use std::collections::BTreeSet;
use std::fs;
use std::os::unix::fs::symlink;
use std::path::{Path, PathBuf};
use std::process::Output;
use std::slice::from_ref;

/// Records of several sorts, with a link.
fn records(folder: &Path) -> PathBuf {
    let records = folder.join("records");
    for number in 0..60 {
        let proof = if number % 7 == 0 { by_two() } else { PROOF.to_string() };
        put(&records.join(format!("block {}/{number}", number % 5)), SCHEMA, proof);
    }
    put(&records, SCHEMA, PROOF);
    fs::write(records.join("block 1/1/older"), "").unwrap();
    symlink("block 1", records.join("link")).unwrap();
    records
}

fn part(records: &Path, table: &Path, part: &str) -> Output {
    catalogue(records, &["--shard", part, "--csv", table.to_str().unwrap()])
}

fn merge(tables: &[PathBuf], words: &[&str]) -> Output {
    command(&["merge"]).args(tables).args(words).output().unwrap()
}

/// Parts 1 to `of`, and their tables.
fn parts(folder: &Path, records: &Path, of: usize) -> Vec<PathBuf> {
    let run = |number: usize| {
        let table = folder.join(format!("part-{number}.csv"));
        let output = part(records, &table, &format!("{number}/{of}"));
        assert!([0, 1].contains(&status(&output)));
        table
    };
    (1..=of).map(run).collect()
}

#[test]
fn parts_make_the_whole() {
    let folder = scratch("parts");
    let records = records(&folder);
    let [csv, json, csv_2, json_2] =
        ["t.csv", "t.json", "m.csv", "m.json"].map(|name| folder.join(name).display().to_string());
    let whole = catalogue(&records, &["--csv", &csv, "--json", &json]);
    assert_eq!(status(&whole), 1);
    // More parts than records too: some have none.
    for of in [1, 2, 3, 7, 100] {
        let mut tables = parts(&folder, &records, of);
        // No name here has a comma or a quote.
        let first = |line: &str| line.split(',').next().unwrap().to_string();
        let named = |table: &PathBuf| {
            let text = fs::read_to_string(table).unwrap();
            text.lines().skip(1).map(first).filter(|name| !name.is_empty()).collect()
        };
        let names: Vec<Vec<String>> = tables.iter().map(named).collect();
        let all: BTreeSet<&String> = names.iter().flatten().collect();
        assert_eq!((all.len(), names.iter().map(Vec::len).sum::<usize>()), (62, 62), "of {of}");
        assert!(of > 7 || names.iter().all(|names| names.len() > 62 / of / 3), "of {of}: unevenly");
        tables.reverse();
        let output = merge(&tables, &["--csv", &csv_2, "--json", &json_2]);
        assert_eq!((status(&output), &errors(&output)[..]), (1, ""));
        assert_eq!(lines(&output)[..], lines(&whole)[lines(&whole).len() - 2..]);
        assert_eq!(fs::read(&csv).unwrap(), fs::read(&csv_2).unwrap(), "of {of}");
        assert_eq!(fs::read(&json).unwrap(), fs::read(&json_2).unwrap(), "of {of}");
        let quiet = merge(&tables, &["--quiet"]);
        assert_eq!((status(&quiet), quiet.stdout.len()), (1, 0));
    }
    // A part is chosen by coreutils and Python as it is here.
    let program = "import csv, hashlib, sys\n\
                   for k, table in enumerate(sys.argv[1:]):\n\
                   \x20   for row in list(csv.DictReader(open(table, newline='')))[:-1]:\n\
                   \x20       hash = hashlib.sha256(row['record'].encode()).digest()\n\
                   \x20       assert int.from_bytes(hash[:8], 'big') % 3 == k, row";
    let tables = parts(&folder, &records, 3);
    python(program, &tables.iter().map(PathBuf::as_path).collect::<Vec<_>>());
}

#[test]
fn an_accepted_whole() {
    let folder = scratch("accepted");
    let records = folder.join("records");
    for number in 0..5 {
        put(&records.join(number.to_string()), SCHEMA, PROOF);
    }
    let output = merge(&parts(&folder, &records, 2), &[]);
    assert_eq!((status(&output), lines(&output)), (0, vec!["5 records: 5 accepted, 0 refused".to_string()]));
}

/// What is said of tables that do not make a whole, of which nothing is written.
fn refused(tables: &[PathBuf], why: &str) {
    let out = tables[0].with_file_name("out.csv");
    let output = merge(tables, &["--csv", out.to_str().unwrap()]);
    assert_eq!((status(&output), output.stdout.len()), (2, 0), "{why}");
    let said = errors(&output);
    assert!(said.starts_with("zorambi merge: ") && said.contains(why) && said.lines().count() == 1, "{why}: {said}");
    assert!(!out.exists());
}

#[test]
fn parts_that_make_no_whole() {
    let folder = scratch("no whole");
    let records = records(&folder);
    let tables = parts(&folder, &records, 4);
    refused(
        &[&tables[..2], &tables[3..]].concat(),
        "part 3/4 is missing: run 'zorambi catalogue DIR --shard 3/4 --csv FILE'",
    );
    refused(
        &tables[1..2],
        "3 parts are missing: 1/4, 3/4, 4/4; run 'zorambi catalogue DIR --shard 1/4 --csv FILE' and so on",
    );
    refused(&[&tables[..], &tables[1..2]].concat(), "part 2/4 is there twice: ");
    let other = folder.join("other.csv");
    part(&records, &other, "2/5");
    refused(&[&tables[..1], from_ref(&other), &tables[2..]].concat(), "other.csv is part 2/5, but ");

    // Altered, cut short, or with another part's rows.
    let text = fs::read_to_string(&tables[1]).unwrap();
    let altered = |text: String| {
        fs::write(&other, text).unwrap();
        [&tables[..1], from_ref(&other), &tables[2..]].concat()
    };
    let lines: Vec<&str> = text.split_inclusive("\r\n").collect();
    let cut = |at: usize| lines[..at].concat();
    for at in [1, 2, lines.len() - 1] {
        refused(&altered(cut(at)), "other.csv is no whole table: its last line, 'end', is missing");
    }
    refused(&altered(text[..text.len() - 3].to_string()), "its last line, 'end', is missing");
    refused(&altered(String::new()), "other.csv is no table of a catalogue (CSV)");
    let without_second = [&lines[..2], &lines[3..]].concat().concat();
    refused(&altered(without_second), "is no whole table: an end that does not fit it at row");
    refused(&altered(text.replacen(",accepted,0,", ",accepted,1,", 1)), "is no whole table: no verdict at row");
    refused(&altered(text.replacen(",refused,14,", ",refused,x,", 1)), "is no whole table: no verdict at row");
    refused(&altered(text.clone() + &text), "is no whole table: an end that does not fit it");
    let doubled = [&lines[..2], &lines[1..]].concat().concat();
    refused(&altered(doubled), "is no whole table: a name out of order at row 2");
    let first = fs::read_to_string(&tables[0]).unwrap();
    let stray = first.split_inclusive("\r\n").nth(1).unwrap();
    let moved = [&lines[..1], &[stray], &lines[2..]].concat().concat();
    let output = merge(&altered(moved), &[]);
    assert_eq!(status(&output), 2);
    let renamed = text.replace(lines[1].split(',').next().unwrap(), "another");
    let output = merge(&altered(renamed), &[]);
    assert_eq!(status(&output), 2);
    // Another library, in the whole table or in a row.
    let library = zorambi::IDENTITY;
    let another = library.replace("library ", "library 0");
    refused(&altered(text.replace(library, &another)), "are of different libraries: ");
    refused(&altered(text.replacen(library, &another, 1)), "is no whole table: another library at row 2");
    // Another state of the folder.
    put(&records.join("late"), SCHEMA, PROOF);
    part(&records, &other, "2/4");
    let late = [&tables[..1], from_ref(&other), &tables[2..]].concat();
    refused(&late, "found different records: the folder changed meanwhile, or is another");
    refused(&[folder.join("nowhere.csv")], "nowhere.csv cannot be read: No such file");
}

#[test]
fn since_an_earlier_table() {
    let folder = scratch("since");
    let records = records(&folder);
    let [first, second, third] = ["1.csv", "2.csv", "3.csv"].map(|name| folder.join(name));
    assert_eq!(status(&catalogue(&records, &["--csv", first.to_str().unwrap()])), 1);
    let since =
        |table: &Path, words: &[&str]| catalogue(&records, &[&["--since", table.to_str().unwrap()], words].concat());
    let output = since(&first, &["--csv", second.to_str().unwrap()]);
    assert_eq!(status(&output), 1);
    let nothing = "since then: 0 new, 0 changed, 0 with another verdict, 62 as before, 0 gone";
    assert_eq!(lines(&output)[0], nothing);
    assert_eq!(fs::read(&first).unwrap(), fs::read(&second).unwrap());

    put(&records.join("added"), SCHEMA, by_two());
    fs::remove_dir_all(records.join("block 3/3")).unwrap();
    fs::write(records.join("block 2/2/proof.txt"), by_two()).unwrap();
    fs::write(records.join("block 0/0/proof.txt"), PROOF).unwrap();
    fs::write(records.join("block 4/4/older"), "").unwrap();
    fs::write(records.join("block 4/9/schema.txt"), SCHEMA.replace("4 1\n", "4 2\n")).unwrap();
    fs::write(records.join("block 4/14/schema.txt"), vec![b'x'; 65_537]).unwrap();
    // The same bytes, written anew.
    fs::write(records.join("block 1/6/proof.txt"), PROOF).unwrap();
    let output = since(&first, &["--csv", second.to_str().unwrap()]);
    assert_eq!(status(&output), 1);
    let path = |name: &str| records.join(name).display().to_string();
    let void = "refused: a void's bound (14) at node 2: proof.txt:9: 1 7 2 -1 -1 -1 0 2 3; \
                node 2 knows n = 2, but row 2 (some i from 2 to n: p0[i]) is empty only up to n = 1";
    let expected = [
        format!("{}: new, {BOUND}", path("added")),
        format!("{}: changed, {ACCEPTED}; before: refused (14)", path("block 0/0")),
        format!("{}: changed, {BOUND}; before: accepted", path("block 2/2")),
        format!("{}: changed, refused: schema.txt has over 65,536 bytes (1); before: refused (14)", path("block 4/14")),
        format!("{}: changed, older, {ACCEPTED}; before: accepted", path("block 4/4")),
        format!("{}: changed, {void}; before: accepted", path("block 4/9")),
        format!("{}: gone; before: accepted", path("block 3/3")),
        "since then: 1 new, 5 changed, 0 with another verdict, 56 as before, 1 gone".to_string(),
    ];
    assert_eq!(lines(&output)[..8], expected);
    // The new table is that of a run on the whole, and a part's is that part's.
    assert_eq!(status(&catalogue(&records, &["--csv", third.to_str().unwrap()])), 1);
    assert_eq!(fs::read(&third).unwrap(), fs::read(&second).unwrap());
    let failed = since(&first, &["--failed"]);
    let refused_alone = [&expected[..1], &expected[2..4], &expected[5..]].concat();
    assert_eq!(lines(&failed)[..6], refused_alone);

    let [one, again] = ["part.csv", "again.csv"].map(|name| folder.join(name));
    part(&records, &one, "2/3");
    let output = since(&first, &["--shard", "2/3", "--csv", again.to_str().unwrap()]);
    assert_eq!(fs::read(&one).unwrap(), fs::read(&again).unwrap());
    assert!(lines(&output).iter().filter(|line| line.contains(": changed, ")).count() < 5);
    let output = since(&one, &["--shard", "2/3"]);
    assert!(lines(&output)[0].starts_with("since then: 0 new, 0 changed, 0 with another verdict, "));
    let output = since(&one, &["--shard", "1/3"]);
    assert_eq!(status(&output), 2);
    assert!(errors(&output).contains("part.csv is the table of part 2/3, not of the whole or of part 1/3"));
}

/// A table from before refusals were explained, without the last column.
fn unexplained(table: &str) -> String {
    let cut = |line: &str| match line.strip_suffix('"') {
        Some(quoted) => quoted[..quoted.rfind(",\"").unwrap()].to_string(),
        None => line[..line.rfind(',').unwrap()].to_string(),
    };
    table.lines().map(|line| cut(line.trim_end()) + "\r\n").collect()
}

/// Such a table is read, and a refusal in it is looked at again, so that the new table says why; it may be written over.
#[test]
fn since_a_table_without_reasons() {
    let folder = scratch("unexplained");
    let records = folder.join("records");
    put(&records.join("a"), SCHEMA, PROOF);
    put(&records.join("b"), SCHEMA, by_two());
    let [table, earlier] = ["t.csv", "earlier.csv"].map(|name| folder.join(name));
    assert_eq!(status(&catalogue(&records, &["--csv", table.to_str().unwrap()])), 1);
    let text = fs::read_to_string(&table).unwrap();
    let cut = unexplained(&text);
    assert!(text.contains(",why\r\n") && text.contains("node 5 knows n >= 2") && !cut.contains("node 5 knows"));
    fs::write(&earlier, &cut).unwrap();
    let words = ["--since", earlier.to_str().unwrap(), "--csv", earlier.to_str().unwrap()];
    let output = catalogue(&records, &words);
    assert_eq!(lines(&output)[0], "since then: 0 new, 0 changed, 0 with another verdict, 2 as before, 0 gone");
    assert_eq!(fs::read_to_string(&earlier).unwrap(), text);
    // Parts are put together all the same.
    fs::write(&earlier, &cut).unwrap();
    assert_eq!(status(&merge(&[earlier], &[])), 1);
}

/// A verdict is taken over from a table of the same library alone, and one that differs is told.
#[test]
fn by_another_library() {
    let folder = scratch("another");
    let records = folder.join("records");
    put(&records.join("a"), SCHEMA, PROOF);
    put(&records.join("b"), SCHEMA, by_two());
    let table = folder.join("t.csv");
    let csv = ["--csv", table.to_str().unwrap()];
    assert_eq!(status(&catalogue(&records, &csv)), 1);
    let text = fs::read_to_string(&table).unwrap();
    // In a table of this library a wrong verdict is believed: that shows that nothing was checked.
    let wrong = text.replace(",accepted,0,0,7,1,", ",accepted,0,0,8,1,");
    fs::write(&table, &wrong).unwrap();
    let since = ["--since", table.to_str().unwrap()];
    let output = catalogue(&records, &since);
    assert_eq!(lines(&output)[0], "since then: 0 new, 0 changed, 0 with another verdict, 2 as before, 0 gone");
    // In one of another library it is not.
    let another = zorambi::IDENTITY.replace("library ", "library 0");
    fs::write(&table, wrong.replace(zorambi::IDENTITY, &another)).unwrap();
    let output = noted(&records, &since);
    assert_eq!(errors(&output), format!("the earlier table is another library's ({another}): everything is checked\n"));
    let words = format!("unchanged and with another verdict, {ACCEPTED}; before: accepted");
    assert_eq!(said(&output, &records.join("a")), words);
    assert_eq!(lines(&output)[1], "since then: 0 new, 0 changed, 1 with another verdict, 1 as before, 0 gone");
    assert_eq!(catalogue(&records, &[&since[..], &["--quiet"]].concat()).stderr, b"");
}

/// The hashes of a table are those of coreutils; a text over the limit is not read whole, and has none.
#[test]
fn hashes_of_the_texts() {
    let folder = scratch("hashes");
    let (records, table) = (folder.join("records"), folder.join("t.csv"));
    let sums_of = |record: &Path| -> Vec<String> {
        let mut command = std::process::Command::new("sha256sum");
        let sums = command.args(["schema.txt", "proof.txt"]).current_dir(record).output().unwrap();
        String::from_utf8(sums.stdout).unwrap().lines().map(|line| line[..64].to_string()).collect()
    };
    put(&records.join("longest"), vec![b'x'; 65_536], PROOF);
    put(&records.join("longer"), vec![b'x'; 65_537], PROOF);
    put(&records.join("empty"), "", PROOF);
    assert!(std::process::Command::new("cp")
        .arg("-r")
        .args([shipped(), records.join("shipped")])
        .status()
        .unwrap()
        .success());
    catalogue(&records, &["--csv", table.to_str().unwrap()]);
    let rows = rows(&table);
    assert!(rows.len() > 30);
    for row in &rows[1..rows.len() - 1] {
        let mut expected = sums_of(&records.join(&row[0]));
        if row[0] == "longer" || row[0].ends_with("/01_too_many_bytes") {
            expected[0] = String::new();
        }
        if row[0].contains("/by_number/") && expected.len() < 2 {
            expected.push(String::new());
        }
        assert_eq!(row[11..13], expected, "{}", row[0]);
        assert_eq!(row[13], zorambi::IDENTITY);
    }
}
