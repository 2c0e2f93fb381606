//! Folders, files and names that are not what a catalogue hopes for, and outputs that fail.

mod common;

use common::*;
use std::ffi::OsStr;
use std::fs::{self, File};
use std::io::{BufRead, BufReader, Read};
use std::os::unix::ffi::OsStrExt;
use std::os::unix::fs::{symlink, PermissionsExt};
use std::os::unix::process::CommandExt;
use std::path::{Path, PathBuf};
use std::process::{Command, Stdio};
use std::time::{Duration, Instant};

fn pipe(path: &Path) {
    assert!(Command::new("mkfifo").arg("--").arg(path).status().unwrap().success());
}

/// A record without its schema's text.
fn no_schema(folder: &Path) -> PathBuf {
    put(folder, "", PROOF);
    fs::remove_file(folder.join("schema.txt")).unwrap();
    folder.join("schema.txt")
}

/// Pipes, devices, sockets and folders are told by name and count as empty; nothing waits for them.
#[test]
fn only_regular_files_are_read() {
    let folder = scratch("irregular");
    put(&folder.join("right"), SCHEMA, PROOF);
    pipe(&no_schema(&folder.join("pipe")));
    fs::create_dir(no_schema(&folder.join("folder"))).unwrap();
    symlink("/dev/zero", no_schema(&folder.join("device"))).unwrap();
    let socket = std::os::unix::net::UnixListener::bind(no_schema(&folder.join("socket"))).unwrap();
    put(&folder.join("pipe as proof"), SCHEMA, "");
    fs::remove_file(folder.join("pipe as proof/proof.txt")).unwrap();
    pipe(&folder.join("pipe as proof/proof.txt"));
    for follow in [&[][..], &["--follow"]] {
        let mut child = command(&["catalogue"]).arg(&folder).args(follow).stdout(Stdio::piped()).spawn().unwrap();
        let started = Instant::now();
        while child.try_wait().unwrap().is_none() {
            if started.elapsed() > Duration::from_secs(20) {
                child.kill().unwrap();
                panic!("it does not end");
            }
            std::thread::sleep(Duration::from_millis(10));
        }
        let output = child.wait_with_output().unwrap();
        assert_eq!(status(&output), 1);
        let said = |name: &str| said(&output, &folder.join(name));
        assert_eq!(said("right"), ACCEPTED);
        assert_eq!(said("pipe"), "refused: schema.txt is a pipe, not a regular file (3)");
        assert_eq!(said("folder"), "refused: schema.txt is a folder, not a regular file (3)");
        assert_eq!(said("socket"), "refused: schema.txt is a socket, not a regular file (3)");
        assert_eq!(said("pipe as proof"), "refused: proof.txt is a pipe, not a regular file (3)");
        if follow.is_empty() {
            assert!(said("device").starts_with("refused: schema.txt is a link out of its folder, to /dev/zero, "));
        } else {
            assert_eq!(said("device"), "refused: schema.txt is a device, not a regular file (3)");
        }
        assert_eq!(lines(&output).last().unwrap(), "6 records: 1 accepted, 5 refused");
    }
    drop(socket);
}

/// A link out of a record's folder is followed only if that is asked for, and no line of its target is shown.
#[test]
fn links_to_files() {
    let folder = scratch("links to files");
    put(&folder.join("right"), SCHEMA, PROOF);
    fs::write(folder.join("secret"), "secret of the house\n").unwrap();
    symlink("../secret", no_schema(&folder.join("out"))).unwrap();
    symlink("../right/schema.txt", no_schema(&folder.join("to right"))).unwrap();
    let inside = no_schema(&folder.join("inside"));
    fs::write(inside.with_file_name("schema_2.txt"), SCHEMA).unwrap();
    symlink("schema_2.txt", &inside).unwrap();
    symlink("nowhere", no_schema(&folder.join("lost"))).unwrap();
    symlink("schema.txt", no_schema(&folder.join("around"))).unwrap();
    let table = folder.join("t.csv");
    let output = catalogue(&folder, &["--csv", table.to_str().unwrap()]);
    assert_eq!(status(&output), 1);
    let line = |name: &str| said(&output, &folder.join(name));
    assert_eq!(line("inside"), ACCEPTED);
    for name in ["out", "to right"] {
        assert!(line(name).starts_with("refused: schema.txt is a link out of its folder, to "), "{name}");
        assert!(line(name).ends_with(", which is followed only with --follow (3)"), "{name}");
    }
    assert_eq!(line("lost"), "refused: schema.txt is missing (3)");
    assert!(line("around").starts_with("refused: schema.txt cannot be read: "));
    assert!(!String::from_utf8_lossy(&output.stdout).contains("of the house"));
    assert!(!fs::read_to_string(&table).unwrap().contains("of the house"));
    let row = row_of(&rows(&table), "to right");
    assert_eq!((&row[2][..], &row[11][..]), ("3", ""));
    assert_ne!(row[12], "");

    let output = catalogue(&folder, &["--follow"]);
    assert_eq!(said(&output, &folder.join("to right")), ACCEPTED);
    let heading = "refused: a heading (3) at line 1: schema.txt:1: secret of the house; \
                   line 1 is 'secret of the house', not the heading 'root least': at column 1 's' stands where 'r' has to stand";
    assert_eq!(said(&output, &folder.join("out")), heading);
}

/// Links to folders have a line, a row and a count; followed, each folder is looked into once.
#[test]
fn links_to_folders() {
    let folder = scratch("links to folders");
    let (below, other) = (folder.join("below"), folder.join("other"));
    put(&below.join("real"), SCHEMA, PROOF);
    put(&other.join("b"), SCHEMA, by_two());
    symlink("real", below.join("a link to it")).unwrap();
    symlink("../other", below.join("out")).unwrap();
    symlink("../other", below.join("out again")).unwrap();
    symlink(".", below.join("around")).unwrap();
    symlink("nowhere", below.join("lost")).unwrap();
    symlink("../other/b/proof.txt", below.join("to a file")).unwrap();
    let table = folder.join("t.csv");
    let output = catalogue(&below, &["--csv", table.to_str().unwrap()]);
    assert_eq!(status(&output), 1);
    let not_followed = "a link to a folder, which is followed only with --follow";
    for name in ["a link to it", "out", "out again", "around"] {
        assert_eq!(said(&output, &below.join(name)), not_followed);
        let row = row_of(&rows(&table), name);
        assert_eq!(row[1..8], ["not followed", "", "", "", "", not_followed, ""]);
    }
    let totals = "1 record: 1 accepted, 0 refused; 4 links to a folder not followed";
    assert_eq!(lines(&output).last().unwrap(), totals);

    let output = catalogue(&below, &["--follow"]);
    assert_eq!(status(&output), 1);
    assert_eq!(said(&output, &below.join("out/b")), BOUND);
    for (name, listed) in [("a link to it", "real"), ("out again", "out"), ("around", ".")] {
        assert_eq!(said(&output, &below.join(name)), format!("a link to a folder that is listed as {listed}"));
    }
    let totals = "2 records: 1 accepted, 1 refused; 3 links to a folder listed elsewhere";
    assert_eq!(lines(&output).last().unwrap(), totals);
    fs::remove_file(below.join("out")).unwrap();
    fs::remove_file(below.join("out again")).unwrap();
    assert_eq!(status(&catalogue(&below, &["--follow"])), 0);
    assert_eq!(status(&catalogue(&below, &[])), 1);
}

/// A command run by somebody who may not read everything: this one, or nobody in particular if this is root.
fn unprivileged(folder: &Path, words: &[&OsStr]) -> std::process::Output {
    let program = folder.join("program");
    if !program.exists() {
        fs::copy(common::program(), &program).unwrap();
    }
    let mut command = Command::new(program);
    command.args(words);
    if fs::metadata("/proc/self").map(|me| std::os::unix::fs::MetadataExt::uid(&me)).unwrap() == 0 {
        command.uid(65_534).gid(65_534);
    }
    command.output().unwrap()
}

fn forbid(path: &Path, mode: u32) {
    fs::set_permissions(path, fs::Permissions::from_mode(mode)).unwrap();
}

#[test]
fn what_may_not_be_read() {
    let folder = std::env::temp_dir().join(format!("zorambi-catalogue-{}", std::process::id()));
    let _ = fs::remove_dir_all(&folder);
    let records = folder.join("records");
    put(&records.join("right"), SCHEMA, PROOF);
    put(&records.join("text"), SCHEMA, PROOF);
    put(&records.join("folder\x1b[31m"), SCHEMA, PROOF);
    forbid(&records.join("text/proof.txt"), 0);
    forbid(&records.join("folder\x1b[31m"), 0);
    forbid(&folder, 0o755);
    let table = folder.join("open");
    fs::create_dir(&table).unwrap();
    forbid(&table, 0o777);
    let table = table.join("t.csv");
    let csv = [OsStr::new("--csv"), table.as_os_str()];
    let output = unprivileged(&folder, &[OsStr::new("catalogue"), records.as_os_str(), csv[0], csv[1]]);
    assert_eq!(status(&output), 1);
    let line = |name: &str| said(&output, &records.join(name));
    assert_eq!(line("right"), ACCEPTED);
    assert_eq!(line("text"), "refused: proof.txt cannot be read: Permission denied (os error 13) (3)");
    let not_listed = "a folder that cannot be listed: Permission denied (os error 13)";
    assert_eq!(line("folder\\x1b[31m"), not_listed);
    assert_eq!(lines(&output).last().unwrap(), "2 records: 1 accepted, 1 refused; 1 folder not listed");
    assert!(!output.stdout.contains(&0x1b));
    let row = row_of(&rows(&table), "folder\\x1b[31m");
    assert_eq!(row[1..8], ["not listed", "", "", "", "", not_listed, ""]);
    let row = row_of(&rows(&table), "text");
    assert_eq!((&row[2][..], &row[6][..]), ("3", "proof.txt cannot be read: Permission denied (os error 13)"));

    // One that is accepted but for a folder that cannot be listed is not all accepted.
    forbid(&records.join("text/proof.txt"), 0o644);
    let output = unprivileged(&folder, &[OsStr::new("catalogue"), records.as_os_str()]);
    assert_eq!(status(&output), 1);
    // The folder itself: not 'no such folder'.
    let hidden = records.join("folder\x1b[31m");
    let output = unprivileged(&folder, &[OsStr::new("catalogue"), hidden.as_os_str()]);
    assert_eq!(status(&output), 2);
    let why = errors(&output);
    assert!(why.contains("folder\\x1b[31m cannot be entered: Permission denied"), "{why}");
    // A table where nothing may be written.
    let words = [OsStr::new("catalogue"), records.as_os_str(), csv[0], OsStr::new("/t.csv")];
    let output = unprivileged(&folder, &words);
    assert_eq!(status(&output), 2);
    assert!(errors(&output).contains("/t.csv cannot be written: Permission denied"));
    forbid(&hidden, 0o755);
    fs::remove_dir_all(&folder).unwrap();
}

/// Names with any bytes: two that differ are shown differently, and what Python reads out of both tables is the names.
#[test]
fn hostile_names() {
    let folder = scratch("names");
    let records = folder.join("records");
    let plain: [&[u8]; 14] = [
        b"new\nline",
        b"ends in newline\n",
        b"ends in newline",
        b"quo\"te",
        b"com,ma",
        b"cr\rlf\r\n",
        b"tab\tbell\x07\x7f",
        b"\x1b[2J",
        b"bad\xff",
        b"bad\xfe",
        "Gr\u{f6}\u{df}e \u{202e}".as_bytes(),
        b"back\\slash \\x0a",
        b"=HYPERLINK(\"x\")",
        b"-2+cmd",
    ];
    for name in plain {
        put(&records.join(OsStr::from_bytes(name)), SCHEMA, by_two().replace("4 8 -1", "4 8 \x1b,\"-1"));
    }
    put(&records.join("formula"), "=1+1\n", PROOF);
    let [csv, json] = ["t.csv", "t.json"].map(|name| folder.join(name));
    let output = catalogue(&records, &["--csv", csv.to_str().unwrap(), "--json", json.to_str().unwrap()]);
    assert_eq!(status(&output), 1);
    assert_eq!(lines(&output).len(), plain.len() + 1 + 2 + 1);
    assert!(output.stdout.iter().all(|byte| matches!(byte, b' '..=b'~' | b'\n')));
    assert!(fs::read(&json).unwrap().iter().all(|byte| matches!(byte, b' '..=b'~' | b'\n')));
    assert!(fs::read(&csv).unwrap().iter().all(|byte| matches!(byte, b' '..=b'~' | b'\n' | b'\r')));
    let program = r#"
import csv, json, os, re, sys
def name(shown):
    part = lambda found: b"\\" if found[0] == b"\\\\" else bytes([int(found[1], 16)])
    return re.sub(rb"\\\\|\\x([0-9a-f]{2})", part, shown.encode("ascii"))
folder, table, lines = sys.argv[1:]
there = sorted(os.listdir(os.fsencode(folder)))
rows = list(csv.DictReader(open(table, newline="", encoding="ascii"), strict=True))
objects = [json.loads(line) for line in open(lines, encoding="ascii")]
assert [row["verdict"] for row in rows[:-1]] == ["refused"] * len(there) and rows[-1]["verdict"] == "end"
assert sorted(name(row["record"]) for row in rows[:-1]) == there, rows
assert sorted(name(one["record"]) for one in objects[:-1]) == there, objects
assert not any(row[key][:1] in ("=", "+", "@") for row in rows for key in row), rows
assert not any(re.match("-[^0-9]|-[0-9]+[^0-9 -]", row["record"]) for row in rows), rows
for row, one in zip(rows[:-1], objects):
    assert {key: "" if value is None else str(value) for key, value in one.items()} == {
        key: row[key] for key in row if key not in ("part", "tree")}, (row, one)
assert all(row["text"] == "4 8 \\x1b,\"-1 -1 -1 1 2 5 7" for row in rows[:-1] if row["record"] != "formula"), rows
assert objects[-1]["records"] == objects[-1]["refused"] == len(there) and objects[-1]["part"] == "1/1"
print(len(there))
"#;
    assert_eq!(python(program, &[&records, &csv, &json]), format!("{}\n", plain.len() + 1));
}

/// A reader that goes away, a full disk and a closed standard error: no panic, status 2 where something was not written, and no
/// table.
#[test]
fn outputs_that_fail() {
    let folder = scratch("outputs");
    let records = folder.join("records");
    for number in 0..3000 {
        put(&records.join(format!("{number:04}")), SCHEMA, PROOF);
    }
    let table = folder.join("t.csv");
    let csv = ["--csv", table.to_str().unwrap()];
    // `| head -1`
    let mut child =
        command(&["catalogue"]).arg(&records).args(csv).stdout(Stdio::piped()).stderr(Stdio::piped()).spawn().unwrap();
    let mut reader = BufReader::with_capacity(64, child.stdout.take().unwrap());
    let mut first = String::new();
    reader.read_line(&mut first).unwrap();
    drop(reader);
    let mut said = String::new();
    child.stderr.take().unwrap().read_to_string(&mut said).unwrap();
    assert_eq!(child.wait().unwrap().code(), Some(2));
    assert_eq!(said, "");
    assert!(first.ends_with(&format!("0000: {ACCEPTED}\n")));
    assert_eq!(names(&folder), ["records"]);
    // Standard output on a full disk
    let full = || File::options().write(true).open("/dev/full").unwrap();
    let output = command(&["catalogue"]).arg(&records).args(csv).stdout(full()).output().unwrap();
    assert_eq!(status(&output), 2);
    let why = "zorambi catalogue: standard output cannot be written: No space left on device (os error 28)\n";
    assert_eq!(errors(&output), why);
    assert_eq!(names(&folder), ["records"]);
    // Standard error on a full disk, and closed
    let output = command(&["catalogue", "/nowhere"]).stderr(full()).output().unwrap();
    assert_eq!(status(&output), 2);
    let shell = |redirect: &str, words: &[&OsStr]| {
        let line = format!("exec \"$@\" {redirect}");
        Command::new("sh").arg("-c").arg(line).arg("sh").arg(common::program()).args(words).output().unwrap()
    };
    let output = shell("2>&-", &[OsStr::new("catalogue"), OsStr::new("/nowhere")]);
    assert_eq!(status(&output), 2);
    let output = shell("2>&- >&-", &[OsStr::new("catalogue"), records.as_os_str()]);
    assert_eq!(status(&output), 0);
    // merge
    let output = catalogue(&records, &csv);
    assert_eq!(status(&output), 0);
    let output = command(&["merge"]).arg(&table).stdout(full()).output().unwrap();
    assert_eq!(status(&output), 2);
    assert!(errors(&output).starts_with("zorambi merge: standard output cannot be written: "));
}

/// A table on a disk that is full: told, and nothing of it is left. Needs a small file system, which only root can mount.
#[test]
fn a_table_on_a_full_disk() {
    let folder = scratch("disk");
    let (records, disk) = (folder.join("records"), folder.join("disk"));
    for number in 0..400 {
        put(&records.join(format!("{number:04}")), SCHEMA, PROOF);
    }
    fs::create_dir(&disk).unwrap();
    let mount =
        Command::new("mount").args(["-t", "tmpfs", "-o", "size=64k", "none"]).arg(&disk).stderr(Stdio::null()).status();
    if !mount.is_ok_and(|status| status.success()) {
        println!("not tried: no file system can be mounted here");
        return;
    }
    let table = disk.join("t.csv");
    let output = catalogue(&records, &["--csv", table.to_str().unwrap()]);
    let left = names(&disk);
    assert!(Command::new("umount").arg(&disk).status().unwrap().success());
    assert_eq!(status(&output), 2);
    let why =
        format!("zorambi catalogue: {} cannot be written: No space left on device (os error 28)\n", table.display());
    assert_eq!(errors(&output), why);
    assert_eq!(left, [""; 0]);
}

/// A table that reaches its file only at the end, when what is left is flushed: told, and nothing of it is left.
#[test]
fn a_table_that_cannot_be_flushed() {
    let folder = scratch("flushed");
    let records = folder.join("records");
    for number in 0..8 {
        put(&records.join(number.to_string()), SCHEMA, PROOF);
    }
    for (option, name) in [("--csv", "t.csv"), ("--json", "t.json")] {
        let table = folder.join(name);
        // A file may have 1,024 bytes.
        let mut shell = Command::new("sh");
        shell.args(["-c", "trap '' XFSZ; ulimit -f 1; exec \"$@\"", "sh"]).arg(common::program());
        let output = shell.arg("catalogue").arg(&records).arg(option).arg(&table).output().unwrap();
        assert_eq!(status(&output), 2);
        let why = format!("zorambi catalogue: {} cannot be written: File too large (os error 27)\n", table.display());
        assert_eq!(errors(&output), why);
        assert_eq!(names(&folder), ["records"]);
    }
}

/// A run whose standard output nobody reads yet, so that it waits before its end; it has as many threads as it is asked for and one
/// more.
fn waiting(records: &Path, words: &[&str], jobs: usize) -> std::process::Child {
    let mut command = command(&["catalogue"]);
    command.arg(records).args(words).args(["--jobs", &jobs.to_string()]).stdout(Stdio::piped()).stderr(Stdio::piped());
    let child = command.spawn().unwrap();
    let tasks = format!("/proc/{}/task", child.id());
    let started = Instant::now();
    while fs::read_dir(&tasks).unwrap().count() != jobs + 1 {
        assert!(started.elapsed() < Duration::from_secs(60), "never {jobs} threads and one more");
        std::thread::sleep(Duration::from_millis(10));
    }
    child
}

/// As many threads as are asked for; and a file that takes the table's name while it is made stays as it is.
#[test]
fn what_came_meanwhile() {
    let folder = scratch("meanwhile");
    let records = folder.join("records");
    for number in 0..3000 {
        put(&records.join(format!("{number:04}")), SCHEMA, PROOF);
    }
    let table = folder.join("t.csv");
    for jobs in [1, 3, 5] {
        let child = waiting(&records, &["--csv", table.to_str().unwrap()], jobs);
        fs::write(&table, "another's\n").unwrap();
        let output = child.wait_with_output().unwrap();
        assert_eq!(status(&output), 2);
        let why = format!(
            "zorambi catalogue: {} is there and is no table of a catalogue: it is not written over\n",
            table.display()
        );
        assert_eq!(errors(&output), why);
        assert_eq!(fs::read(&table).unwrap(), b"another's\n");
        assert_eq!(names(&folder), ["records", "t.csv"]);
        fs::remove_file(&table).unwrap();
    }
}

/// What is there is written over only if it is a table or empty, and then as a whole.
#[test]
fn what_a_table_does_not_write_over() {
    let folder = scratch("over");
    let record = folder.join("record");
    put(&record, SCHEMA, PROOF);
    let table = folder.join("t.csv");
    for option in ["--csv", "--json"] {
        // A record's own proof, whatever stands in it.
        for proof in [
            PROOF,
            "record,verdict\r\n",
            "record,verdict,answer,place,nodes,links,refusal,file,line,text,check\r\n",
            "{}\n",
        ] {
            fs::write(record.join("proof.txt"), proof).unwrap();
            let output = catalogue(&record, &[option, record.join("proof.txt").to_str().unwrap()]);
            assert_eq!((status(&output), output.stdout.len()), (2, 0));
            assert!(errors(&output)
                .contains("record/proof.txt is there and is no table of a catalogue: it is not written over"));
            assert_eq!(fs::read_to_string(record.join("proof.txt")).unwrap(), proof);
        }
        fs::write(record.join("proof.txt"), PROOF).unwrap();
        // A pipe does not stop it, and a link is not replaced.
        let _ = fs::remove_file(folder.join("pipe"));
        pipe(&folder.join("pipe"));
        let output = catalogue(&record, &[option, folder.join("pipe").to_str().unwrap()]);
        assert_eq!(status(&output), 2);
        let _ = fs::remove_file(folder.join("link"));
        symlink("record/proof.txt", folder.join("link")).unwrap();
        let output = catalogue(&record, &[option, folder.join("link").to_str().unwrap()]);
        assert_eq!(status(&output), 2);
        assert_eq!(fs::read_to_string(record.join("proof.txt")).unwrap(), PROOF);
        // An empty file and such a table are.
        let words = [option, table.to_str().unwrap()];
        fs::write(&table, "").unwrap();
        assert_eq!(status(&catalogue(&record, &words)), 0);
        let whole = fs::read_to_string(&table).unwrap();
        fs::set_permissions(&table, fs::Permissions::from_mode(0o640)).unwrap();
        assert_eq!(status(&catalogue(&record, &words)), 0);
        assert_eq!(fs::read_to_string(&table).unwrap(), whole);
        assert_eq!(fs::metadata(&table).unwrap().permissions().mode() & 0o777, 0o640);
        fs::remove_file(folder.join("link")).unwrap();
        symlink("t.csv", folder.join("link")).unwrap();
        assert_eq!(status(&catalogue(&record, &[option, folder.join("link").to_str().unwrap()])), 0);
        assert!(fs::symlink_metadata(folder.join("link")).unwrap().is_symlink());
        fs::remove_file(&table).unwrap();
        fs::remove_file(folder.join("link")).unwrap();
    }
    fs::remove_file(folder.join("pipe")).unwrap();
    assert_eq!(names(&folder), ["record"]);
}

/// After an interrupt there is no table, or the one that was there before.
#[test]
fn interrupted() {
    let folder = scratch("interrupted");
    let records = folder.join("records");
    let big = shipped().join("accepted/cmp_transitive");
    let [schema, proof] = ["schema.txt", "proof.txt"].map(|name| fs::read(big.join(name)).unwrap());
    for number in 0..4000 {
        put(&records.join(format!("{number:04}")), &schema, &proof);
    }
    let table = folder.join("t.csv");
    for before in [None, Some(format!("{}\r\n", "record,verdict,answer,place,nodes,links,refusal,file,line,text,check,schema_sha256,proof_sha256,library,part,tree"))] {
        if let Some(text) = &before {
            fs::write(&table, text).unwrap();
        }
        for signal in ["INT", "TERM", "KILL"] {
            let mut child = command(&["catalogue"]).arg(&records).arg("--csv").arg(&table).stdout(Stdio::piped()).spawn().unwrap();
            let mut reader = BufReader::new(child.stdout.take().unwrap());
            reader.read_line(&mut String::new()).unwrap();
            assert!(child.try_wait().unwrap().is_none(), "it ended before it could be interrupted");
            let status = Command::new("kill").arg(format!("-{signal}")).arg(child.id().to_string()).status().unwrap();
            assert!(status.success());
            assert_eq!(child.wait().unwrap().code(), None);
            assert_eq!(fs::read_to_string(&table).ok(), before);
            assert_eq!(names(&folder).len(), 1 + usize::from(before.is_some()));
        }
    }
}
