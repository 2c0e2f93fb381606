//! Files of a record: which are read, how far, and what is told of the others.

use std::fs;
use std::os::unix::fs::symlink;
use std::os::unix::net::UnixListener;
use std::path::{Path, PathBuf};
use std::process::Command;
use zorambi::files::{enter, load};
use zorambi::MAX_TEXT;

fn scratch(name: &str) -> PathBuf {
    let folder = std::env::temp_dir().join(format!("zorambi-files-{name}-{}", std::process::id()));
    let _ = fs::remove_dir_all(&folder);
    fs::create_dir_all(&folder).unwrap();
    folder.canonicalize().unwrap()
}

/// What is told of a text that could not be read, and counts as empty.
fn unread(folder: &Path, follow: bool) -> String {
    let loaded = load(folder, "proof.txt", follow);
    assert!(loaded.bytes.is_empty());
    loaded.unread.unwrap().to_string()
}

#[test]
fn no_further_than_needed() {
    let folder = scratch("long");
    for (length, read) in
        [(0, 0), (1, 1), (MAX_TEXT, MAX_TEXT), (MAX_TEXT + 1, MAX_TEXT + 1), (3_000_000, MAX_TEXT + 1)]
    {
        let bytes: Vec<u8> = (0..length).map(|at| (at % 251) as u8).collect();
        fs::write(folder.join("proof.txt"), &bytes).unwrap();
        let loaded = load(&folder, "proof.txt", false);
        assert!(loaded.unread.is_none());
        assert_eq!(loaded.bytes, bytes[..read], "{length}");
    }
    fs::remove_dir_all(folder).unwrap();
}

#[test]
fn only_regular_files() {
    let folder = scratch("kinds");
    let path = folder.join("proof.txt");
    assert_eq!(unread(&folder, false), "is missing");
    fs::create_dir(&path).unwrap();
    assert_eq!(unread(&folder, false), "is a folder, not a regular file");
    fs::remove_dir(&path).unwrap();
    // It does not wait for the other end.
    assert!(Command::new("mkfifo").arg(&path).status().unwrap().success());
    assert_eq!(unread(&folder, false), "is a pipe, not a regular file");
    fs::remove_file(&path).unwrap();
    let socket = UnixListener::bind(&path).unwrap();
    assert_eq!(unread(&folder, false), "is a socket, not a regular file");
    drop(socket);
    fs::remove_file(&path).unwrap();
    symlink("/dev/zero", &path).unwrap();
    assert_eq!(unread(&folder, true), "is a device, not a regular file");
    fs::remove_file(&path).unwrap();
    symlink("/proc/self/mem", &path).unwrap();
    assert!(unread(&folder, true).starts_with("cannot be read: "));
    fs::remove_dir_all(folder).unwrap();
}

#[test]
fn links_out_of_the_folder() {
    let outside = scratch("outside");
    let folder = outside.join("record");
    fs::create_dir(&folder).unwrap();
    fs::write(outside.join("secret\n"), "secret").unwrap();
    fs::write(folder.join("kept"), "kept").unwrap();
    let path = folder.join("proof.txt");
    symlink("kept", &path).unwrap();
    assert_eq!(load(&folder, "proof.txt", false).bytes, b"kept");
    fs::remove_file(&path).unwrap();
    symlink("../secret\n", &path).unwrap();
    let told = format!(
        "is a link out of its folder, to {}/secret\\x0a, which is followed only with --follow",
        outside.display()
    );
    assert_eq!(unread(&folder, false), told);
    assert_eq!(load(&folder, "proof.txt", true).bytes, b"secret");
    // A folder beside it whose name begins alike is not within it.
    fs::create_dir(outside.join("record2")).unwrap();
    fs::write(outside.join("record2/proof.txt"), "other").unwrap();
    fs::remove_file(&path).unwrap();
    symlink("../record2/proof.txt", &path).unwrap();
    assert!(unread(&folder, false).starts_with("is a link out of its folder, to "));
    // The record's folder may itself be named by a link.
    symlink("record", outside.join("named")).unwrap();
    fs::remove_file(&path).unwrap();
    symlink("kept", &path).unwrap();
    assert_eq!(load(&outside.join("named"), "proof.txt", false).bytes, b"kept");
    fs::remove_dir_all(outside).unwrap();
}

#[test]
fn folders() {
    let folder = scratch("folders");
    assert!(enter(&folder).is_ok());
    fs::write(folder.join("file"), "").unwrap();
    let told = |name: &str| enter(&folder.join(name)).unwrap_err().to_string();
    let at = folder.display();
    assert_eq!(told("none\u{1b}"), format!("no such folder: {at}/none\\x1b"));
    assert_eq!(told("file"), format!("{at}/file is no folder"));
    assert!(told("file/in it").starts_with(&format!("{at}/file/in it cannot be entered: ")));
    fs::remove_dir_all(folder).unwrap();
}
