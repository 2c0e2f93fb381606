//! The shipped records, as the tests take them.
#![allow(dead_code)] // Not every test takes all of it.

use std::fs;
use std::path::{Path, PathBuf};
use zorambi::{read_proof, read_schema, Record};

/// A record's folder by its name below the records' folder, or the folder of a sort of them.
pub fn shipped(name: &str) -> PathBuf {
    Path::new(env!("CARGO_MANIFEST_DIR")).join("../../records").join(name)
}

/// The folders of all records of a sort.
pub fn records(sort: &str) -> Vec<PathBuf> {
    let mut found: Vec<PathBuf> = fs::read_dir(shipped(sort)).unwrap().map(|entry| entry.unwrap().path()).collect();
    found.sort();
    assert!(!found.is_empty());
    found
}

/// The texts of a schema and its proof.
pub fn texts(folder: &Path) -> [Vec<u8>; 2] {
    ["schema.txt", "proof.txt"].map(|name| fs::read(folder.join(name)).unwrap())
}

pub fn record(folder: &Path) -> Record {
    let [schema, proof] = texts(folder);
    Record { schema: read_schema(&schema).unwrap(), proof: read_proof(&proof).unwrap() }
}
