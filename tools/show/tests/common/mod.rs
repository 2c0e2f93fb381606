//! Folders and texts for the tests.
#![allow(dead_code)]

use std::path::{Path, PathBuf};
use zorambi::files::{Loaded, Unread};
use zorambi_show::{show, Options, Shown, Style, Texts};

pub fn project() -> PathBuf {
    Path::new(env!("CARGO_MANIFEST_DIR")).join("../..")
}

/// Every record's folder, with its name below `records`, sorted.
pub fn records() -> Vec<(String, PathBuf)> {
    let below = |folder: &Path| {
        let entries = std::fs::read_dir(folder).unwrap().map(|entry| entry.unwrap().path());
        entries.filter(|path| path.is_dir()).collect::<Vec<_>>()
    };
    let named = |path: PathBuf| {
        let name = path.iter().rev().take(2).map(|part| part.to_str().unwrap()).collect::<Vec<_>>();
        (format!("{}/{}", name[1], name[0]), path)
    };
    let mut records: Vec<_> =
        below(&project().join("records")).iter().flat_map(|group| below(group)).map(named).collect();
    records.sort();
    records
}

pub fn options(style: Style, with_sets: bool, width: usize) -> Options {
    Options { style, with_sets, width, is_older: false }
}

pub fn missing() -> Loaded {
    Loaded { bytes: Vec::new(), unread: Some(Unread::Missing) }
}

pub fn text(bytes: &[u8]) -> Loaded {
    Loaded { bytes: bytes.to_vec(), unread: None }
}

/// A folder with these texts alone, by their names.
pub fn folder(given: &[(&str, &[u8])]) -> Texts {
    let of = |name: &str| given.iter().find(|(given, _)| *given == name).map_or_else(missing, |(_, bytes)| text(bytes));
    Texts {
        wide: of("wide.txt"),
        schema: of("schema.txt"),
        proof: of("proof.txt"),
        model: of("model.txt"),
        names: of("names.txt"),
    }
}

pub fn shown(given: &[(&str, &[u8])], options: &Options) -> Shown {
    show(&folder(given), options)
}
