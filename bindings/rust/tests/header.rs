//! The header's entries: each has its function for empty slices, and each is declared for Rust.

const HEADER: &str = include_str!("../../../include/zorambi.h");
const ENTRIES: &str = include_str!("../src/entries.rs");

#[test]
fn every_entry_takes_empty_slices_and_is_declared_for_rust() {
    let entries: Vec<&str> = HEADER
        .lines()
        .filter_map(|line| line.strip_prefix("uint64_t ").or(line.strip_prefix("void ")))
        .filter_map(|line| Some(line.split_once('(')?.0))
        .collect();
    assert!(entries.len() >= 23, "{entries:?}");
    for entry in entries {
        let for_c = entry.replacen("zorambi_", "zorambi_c_", 1);
        assert!(HEADER.contains(&format!("\n#define {entry} {for_c}\n")), "{entry}");
        assert!(HEADER.contains(&format!(" {for_c}(")), "{for_c}");
        assert!(ENTRIES.contains(&format!(" {entry}(")), "{entry}");
    }
}
