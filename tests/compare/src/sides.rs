//! Accepted records with sides of their ands and ors swapped, and a leaf changed or sides regrouped besides.

use crate::records::{folders, tables};
use crate::tally::Tally;
use std::fs;
use std::path::Path;
use zorambi_generate::sides::{swapped, GROWN_LEAF, GROWN_REGROUPED, PROOF_SWAPPED, SCHEMA_SWAPPED};
use zorambi_generate::{Case, Input, Rng};

pub const SORT: &str = "record, sides";

/// Kinds with whether such a record is still accepted.
pub const KINDS: [(&str, bool); 4] =
    [(PROOF_SWAPPED, true), (SCHEMA_SWAPPED, true), (GROWN_LEAF, false), (GROWN_REGROUPED, false)];

pub fn test(tally: &mut Tally, folder: &Path, times: u64) {
    for folder in folders(folder) {
        let file = |name: &str| fs::read(folder.join(name)).unwrap_or_default();
        if !file("expected").starts_with(b"0 ") {
            continue;
        }
        let tree = tables(&file("schema.txt"), &file("proof.txt")).tree();
        for seed in 0..times {
            for (kind, _) in KINDS {
                let rng = &mut Rng::new(seed);
                let Some((tree, aim)) = swapped(&tree, kind, rng) else { continue };
                let case = Case { sort: SORT, input: Input::Check(tree.mostly_once(rng).tables()), aim: Some(aim) };
                tally.compare_generated(&format!("{}, {kind}, seed {seed}", folder.display()), &case);
            }
        }
    }
}
