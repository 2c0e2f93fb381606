//! Shipped records: both implementations, and what their `expected` files say.

use crate::paper::{equal, printed};
use crate::tally::Tally;
use std::fs;
use std::path::{Path, PathBuf};
use zorambi::entries::{check_model_texts, check_older_texts, check_texts};
use zorambi_generate::models::ModelTables;
use zorambi_generate::tables::Tables;
use zorambi_generate::Input;
use zorambi_reference::text;

/// What stands there by the number of its refusal is mostly no record that is read, and no other kind of record has its `expected`.
const BY_NUMBER: &str = "by_number";

/// The folders below `folder` that hold a schema, sorted, but for those by the numbers of refusals.
pub fn folders(folder: &Path) -> Vec<PathBuf> {
    let mut found = Vec::new();
    let Ok(entries) = fs::read_dir(folder) else { return found };
    let is_of_records = |path: &PathBuf| path.is_dir() && !path.ends_with(BY_NUMBER);
    let mut paths: Vec<PathBuf> = entries.flatten().map(|e| e.path()).filter(is_of_records).collect();
    paths.sort();
    for path in paths {
        if path.join("schema.txt").is_file() {
            found.push(path);
        } else {
            found.extend(folders(&path));
        }
    }
    found
}

/// The tables of a record, as the other implementation reads them.
pub fn tables(schema: &[u8], proof: &[u8]) -> Tables {
    let (mut rows, mut proof_rows) = (vec![0; 4096], vec![0; 4096]);
    let (mut nodes, mut members) = (vec![0; 9216], vec![0; 8192]);
    let s = text::read_schema(schema, &mut rows);
    let p = text::read_proof(proof, &mut proof_rows, &mut nodes, &mut members);
    rows.truncate(s.rows * 4);
    proof_rows.truncate(p.rows * 4);
    nodes.truncate(p.nodes * 9);
    members.truncate(p.members);
    Tables {
        root: s.root,
        least: s.least,
        schema: rows,
        schema_count: s.rows,
        proof: proof_rows,
        proof_count: p.rows,
        nodes,
        node_count: p.nodes,
        members,
        member_count: p.members,
    }
}

pub fn test(tally: &mut Tally, folder: &Path) {
    let found = folders(folder);
    tally.test("records", if found.is_empty() { Err(format!("none below {}", folder.display())) } else { Ok(()) });
    for folder in found {
        record(tally, &folder);
    }
}

fn record(tally: &mut Tally, folder: &Path) {
    let name = folder.display().to_string();
    let file = |file: &str| fs::read(folder.join(file)).unwrap_or_default();
    let (schema, proof, model) = (file("schema.txt"), file("proof.txt"), file("model.txt"));
    let expected = String::from_utf8(file("expected")).unwrap_or_default();
    // A record that is marked as older keeps the older check's verdict.
    let check = if folder.join("older").is_file() { check_older_texts } else { check_texts };
    tally.test(&name, equal(&printed(check(&schema, &proof)), expected.trim_end()));

    let t = tables(&schema, &proof);
    tally.compare(&name, &Input::Check(t.clone()));
    tally.compare(&name, &Input::Texts { schema: schema.clone(), proof: proof.clone() });
    tally.compare(&name, &Input::TextsModel { schema: schema.clone(), model: model.clone() });
    tally.compare(&name, &Input::ReadSchema { text: schema.clone(), length: 4096, fill: 3 });
    tally.compare(&name, &Input::ReadProof { text: proof.clone(), lengths: [4096, 9216, 8192], fill: 3 });
    for length in [schema.len(), schema.len() - 1, 65_536] {
        let (root, least, rows) = (t.root, t.least, t.schema.clone());
        let input = Input::WriteSchema { root, least, rows, row_count: t.schema_count, length, fill: 3 };
        tally.compare(&name, &input);
    }
    for length in [proof.len(), proof.len() - 1, 65_536] {
        tally.compare(&name, &Input::WriteProof { proof: t.clone(), length, fill: 3 });
    }
    if !model.is_empty() {
        tally.test(&format!("{name}, model"), equal(&printed(check_model_texts(&schema, &model)), "0 0 0 0"));
        tally.compare(&name, &Input::ReadModel { text: model.clone(), length: 8192, fill: 3 });
        let mut pairs = vec![0; 8192];
        let read = text::read_model(&model, &mut pairs);
        let (n, pair_count) = (read.n, read.pairs);
        tally.compare(&name, &Input::WriteModel { n, pairs: pairs.clone(), pair_count, length: model.len(), fill: 3 });
        let Tables { root, least, schema, schema_count, .. } = t;
        tally.compare(&name, &Input::Model(ModelTables { root, least, schema, schema_count, n, pairs, pair_count }));
    }
}
