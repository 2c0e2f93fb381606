//! `join DIR1 DIR2 OUT`: the record for the fault of either, as schema.txt and proof.txt in the folder OUT.

use crate::end::{Ended, Stop};
use crate::out::Out;
use crate::texts::Text;
use std::ffi::OsString;
use zorambi::words::Known;
use zorambi::{check_texts, write_proof, write_schema, Judgement, Record, Refused, Verdict, MAX_TEXT};
use zorambi_commands::Given;
use zorambi_explain::{Sort, Tables, Voice, Why};

pub fn join(given: &Given) -> Result<Ended, Stop> {
    let [first, second, out] = [0, 1, 2].map(|at| &given.names[at]);
    join_records(first, second, out, given.has("--follow"))
}

fn join_records(first: &OsString, second: &OsString, out: &OsString, follow: bool) -> Result<Ended, Stop> {
    let out = Out::named(out)?;
    let first = accepted("first", first, follow)?;
    let second = accepted("second", second, follow)?;
    let joined = zorambi::join(&first, &second).map_err(|refused| {
        let why = zorambi_explain::join(&first, &second, refused);
        Stop::refused(refused, &Known::default(), Some(why), None)
    })?;
    let Record { schema, proof } = &joined;
    let schema_why = |refused| zorambi_explain::write_schema(&schema.into(), MAX_TEXT, refused);
    let proof_why = |refused| zorambi_explain::write_proof(&Tables::from(&joined), MAX_TEXT, refused);
    out.write(&[
        text("schema.txt", write_schema(schema), schema_why)?,
        text("proof.txt", write_proof(proof), proof_why)?,
    ])
}

/// The record in a folder, which the check accepts.
fn accepted(which: &str, folder: &OsString, follow: bool) -> Result<Record, Stop> {
    let texts = [Text::of(folder, Sort::Schema, follow)?, Text::of(folder, Sort::Proof, follow)?];
    let checked = || {
        let record = Text::record(&texts)?;
        let Judgement { verdict, fault } = check_texts(texts[0].bytes(), texts[1].bytes());
        match verdict {
            Verdict::Accepted { .. } => Ok(record),
            Verdict::Refused { refusal, place } => {
                let refused = Refused { refusal, place };
                let why = zorambi_explain::check(&Tables::from(&record), refused, &Voice::default());
                Err(Text::refused_at_fault(fault, &texts, refused, Some(why)))
            }
        }
    };
    checked().map_err(|mut stop| {
        if let Stop::Refused(told) = &mut stop {
            told.below.insert(0, format!("in the {which} record:"));
        }
        stop
    })
}

/// A text of the join with its name. What the check accepts has no number that a text cannot have, but the text may come
/// to be too long.
fn text(
    name: &'static str,
    written: Result<Vec<u8>, Refused>,
    why: impl Fn(Refused) -> Why,
) -> Result<(&'static str, Vec<u8>), Stop> {
    let below = || Some(format!("{name} would have over 65,536 bytes"));
    let told = |refused| Stop::refused(refused, &Known::default(), Some(why(refused)), below());
    written.map(|bytes| (name, bytes)).map_err(told)
}

#[cfg(test)]
mod tests {
    use super::join_records;
    use crate::end::Stop;
    use std::ffi::OsString;
    use std::fs;
    use std::path::{Path, PathBuf};
    use zorambi::{write_proof, write_schema, Proof, Record, Refusal, Schema};

    fn scratch(name: &str) -> PathBuf {
        let folder = std::env::temp_dir().join(format!("zorambi-join-{name}-{}", std::process::id()));
        drop(fs::remove_dir_all(&folder));
        folder
    }

    /// False at once, with this many schema rows.
    fn tiny(rows: usize) -> Record {
        let mut proof = Proof::default();
        proof.push_node([-1, 5, 0, -1, -1, -1, 0], &[0]);
        let mut rows = vec![[0; 4]; rows];
        rows[0] = [1, 0, 0, 0];
        Record { schema: Schema { root: 0, least: 0, rows }, proof }
    }

    /// Four iterations of a literal, each with false, unfolded into proof rows that come after some 950 others; splits below
    /// have all of these rows in their sets.
    fn long() -> Record {
        let mut schema = Schema { root: 0, least: 0, rows: vec![[1, 0, 0, 0]] };
        let mut proof = Proof { rows: (0..950).map(|at| [2, 255, 1, -9000 - at]).collect(), ..Proof::default() };
        for symbol in 0..4 {
            let row = schema.rows.len() as i32;
            schema.rows.extend([[2, symbol, 2, 0], [6, row, 0, 0], [4, schema.root, row + 1, 0]]);
            schema.root = row + 2;
        }
        let first = (schema.rows.len() + proof.rows.len()) as i32;
        let mut set = vec![schema.root];
        for (up, symbol) in (0..4).rev().enumerate() {
            let on = 3 * symbol + 3;
            proof.push_node([up as i32 - 1, 0, on, -1, -1, -1, 0], &set);
            let left = if symbol == 0 { 0 } else { on - 3 };
            set = [left].into_iter().chain((symbol..4).map(|symbol| 3 * symbol + 2)).collect();
            set.sort_unstable();
        }
        for symbol in 0..4 {
            let with = first + 2 * symbol;
            proof.rows.extend([[6, 3 * symbol + 1, 0, 1], [2, symbol, 1, 0]]);
            proof.push_node([3 + symbol, 3, 3 * symbol + 2, with, with + 1, -1, 0], &set);
            set.retain(|row| *row != 3 * symbol + 2);
            set.extend([with, with + 1]);
        }
        let mut up = 7;
        while proof.nodes.len() < 900 {
            proof.push_node([up, 2, -1, -1, -1, -1, 0], &set);
            up = proof.nodes.len() as i32 - 1;
            proof.push_node([up, 5, 0, -1, -1, -1, 0], &set);
        }
        proof.push_node([up, 5, 0, -1, -1, -1, 0], &set);
        Record { schema, proof }
    }

    #[test]
    fn a_text_of_the_join_that_is_too_long() {
        let folder = scratch("long");
        let put = |name: &str, record: &Record| {
            let folder = folder.join(name);
            fs::create_dir_all(&folder).unwrap();
            fs::write(folder.join("schema.txt"), write_schema(&record.schema).unwrap()).unwrap();
            fs::write(folder.join("proof.txt"), write_proof(&record.proof).unwrap()).unwrap();
            folder.into_os_string()
        };
        // With 40 rows before them the members get a digit more.
        let [tiny, rows, long] = [put("tiny", &tiny(1)), put("rows", &tiny(40)), put("long", &long())];
        let out = folder.join("out").into_os_string();
        let joined = |first: &OsString| join_records(first, &long, &out, false);
        let Err(Stop::Refused(told)) = joined(&rows) else { panic!() };
        assert_eq!((told.refused.refusal, told.refused.place), (Refusal::Output, None));
        assert_eq!(told.below, ["proof.txt would have over 65,536 bytes"]);
        assert!(!Path::new(&out).exists());
        assert!(joined(&tiny).is_ok());
        assert_eq!(fs::read_dir(&out).unwrap().count(), 2);
        fs::remove_dir_all(&folder).unwrap();
    }
}
