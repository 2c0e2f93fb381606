//! The shipped records: their verdicts are those of their `expected` files, by the older check for those
//! that hold a file `older`, their models are accepted, and their texts are written as they were read.

mod common;

use common::{records, shipped, texts};
use std::fs;
use std::path::Path;
use zorambi::{
    check_model_texts, check_older_texts, check_texts, read_model, read_proof, read_schema, write_model, write_proof,
    write_schema, Judgement, Refusal, Text, Verdict,
};

fn expected(record: &Path) -> Verdict {
    let text = fs::read_to_string(record.join("expected")).unwrap();
    let numbers: Vec<i64> = text.split_whitespace().map(|word| word.parse().unwrap()).collect();
    let [answer, place, nodes, links] = numbers[..] else { panic!("{text}") };
    match Refusal::of_number(answer as u64) {
        None => Verdict::Accepted { nodes: nodes as usize, links: links as usize },
        Some(refusal) => Verdict::Refused { refusal, place: usize::try_from(place).ok() },
    }
}

#[test]
fn verdicts() {
    for (sort, accepted) in [("accepted", true), ("refused", false)] {
        for record in records(sort) {
            let [schema, proof] = texts(&record);
            let older = record.join("older").is_file();
            let check = if older { check_older_texts } else { check_texts };
            let Judgement { verdict, .. } = check(&schema, &proof);
            assert_eq!(verdict, expected(&record), "{}", record.display());
            assert_eq!(verdict.is_accepted(), accepted, "{}", record.display());
        }
    }
}

#[test]
fn both_checks() {
    let mut repeated = 0;
    for record in [records("accepted"), records("refused")].concat() {
        let [schema, proof] = texts(&record);
        let judged = check_texts(&schema, &proof);
        if let Verdict::Refused { refusal: Refusal::Repeated, .. } = judged.verdict {
            repeated += 1;
        } else {
            assert_eq!(check_older_texts(&schema, &proof), judged, "{}", record.display());
        }
    }
    assert!(repeated > 0);
}

#[test]
fn a_row_written_twice() {
    let [schema, proof] = texts(&shipped("refused/row_written_twice"));
    let verdict = Verdict::Refused { refusal: Refusal::Repeated, place: Some(130) };
    assert_eq!(check_texts(&schema, &proof), Judgement { verdict, fault: Some((Text::Proof, 84)) });
    let verdict = expected(&shipped("accepted/rca_zero"));
    assert_eq!(check_older_texts(&schema, &proof), Judgement { verdict, fault: None });
}

#[test]
fn models() {
    let mut found = 0;
    for record in records("refused") {
        if let Ok(model) = fs::read(record.join("model.txt")) {
            let schema = fs::read(record.join("schema.txt")).unwrap();
            assert!(check_model_texts(&schema, &model).verdict.is_accepted(), "{}", record.display());
            assert_eq!(write_model(&read_model(&model).unwrap()).unwrap(), model);
            found += 1;
        }
    }
    assert!(found > 0);
}

#[test]
fn round_trips() {
    for record in [records("accepted"), records("refused")].concat() {
        let [schema, proof] = texts(&record);
        assert_eq!(write_schema(&read_schema(&schema).unwrap()).unwrap(), schema, "{}", record.display());
        assert_eq!(write_proof(&read_proof(&proof).unwrap()).unwrap(), proof, "{}", record.display());
    }
}
