//! Prints bindings/python/zorambi/refusals.py: the refusals' numbers and names, and their words as the crate for Rust has them.
//! tests/python.sh holds what is printed against that file.

use std::collections::BTreeMap;
use std::fmt::Display;
use zorambi::words::{about, Known, RULES};
use zorambi::{Refusal, Refused};

/// The words of a refusal where this is known of it; `None` if they are those that it always has.
fn other_words(refusal: Refusal, place: Option<usize>, known: &Known) -> Option<String> {
    let words = about(Refused { refusal, place }, known);
    (words != refusal.to_string()).then_some(words)
}

/// The line of a node with this rule.
fn line_of_rule(rule: usize) -> Vec<u8> {
    format!("0 {rule} -1 -1 -1 -1 0").into_bytes()
}

/// A place that no refusal has words of its own for.
const ANY: Option<usize> = Some(1);

fn python_string(text: &str) -> String {
    format!("\"{}\"", text.replace('\\', "\\\\").replace('"', "\\\""))
}

/// `TextTooLong` as `TEXT_TOO_LONG`.
fn constant_name(refusal: Refusal) -> String {
    let mut name = String::new();
    for c in format!("{refusal:?}").chars() {
        if c.is_uppercase() && !name.is_empty() {
            name.push('_');
        }
        name.extend(c.to_uppercase());
    }
    name
}

fn print_table<K: Display>(about: &str, name: &str, key: &str, entries: &[(K, String)]) {
    println!("\n# {about}\n{name}: Dict[{key}, str] = {{");
    for (key, words) in entries {
        println!("    {key}: {},", python_string(words));
    }
    println!("}}");
}

fn main() {
    println!("\"\"\"The refusals: their numbers, names and words.\n");
    println!("The words stand in bindings/rust. This file is written from there and not by hand: where they change,");
    println!("'cargo run -p zorambi-beside --bin python-refusals' prints it anew.\n\"\"\"\n");
    println!("from enum import IntEnum\nfrom typing import Dict, Optional, Tuple\n\n");
    println!("class Refusal(IntEnum):\n    \"\"\"Why a record, a model or a text is turned away, by the paper's numbers.\"\"\"\n");
    for &refusal in Refusal::ALL {
        println!("    {} = {}", constant_name(refusal), refusal.number());
    }
    println!("\n");
    let rules: Vec<String> = RULES.iter().map(|rule| python_string(rule)).collect();
    println!("# The rules by their numbers.\nRULES = ({})", rules.join(", "));

    let all = || Refusal::ALL.iter().copied();
    let counts = all().filter_map(|refusal| Some((refusal.number(), refusal.place_counts()?.to_string())));
    print_table("What a place counts.", "PLACE_COUNTS", "int", &counts.collect::<Vec<_>>());
    let words = all().map(|refusal| (refusal.number(), refusal.to_string()));
    print_table("What a refusal is about.", "WORDS", "int", &words.collect::<Vec<_>>());

    let mut at_place = Vec::new();
    let mut of_rule = BTreeMap::new();
    let mut no_such_rule = Vec::new();
    let mut growing = Vec::new();
    for refusal in all() {
        let number = refusal.number();
        for (key, place) in [("None", None), ("0", Some(0))] {
            let words = other_words(refusal, place, &Known::default());
            at_place.extend(words.map(|words| (format!("({number}, {key})"), words)));
        }
        for rule in 0..RULES.len() {
            let line = line_of_rule(rule);
            let words = other_words(refusal, ANY, &Known { line: Some(&line), ..Known::default() });
            of_rule.extend(words.map(|words| ((number, rule), words)));
        }
        let line = line_of_rule(RULES.len());
        let words = other_words(refusal, ANY, &Known { line: Some(&line), ..Known::default() });
        no_such_rule.extend(words.map(|words| (number, words)));
        let words = other_words(refusal, ANY, &Known { growing: true, ..Known::default() });
        growing.extend(words.map(|words| (number, words)));
    }
    let of_rule: Vec<(String, String)> = of_rule.into_iter().map(|(key, words)| (format!("{key:?}"), words)).collect();
    print_table("The same at a place that says more.", "AT_PLACE", "Tuple[int, Optional[int]]", &at_place);
    print_table("The same of a node whose rule is known.", "OF_RULE", "Tuple[int, int]", &of_rule);
    print_table("The same of a node that names no rule.", "NO_SUCH_RULE", "int", &no_such_rule);
    print_table("The same of a row that is added to a tableau that grows.", "GROWING", "int", &growing);
}
