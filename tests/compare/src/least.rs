//! The least numbers of cases: a file with a line `NUMBER NAME` for each group and kind. A group or a kind that is left
//! out, or hardly tried any more, is noticed, and so is one that the file does not have.

use crate::tally::{fits, Tally};
use std::collections::BTreeMap;
use std::fs;
use std::process::exit;

pub fn read(file: &str) -> BTreeMap<String, u64> {
    let text = fs::read_to_string(file).unwrap_or_else(|why| {
        eprintln!("{file}: {why}");
        exit(2)
    });
    text.lines().filter(|line| !line.starts_with('#')).map(|line| numbered(file, line)).collect()
}

fn numbered(file: &str, line: &str) -> (String, u64) {
    let parts = line.split_once(' ').and_then(|(number, name)| Some((name.to_string(), number.parse().ok()?)));
    parts.unwrap_or_else(|| {
        eprintln!("{file}: not a line of the form NUMBER NAME: {line}");
        exit(2)
    })
}

pub fn test(tally: &mut Tally, least: &BTreeMap<String, u64>) {
    let counts = tally.counts();
    for (name, wanted) in least {
        let count = counts.get(name).copied().unwrap_or(0);
        tally.test(name, fits(count >= *wanted, || format!("{count} cases, and at least {wanted} are wanted")));
    }
    for (name, count) in &counts {
        let listed = least.contains_key(name);
        tally.test(name, fits(listed, || format!("{count} cases, and no least number for it: add the line")));
    }
}
