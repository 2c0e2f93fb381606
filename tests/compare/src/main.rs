//! Compares the proved library with the other implementation, group by group. The last line is 'N passed, M failed'.

use std::path::Path;
use std::process::exit;
use zorambi_compare::kinds::Run;
use zorambi_compare::tally::Tally;
use zorambi_compare::{convert, edges, find, grow, heavy, join, least, paper, records, sides, small, tidy};
use zorambi_generate::{across, case, ranges, twice, Case};

const USE: &str = "\
use: zorambi-compare [--least FILE] SEED COUNT RECORDS        the paper's cases, the records below RECORDS, texts and
                                                              tables at the limits, COUNT generated cases; every answer
                                                              has to occur
     zorambi-compare [--least FILE] some SEED COUNT RECORDS   the paper's cases, the records, COUNT generated cases
     zorambi-compare [--least FILE] heavy                     the largest and slowest inputs
With --least, each group and kind has to have at least the number of cases that FILE has for it.";

/// What is compared together, with the name that its counts are printed under.
type Group = (&'static str, fn(&mut Tally, &Run));

/// All that a short run compares.
const SOME: &[Group] = &[
    ("the paper's cases", |tally, _| paper::test(tally)),
    ("shipped records", |tally, run| records::test(tally, run.records)),
    ("shipped records, sides swapped", |tally, run| sides::test(tally, run.records, 1)),
    ("generated cases", generated),
];

/// All that a whole run compares.
const ALL: &[Group] = &[
    ("the paper's cases", |tally, _| paper::test(tally)),
    ("shipped records", |tally, run| records::test(tally, run.records)),
    ("texts and tables at the limits", |tally, _| edges::test(tally)),
    ("shipped records, sides swapped", |tally, run| sides::test(tally, run.records, 20)),
    ("splits at every edge of K", |tally, _| made(tally, "K", &ranges::edges())),
    ("links at every edge of their bounds", |tally, _| made(tally, "links", &across::edges())),
    ("rows written again at every place", |tally, _| made(tally, "rows again", &twice::edges())),
    ("generated cases", generated),
];

/// The entries that are compared by themselves.
const ENTRIES: &[Group] = &[
    ("a model at n", find::test),
    ("wide connectives", convert::test),
    ("small schemata", small::test),
    ("tidying", tidy::test),
    ("joining", join::test),
    ("growing", grow::test),
];

/// Last in a whole run: every answer has occurred, and every kind often enough.
const COVER: &[Group] = &[("what occurred", |tally, _| tally.test_cover())];

/// The largest and slowest inputs of each.
const HEAVY: &[Group] = &[
    ("largest records", |tally, _| heavy::test(tally)),
    ("largest models at n", |tally, _| find::heavy(tally)),
    ("largest wide schemata", |tally, _| convert::heavy(tally)),
    ("all small schemata", |tally, _| small::heavy(tally)),
    ("largest records tidied", |tally, _| tidy::heavy(tally)),
    ("largest records joined", |tally, _| join::heavy(tally)),
    ("largest tableaux grown", |tally, _| grow::heavy(tally)),
];

fn generated(tally: &mut Tally, run: &Run) {
    println!("seed {}, {} generated cases", run.seed, run.count);
    let (mut compared, mut number) = (0, 0);
    while compared < run.count {
        let case = case(run.seed, number);
        let what = format!("seed {} case {number} ({})", run.seed, case.sort);
        compared += u64::from(tally.compare_generated(&what, &case));
        number += 1;
    }
}

/// Splits at every edge of K, links at every edge of their bounds and with every target, or rows written again at
/// every place.
fn made(tally: &mut Tally, what: &str, cases: &[Case]) {
    for (number, case) in cases.iter().enumerate() {
        tally.compare_generated(&format!("edge {number} of {what}"), case);
    }
}

fn wrong_use() -> ! {
    eprintln!("{USE}");
    exit(2)
}

fn main() {
    let arguments: Vec<String> = std::env::args().skip(1).collect();
    let words: Vec<&str> = arguments.iter().map(String::as_str).collect();
    let (least, words) = match words[..] {
        ["--least", file, ref words @ ..] => (Some(least::read(file)), words),
        ref words => (None, words),
    };
    let number = |word: &str| word.parse::<u64>().unwrap_or_else(|_| wrong_use());
    let (groups, seed, count, folder) = match *words {
        ["heavy"] => (vec![HEAVY], 0, 0, ""),
        ["some", seed, count, folder] => (vec![SOME, ENTRIES], number(seed), number(count), folder),
        [seed, count, folder] => (vec![ALL, ENTRIES, COVER], number(seed), number(count), folder),
        _ => wrong_use(),
    };
    let run = Run { seed, count, records: Path::new(folder) };
    let mut tally = Tally::default();
    for (name, test) in groups.concat() {
        tally.test_group(name, |tally| test(tally, &run));
    }
    if let Some(least) = least {
        least::test(&mut tally, &least);
    }
    tally.print();
    exit(i32::from(tally.failed > 0));
}
