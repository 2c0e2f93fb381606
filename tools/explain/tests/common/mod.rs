//! What the tests have in common: the library's answer as a refusal, and the count of explanations.

#![allow(dead_code)]

use std::collections::BTreeMap;
use zorambi::{Refusal, Refused};
use zorambi_explain::Why;

/// The refusal in a number of the library; `None` if it is a success.
pub fn refused(packed: u64) -> Option<Refused> {
    let refusal = Refusal::of_number(packed >> 39)?;
    Some(Refused { refusal, place: (packed >> 26 & 8191).checked_sub(1).map(|place| place as usize) })
}

/// The numbers of a sentence, in their order.
pub fn numbers_in(line: &str) -> Vec<i64> {
    let words = line.split(|c: char| !c.is_ascii_digit() && c != '-');
    words.filter_map(|word| word.parse().ok()).collect()
}

/// How often each number came, what came without a reason, and what is not true.
#[derive(Default)]
pub struct Count {
    numbers: BTreeMap<u8, usize>,
    wrong: Vec<String>,
}

/// A sentence is one line, and no longer than this.
const LONGEST: usize = 420;

impl Count {
    pub fn take(&mut self, refused: Refused, why: &Why) {
        *self.numbers.entry(refused.refusal.number()).or_default() += 1;
        let lines = [&why.line, &why.mend].into_iter().chain(&why.context);
        let plain = |line: &String| !line.is_empty() && line.bytes().all(|byte| (b' '..=b'~').contains(&byte));
        let fits = why.line.len() <= LONGEST && lines.into_iter().all(plain);
        if !why.found || !fits {
            self.wrong.push(format!("{refused}: {why:?}"));
        }
    }

    pub fn truth(&mut self, held: Result<(), String>) {
        if let Err(line) = held {
            self.wrong.push(format!("not so: {line}"));
        }
    }

    /// All had a reason, and each of these numbers came so often.
    pub fn end(self, numbers: &[u8], least: usize) {
        println!("{:?}", self.numbers);
        assert!(self.wrong.is_empty(), "{}: {:#?}", self.wrong.len(), &self.wrong[..self.wrong.len().min(12)]);
        for number in numbers {
            let times = self.numbers.get(number).copied().unwrap_or_default();
            assert!(times >= least, "refusal {number} came {times} times");
        }
    }
}
