//! What passed and failed, and how often each answer occurred.

use crate::again::{way, WAYS};
use crate::calls::{of_library, of_reference, Seen};
use crate::sides as of_records;
use crate::soundness::Soundness;
use std::collections::BTreeMap;
use zorambi_generate::cases::{ACROSS, EXACT_ANCESTOR, RANGES, SIDES, TWICE};
use zorambi_generate::sides::{self, Comes};
use zorambi_generate::{across, exact, ranges, twice, Aim, Case, Input};

/// The entries by what they do, as columns of the table of answers.
const GROUPS: [&str; 6] = ["check", "older", "model", "read", "write", "program"];
const OLDER: usize = 1;

/// The answers that there are.
const ANSWERS: [usize; 24] = [0, 1, 2, 3, 4, 5, 6, 7, 8, 9, 10, 11, 12, 13, 14, 15, 16, 17, 18, 19, 20, 21, 22, 27];

/// How often something was checked, accepted, and accepted with links; how often a proof row is written twice in it, and
/// how often the older check accepts that.
#[derive(Clone, Copy, Default)]
struct Accepted {
    cases: u64,
    accepted: u64,
    linked: u64,
    twice: u64,
    older: u64,
}

/// How often cases of one kind were compared, and what came of them under the older check at the node that they are
/// about, at an earlier and at a later one; how often the check answers 27.
#[derive(Clone, Copy, Default)]
struct Aimed {
    cases: u64,
    accepted: u64,
    at: u64,
    earlier: u64,
    later: u64,
    twice: u64,
}

#[derive(Default)]
pub struct Tally {
    pub passed: u64,
    pub failed: u64,
    /// By group and answer.
    answers: [[u64; 28]; GROUPS.len()],
    /// Ways there and back.
    ways: [u64; WAYS.len()],
    /// Generated tableaux by sort.
    tableaux: BTreeMap<&'static str, Accepted>,
    /// Generated tableaux that are made to show one thing, by their sort and kind.
    aimed: BTreeMap<(&'static str, &'static str), Aimed>,
    pub soundness: Soundness,
    /// How often something was compared, by what it was, for the least numbers.
    counted: BTreeMap<String, u64>,
}

fn group(input: &Input) -> Option<usize> {
    match input {
        Input::Check(_) => Some(0),
        Input::CheckOlder(_) => Some(1),
        Input::Model(_) => Some(2),
        Input::ReadSchema { .. } | Input::ReadProof { .. } | Input::ReadModel { .. } => Some(3),
        Input::WriteSchema { .. } | Input::WriteProof { .. } | Input::WriteModel { .. } => Some(4),
        Input::Texts { .. } | Input::TextsOlder { .. } | Input::TextsModel { .. } => Some(5),
        Input::Line { .. } | Input::LineNumbers { .. } | Input::Compare { .. } => None,
    }
}

/// A result by whether something holds.
pub(crate) fn fits(holds: bool, why: impl FnOnce() -> String) -> Result<(), String> {
    if holds {
        Ok(())
    } else {
        Err(why())
    }
}

impl Tally {
    pub fn test(&mut self, what: &str, result: Result<(), String>) {
        match result {
            Ok(()) => self.passed += 1,
            Err(why) => {
                self.failed += 1;
                if self.failed <= 30 {
                    println!("FAILED {what}: {why}");
                }
            }
        }
    }

    /// A group of tests: its counts are printed, and there is at least one test in it.
    pub fn test_group(&mut self, name: &str, tests: impl FnOnce(&mut Tally)) {
        let (passed, failed) = (self.passed, self.failed);
        tests(self);
        let (passed, failed) = (self.passed - passed, self.failed - failed);
        println!("group {name}: {passed} passed, {failed} failed");
        self.count_cases(name, passed + failed);
    }

    /// So many cases of this name were compared.
    pub fn count_cases(&mut self, name: &str, cases: u64) {
        *self.counted.entry(name.to_string()).or_default() += cases;
    }

    /// How often something was compared, by what it was.
    pub fn counts(&self) -> BTreeMap<String, u64> {
        let mut counts = self.counted.clone();
        for (sort, of_sort) in &self.tableaux {
            counts.insert(format!("generated tableaux: {sort}"), of_sort.cases);
        }
        for ((sort, kind), of_kind) in &self.aimed {
            counts.insert(format!("{sort}: {kind}"), of_kind.cases);
        }
        counts.extend(self.soundness.counts());
        counts
    }

    /// The answer and its place are those that are expected.
    pub fn test_answer(&mut self, what: &str, seen: &Seen, expected: (u64, i64)) {
        let found = (seen.answer(), seen.place());
        self.test(what, fits(found == expected, || format!("{found:?}, expected {expected:?}")));
    }

    fn count(&mut self, group: usize, answer: u64) {
        if let Some(times) = self.answers[group].get_mut(answer as usize) {
            *times += 1;
        }
    }

    /// Puts a case to both implementations, one for the check to the older check too; false if the library has no
    /// entry for it.
    pub fn compare(&mut self, what: &str, input: &Input) -> bool {
        self.compare_both(what, input).is_some()
    }

    /// The same; gives what the library does, and under the older check.
    fn compare_both(&mut self, what: &str, input: &Input) -> Option<(Seen, Option<Seen>)> {
        let ours = self.put(what, input)?;
        let older = input.older().and_then(|older| self.put(&format!("{what}, older"), &older));
        if let (Some(older), Some(_)) = (&older, group(input)) {
            // The two agree but for 27, which the older check does not know.
            let agree = if ours.answer() == 27 { older.answer() != 27 } else { ours == *older };
            self.test(what, fits(agree, || format!("check {:#x}, older check {:#x}", ours.packed, older.packed)));
        }
        // What the check accepts, the older one accepts too.
        if let (Input::Check(tables), Some(older)) = (input, older.as_ref().filter(|older| older.answer() == 0)) {
            let result = self.soundness.try_accepted(tables, older.packed);
            self.test(what, result);
        }
        Some((ours, older))
    }

    fn put(&mut self, what: &str, input: &Input) -> Option<Seen> {
        let ours = of_library(input)?;
        let difference = ours.difference(&of_reference(input));
        self.test(what, difference.map_or(Ok(()), Err));
        if let Some(group) = group(input) {
            self.count(group, ours.answer());
        }
        if let Some((way, back, expected)) = way(input, &ours) {
            let same = fits(back == expected, || format!("comes back otherwise: {:#x}", back.packed));
            self.test(&format!("{what}, there and back"), same);
            self.ways[way] += 1;
        }
        Some(ours)
    }

    /// The same with a generated case; tableaux are counted by their sort.
    pub fn compare_generated(&mut self, what: &str, case: &Case) -> bool {
        let Some((ours, older)) = self.compare_both(what, &case.input) else { return false };
        if let (Input::Check(t), Some(older)) = (&case.input, older) {
            let accepted = ours.answer() == 0;
            let links = t.nodes.chunks_exact(9).take(t.node_count).filter(|node| node[1] == 8).count();
            let counts = self.tableaux.entry(case.sort).or_default();
            counts.cases += 1;
            counts.accepted += u64::from(accepted);
            counts.linked += u64::from(accepted && links > 0);
            counts.twice += u64::from(ours.answer() == 27);
            counts.older += u64::from(ours.answer() == 27 && older.answer() == 0);
            if let Some(aim) = &case.aim {
                let expected = aim.answers(t);
                self.judge_aim(what, case.sort, aim, expected, [&ours, &older]);
            }
        }
        true
    }

    /// A case that is made to show one thing: what is expected of it, and its counts.
    fn judge_aim(
        &mut self,
        what: &str,
        sort: &'static str,
        aim: &Aim,
        expected: Option<[(u8, i32); 2]>,
        seen: [&Seen; 2],
    ) {
        let found = seen.map(|seen| (seen.answer(), seen.place()));
        if let Some(expected) = expected {
            let as_made = found == expected.map(|(answer, at)| (u64::from(answer), i64::from(at)));
            self.test(what, fits(as_made, || format!("answers and places {found:?}, made for {expected:?}")));
        }
        let [(present, _), (answer, place)] = found;
        for kind in &aim.kinds {
            let counts = self.aimed.entry((sort, kind)).or_default();
            let node = i64::from(aim.node);
            counts.cases += 1;
            counts.accepted += u64::from(answer == 0);
            counts.at += u64::from(answer > 0 && place == node);
            counts.earlier += u64::from(answer > 0 && place < node);
            counts.later += u64::from(answer > 0 && place > node);
            counts.twice += u64::from(present == 27);
        }
    }

    fn aimed(&self, sort: &'static str, kind: &'static str) -> Aimed {
        self.aimed.get(&(sort, kind)).copied().unwrap_or_default()
    }

    fn times(&self, answer: usize) -> u64 {
        self.answers.iter().map(|group| group[answer]).sum()
    }

    fn all_tableaux(&self) -> Accepted {
        self.tableaux.values().fold(Accepted::default(), |sum, counts| Accepted {
            cases: sum.cases + counts.cases,
            accepted: sum.accepted + counts.accepted,
            linked: sum.linked + counts.linked,
            twice: sum.twice + counts.twice,
            older: sum.older + counts.older,
        })
    }

    /// Every answer has occurred; a fifth of the generated tableaux are accepted, and half of those
    /// have links.
    pub fn test_cover(&mut self) {
        let occurred = |times: u64| fits(times > 0, || "never occurred".to_string());
        for answer in ANSWERS {
            self.test(&format!("answer {answer}"), occurred(self.times(answer)));
        }
        for (way, times) in WAYS.into_iter().zip(self.ways) {
            self.test(&format!("{way}, there and back"), occurred(times));
        }
        // What the older check can answer has occurred there.
        for answer in [0, 2, 5, 6, 7, 8, 9, 10, 11, 12, 13, 14, 15, 16, 17] {
            self.test(&format!("answer {answer} of the older check"), occurred(self.answers[OLDER][answer]));
        }
        let Accepted { cases, accepted, linked, .. } = self.all_tableaux();
        let enough = |holds: bool| fits(holds, || "too few".to_string());
        self.test("a fifth of the tableaux accepted", enough(cases > 0 && accepted * 5 >= cases));
        self.test("half of those with links", enough(accepted > 0 && linked * 2 >= accepted));
        for (kind, at, earlier) in exact::KINDS {
            let counts = self.aimed(EXACT_ANCESTOR, kind);
            let fits = (counts.at > 0) == at
                && (counts.earlier > 0) == earlier
                && counts.later + counts.accepted == 0
                && counts.twice < counts.cases;
            self.test(&format!("link to an exact ancestor, {kind}"), enough(fits));
        }
        for (kind, comes) in sides::KINDS {
            let counts = self.aimed(SIDES, kind);
            let refused = counts.at + counts.earlier + counts.later;
            let fits = match comes {
                Comes::Accepted => counts.accepted > 0 && refused == 0,
                Comes::Refused => refused > 0 && counts.accepted == 0,
                Comes::MostlyRefused => refused > counts.accepted,
            };
            self.test(&format!("sides, {kind}"), enough(fits && counts.twice < counts.cases));
        }
        let of_ranges = ranges::kinds().map(|(kind, answer)| (RANGES, kind, answer));
        let of_across = across::kinds().map(|(kind, answer)| (ACROSS, kind, answer));
        for (sort, kind, answer) in of_ranges.chain(of_across) {
            let counts = self.aimed(sort, kind);
            let as_made = if answer == 0 { counts.accepted } else { counts.at };
            self.test(&format!("{sort}, {kind}"), enough(as_made == counts.cases && counts.twice < counts.cases));
        }
        for (kind, [present, older]) in twice::kinds() {
            let counts = self.aimed(TWICE, kind);
            let of_older = if older == 0 { counts.accepted } else { counts.at };
            let twice = if present == 27 { counts.cases } else { 0 };
            let fits = counts.cases > 0 && of_older == counts.cases && counts.twice == twice;
            self.test(&format!("{TWICE}, {kind}"), enough(fits));
        }
        for (kind, accepted) in of_records::KINDS {
            let counts = self.aimed(of_records::SORT, kind);
            let fits = counts.twice < counts.cases && counts.accepted == if accepted { counts.cases } else { 0 };
            self.test(&format!("sides of a record, {kind}"), enough(fits));
        }
    }

    pub fn print(&self) {
        println!("answer{}      all", GROUPS.map(|group| format!("{group:>9}")).concat());
        for answer in ANSWERS {
            let row: String = self.answers.iter().map(|group| format!("{:>9}", group[answer])).collect();
            println!("{answer:>6}{row}{:>9}", self.times(answer));
        }
        let ways: Vec<String> = WAYS.iter().zip(self.ways).map(|(way, times)| format!("{way} {times}")).collect();
        println!("there and back: {}", ways.join(", "));
        let heads = ["cases", "accepted", "with links", "row twice", "older yes"];
        println!("{:26}{}", "generated tableaux", heads.map(|head| format!("{head:>12}")).concat());
        let all = self.all_tableaux();
        for (sort, counts) in self.tableaux.iter().chain([(&"all", &all)]) {
            let Accepted { cases, accepted, linked, twice, older } = *counts;
            let numbers = [cases, accepted, linked, twice, older].map(|number| format!("{number:>12}"));
            println!("{sort:26}{}", numbers.concat());
        }
        let Aimed { cases, at, earlier, .. } = self.aimed(EXACT_ANCESTOR, exact::ANY);
        println!("links to an exact ancestor: {cases} compared, {at} with 14 at the link, {earlier} with 14 earlier");
        let heads = ["cases", "accepted", "there", "earlier", "later", "twice"];
        println!("{:66}{}", "made for", heads.map(|head| format!("{head:>9}")).concat());
        for ((sort, kind), counts) in &self.aimed {
            let Aimed { cases, accepted, at, earlier, later, twice } = *counts;
            let numbers = [cases, accepted, at, earlier, later, twice].map(|number| format!("{number:>9}"));
            println!("{:66}{}", format!("{sort}: {kind}"), numbers.concat());
        }
        self.soundness.print();
        for (name, cases) in self.counts() {
            println!("counted {cases} {name}");
        }
        println!("{} passed, {} failed", self.passed, self.failed);
    }
}
