//! What can be done below a node: the rows that its next child may have, and the rules. Which rules can apply is the library's word: it is
//! asked about rows with each of them, and where it takes none, the refusal of the one that got furthest says why not.

use crate::held::{why_not, Held};
use zorambi::words::RULES;
use zorambi::{Growing, Record, Refusal, Refused};
use zorambi_explain::{child, kind_name, Child, Tables, Uses, Voice, USES};
use zorambi_show::bounds;

/// Rows that the library is asked about for one rule.
const TRIED: usize = 4000;

/// A rule below a node.
pub struct Offer {
    pub rule: usize,
    /// Why it cannot apply; none if it can.
    pub why_not: Option<String>,
    pub fields: Vec<Field>,
}

/// A field that a rule uses, and what may be chosen for it.
pub struct Field {
    pub name: &'static str,
    /// What it has to be: `an and (kind 4)`.
    pub wants: String,
    /// Rows, or for `to` nodes.
    pub choices: Vec<i32>,
    /// What stands there to begin with.
    pub first: i32,
}

pub struct Offers {
    pub child: Child,
    /// The rows that its set has to begin with: all but the one that its parent's rule took apart.
    pub ticked: Vec<i32>,
    pub rules: Vec<Offer>,
}

/// What can be done below a node; without one the first node is asked about, whose set is the root.
pub fn offers(held: &Held, parent: Option<usize>) -> Option<Offers> {
    let record = held.growing.record();
    let child = match parent {
        Some(parent) => child(&Tables::from(&record), parent, &held.voice)?,
        None => {
            let gives = "the first node has the root alone as its set".to_string();
            Child { set: Vec::new(), given: vec![record.schema.root], gives }
        }
    };
    let mut set: Vec<i32> = child.set.iter().chain(&child.given).copied().collect();
    set.sort_unstable();
    set.dedup();
    let rows: Vec<[i32; 4]> = record.schema.rows.iter().chain(&record.proof.rows).copied().collect();
    let nodes = record.proof.nodes.len();
    let up = parent.map_or(-1, |parent| parent as i32);
    let taken_apart = parent.map_or(-1, |parent| record.proof.nodes[parent][2]);
    let ticked = set.iter().copied().filter(|row| *row != taken_apart || child.given.contains(row)).collect();
    let lowered = known(record, up);
    let mut asked = Asked { growing: held.growing.clone(), voice: &held.voice, up, set, rows, nodes, lowered };
    let rules = (0..RULES.len()).map(|rule| asked.offer(rule)).collect();
    Some(Offers { child, ticked, rules })
}

/// By how much n may be lowered below a node: what is known of it there beyond the least value.
fn known(mut record: Record, up: i32) -> i64 {
    record.proof.push_node([up, 0, -1, -1, -1, -1, 0], &[]);
    let bound = bounds::work_out(&record).pop().flatten();
    bound.map_or(0, |bound| bound.least - i64::from(record.schema.least))
}

/// The library, asked about rows below one node with all that it may have as their set.
struct Asked<'a> {
    growing: Growing,
    voice: &'a Voice,
    up: i32,
    set: Vec<i32>,
    rows: Vec<[i32; 4]>,
    nodes: usize,
    lowered: i64,
}

impl Asked<'_> {
    fn offer(&mut self, rule: usize) -> Offer {
        Offer { rule, fields: self.fields(rule), why_not: self.why_not(rule) }
    }

    /// The rows of a kind in the set.
    fn of_kind(&self, kind: i32) -> Vec<i32> {
        let is_it = |row: &i32| self.rows.get(*row as usize).is_some_and(|row| row[0] == kind);
        self.set.iter().copied().filter(is_it).collect()
    }

    fn fields(&self, rule: usize) -> Vec<Field> {
        let Uses { on, with, other, to } = USES[rule];
        // Where there is one row to choose it is chosen.
        let of_set = |name, kind| {
            let choices = self.of_kind(kind);
            let first = if let [only] = choices[..] { only } else { -1 };
            Field { name, wants: kind_name(kind), choices, first }
        };
        let of_all = |name, wants, choices| Field { name, wants, choices, first: -1 };
        let mut fields = Vec::new();
        if let Some(kind) = on {
            fields.push(of_set("on", kind));
        }
        if let Some(kind) = with {
            // The shortened iteration need not be in the set.
            let all = (0..self.rows.len() as i32).filter(|row| self.rows[*row as usize][0] == kind);
            fields.push(if other { of_all("with", kind_name(kind), all.collect()) } else { of_set("with", kind) });
        }
        if other {
            fields.push(of_all("other", "the instance, a row".to_string(), (0..self.rows.len() as i32).collect()));
        }
        if to {
            fields.push(of_all("to", "a node before it".to_string(), (0..self.nodes as i32).collect()));
        }
        let by = |wants: &str, first| Field { name: "by", wants: wants.to_string(), choices: Vec::new(), first };
        match RULES[rule] {
            "split" => fields.push(by("K, the largest n of the first child; 0 is the least n", 0)),
            "loop" => fields.push(by("by how much n is smaller there", 1)),
            _ => {}
        }
        fields
    }

    /// Rows with this rule: on, with, other, to, by.
    fn tries(&self, rule: usize) -> Vec<[i32; 5]> {
        let Uses { on, with, other, to } = USES[rule];
        match (on, with) {
            // Whatever it unfolds to, what comes before that is judged first.
            (Some(kind), Some(_)) if other => self.of_kind(kind).into_iter().map(|on| [on, on, on, -1, 0]).collect(),
            (Some(kind), Some(with)) => {
                let withs = self.of_kind(with);
                let pairs = self.of_kind(kind).into_iter();
                pairs.flat_map(|on| withs.iter().map(move |with| [on, *with, -1, -1, 0])).collect()
            }
            (Some(kind), None) => self.of_kind(kind).into_iter().map(|on| [on, -1, -1, -1, 0]).collect(),
            _ if to => {
                let bys = 1..=self.lowered.clamp(1, TRIED as i64) as i32;
                let links = bys.flat_map(|by| (0..self.nodes as i32).rev().map(move |to| [-1, -1, -1, to, by]));
                links.take(TRIED + 1).collect()
            }
            _ => vec![[-1, -1, -1, -1, 0]],
        }
    }

    fn why_not(&mut self, rule: usize) -> Option<String> {
        let mut furthest: Option<([i32; 7], Refused)> = None;
        let tries = self.tries(rule);
        for &[on, with, other, to, by] in tries.iter().take(TRIED) {
            let row = [self.up, rule as i32, on, with, other, to, by];
            match self.growing.enquire(row, &self.set) {
                Ok(_) => return None,
                // All fits but the rows that it unfolds to, and these can be written.
                Err(refused) if refused.refusal == Refusal::Partner => return None,
                Err(refused) => {
                    let number = |refused: &Refused| refused.refusal.number();
                    if furthest.as_ref().is_none_or(|(_, before)| number(before) < number(&refused)) {
                        furthest = Some((row, refused));
                    }
                }
            }
        }
        Some(match furthest {
            Some((row, refused)) => {
                let why = why_not(&self.growing, row, &self.set, refused, self.voice).line;
                let more = if tries.len() > TRIED { "; others than the first 4,000 were not tried" } else { "" };
                format!("{why}{more}")
            }
            None => self.no_try(rule),
        })
    }

    /// Why no row could be asked about.
    fn no_try(&self, rule: usize) -> String {
        let missing = |kind: Option<i32>| kind.filter(|kind| self.of_kind(*kind).is_empty());
        match missing(USES[rule].on).or(missing(USES[rule].with)) {
            Some(kind) => format!("no row that it may have is {}", kind_name(kind)),
            None => "there is no node before it".to_string(),
        }
    }
}
