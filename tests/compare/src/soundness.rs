//! Soundness by experiment: the root of an accepted record is true nowhere that we look.

use crate::calls::check_model;
use zorambi_generate::models::{find_model, random_assignment, random_pairs, ModelTables};
use zorambi_generate::tables::Tables;
use zorambi_generate::Rng;
use zorambi_reference::formula::Formulas;
use zorambi_reference::model;

pub struct Soundness {
    rng: Rng,
    records: u64,
    evaluations: u64,
    searches: u64,
    models: u64,
    found: u64,
}

impl Default for Soundness {
    fn default() -> Soundness {
        Soundness { rng: Rng::new(1), records: 0, evaluations: 0, searches: 0, models: 0, found: 0 }
    }
}

impl Soundness {
    /// Evaluates the root of an accepted record at n = least to least + 6, looks for a model, and tries
    /// the library's model check on some pairs. The counts of the acceptance are tested too.
    pub fn try_accepted(&mut self, t: &Tables, packed: u64) -> Result<(), String> {
        let links = t.nodes[..9 * t.node_count].chunks_exact(9).filter(|node| node[1] == 8).count() as u64;
        if (packed >> 13 & 8191, packed & 8191) != (t.node_count as u64, links) {
            return Err("counts that are not the tableau's".to_string());
        }
        let formulas = Formulas::new(&t.schema, t.schema_count, &[], 0).ok_or("no rows")?;
        self.records += 1;
        for n in t.least..=t.least + 6 {
            for percent in [10, 50, 90] {
                let assignment = random_assignment(self.rng.bits(), percent);
                self.evaluations += 1;
                if model::value(&formulas, t.root, i64::from(n), &assignment) {
                    self.found += 1;
                    return Err(format!("accepted, and the root is true at n = {n} under a random assignment"));
                }
            }
            self.searches += 1;
            if let Some(fixed) = find_model(&formulas, t.root, n, &mut self.rng, 1, 2000) {
                self.found += 1;
                return Err(format!("accepted, and the root is true at n = {n}: {fixed:?}"));
            }
            let pairs = random_pairs(&mut self.rng);
            let model = ModelTables {
                root: t.root,
                least: t.least,
                schema: t.schema.clone(),
                schema_count: t.schema_count,
                n,
                pair_count: pairs.len() / 2,
                pairs,
            };
            self.models += 1;
            let answer = check_model(&model) >> 39;
            if answer != if n <= 9999 { 20 } else { 19 } {
                self.found += 1;
                return Err(format!("accepted, and the model check answers {answer} at n = {n}"));
            }
        }
        Ok(())
    }

    /// What was tried, by name.
    pub fn counts(&self) -> [(String, u64); 4] {
        [
            ("soundness: accepted records", self.records),
            ("soundness: evaluations", self.evaluations),
            ("soundness: searches for a model", self.searches),
            ("soundness: models put to the model check", self.models),
        ]
        .map(|(name, count)| (name.to_string(), count))
    }

    pub fn print(&self) {
        println!(
            "soundness: {} accepted records; their roots evaluated {} times under random assignments, {} searches \
             for a model, {} models put to the model check; {} true",
            self.records, self.evaluations, self.searches, self.models, self.found
        );
    }
}
