//! What is known of a schema at n: by the proved model check where a solver finds a model, else by the solver's word.

use crate::circuit::Circuit;
use crate::solver::{Answer, Solver};
use std::path::Path;
use zorambi::words::{about, grouped};
use zorambi::{check_model, Model, Refused, Schema, Verdict, MAX_PAIRS};

/// What is known.
#[derive(Clone, Debug, PartialEq, Eq)]
pub enum Finding {
    /// A model, which the proved model check accepts.
    Proved(Model),
    /// A model with more true pairs than the model check takes: the solver's word.
    TooLong(Model),
    /// That there is no model: the solver's word.
    NoModel,
    /// The solver does not know.
    Nothing,
}

/// Why nothing can be known.
#[derive(Debug)]
pub enum Stopped {
    /// The schema is refused, or n.
    Refused(Refused),
    /// The solver failed, or what it says is wrong.
    Failed(String),
}

impl Finding {
    /// By a solver, which is asked by files in the folder. Of a model only the pairs that are enough are true in what
    /// is checked and given. `running` is as in [`Solver::ask`].
    pub fn of(
        schema: &Schema,
        n: i32,
        solver: &Solver,
        folder: &Path,
        running: &dyn Fn(Option<u32>),
    ) -> Result<Finding, Stopped> {
        let circuit = Circuit::of(schema, n).map_err(Stopped::Refused)?;
        match solver.ask(&circuit, folder, running).map_err(Stopped::Failed)? {
            Answer::Unsatisfiable => Ok(Finding::NoModel),
            Answer::Unknown => Ok(Finding::Nothing),
            Answer::Model(assignment) => {
                let values = circuit.pairs.all().zip(circuit.enough(&assignment));
                let pairs = values.filter(|(_, is_true)| *is_true).map(|(pair, _)| pair).collect();
                checked(schema, Model { n, pairs }, solver)
            }
        }
    }

    /// The model, if there is one.
    pub fn model(&self) -> Option<&Model> {
        match self {
            Finding::Proved(model) | Finding::TooLong(model) => Some(model),
            Finding::NoModel | Finding::Nothing => None,
        }
    }

    /// In words: what it is, and whether it is proved.
    pub fn words(&self) -> String {
        match self {
            Finding::Proved(_) => "a model, accepted by the proved check".to_string(),
            Finding::TooLong(model) => format!(
                "a model, the solver's word: it has {} true pairs, and the proved check takes {}",
                grouped(model.pairs.len() as u64),
                grouped(MAX_PAIRS as u64)
            ),
            Finding::NoModel => "no model, the solver's word".to_string(),
            Finding::Nothing => "no answer: the solver does not know".to_string(),
        }
    }
}

fn checked(schema: &Schema, model: Model, solver: &Solver) -> Result<Finding, Stopped> {
    if model.pairs.len() > MAX_PAIRS {
        return Ok(Finding::TooLong(model));
    }
    match check_model(schema, &model) {
        Verdict::Accepted { .. } => Ok(Finding::Proved(model)),
        Verdict::Refused { refusal, place } => {
            let why = about(Refused { refusal, place }, &Default::default());
            Err(Stopped::Failed(format!(
                "WRONG: what {} gives as a model is none. The proved check refuses it: {why} ({}). Do not rely on this \
                 solver's other answers, nor on 'no model' above",
                solver.name(),
                refusal.number()
            )))
        }
    }
}
