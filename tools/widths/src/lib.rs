//! A schema at a width: as a circuit, as DIMACS for SAT solvers, as a module in Verilog, and through a range of widths
//! by a solver.
//!
//! * [`pairs`]: the pairs that occur, numbered
//! * [`circuit`]: the schema at n as gates
//! * [`dimacs`]: the circuit as clauses
//! * [`verilog`]: the circuit as a module
//! * [`solver`]: a solver's answer to the clauses
//! * [`finding`]: what is known of a schema at n by a solver and by the proved model check
//!
//! Nothing here is proved. A schema is judged, and a model that a solver finds is checked, by the proved library; that
//! there is no model is the solver's word, and rests on [`circuit`] and [`dimacs`] too.

pub mod circuit;
pub mod dimacs;
pub mod finding;
pub mod pairs;
pub mod solver;
pub mod verilog;

pub use circuit::Circuit;
pub use finding::{Finding, Stopped};
pub use solver::{Answer, Solver};
