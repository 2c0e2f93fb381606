//! Generated cases: everything follows from a seed.
//!
//! * [`rng`]: the pseudo-random numbers
//! * [`pool`]: formulas built up as rows
//! * [`schemata`]: random schemata, and families whose refutation is known by construction
//! * [`prover`]: grows a tableau by the rules
//! * [`tables`]: a tableau as a tree and as tables, and damage to both
//! * [`bounds`]: what the nodes of a tableau know of n
//! * [`sharp`]: tableaux in which one condition decides
//! * [`path`]: a tableau along one path
//! * [`exact`]: links to an exact ancestor
//! * [`ranges`]: splits at every edge of K, and what bounds from both sides decide
//! * [`across`]: links to any node before, and to what is none
//! * [`sides`]: sides of ands and ors swapped
//! * [`twice`]: rows written twice, and rows that differ in little
//! * [`models`]: models, found or at random
//! * [`texts`]: texts, and damage to them
//! * [`cases`]: one case of any sort, and what this implementation answers to it

pub mod across;
pub mod bounds;
pub mod cases;
pub mod exact;
pub mod models;
pub mod path;
pub mod pool;
pub mod prover;
pub mod ranges;
pub mod rng;
pub mod schemata;
pub mod sharp;
pub mod sides;
pub mod tables;
pub mod texts;
pub mod twice;

pub use cases::{case, run, Aim, Case, Input, Outcome};
pub use rng::Rng;
