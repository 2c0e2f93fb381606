//! What records are written with, wherever people read them: formula rows in mathematical notation, names for symbols, what each
//! node knows of n, its rule in words.
//!
//! Nothing here judges: verdicts come from the library. Any numbers may stand in a table; what points nowhere is shown
//! as such.

pub mod bounds;
pub mod names;
pub mod notation;
pub mod rules;

pub use bounds::Bound;
pub use names::Names;
pub use notation::{Notation, Style};
