//! A record that can be read: its formulas, its tableau as a tree, its model's values, and why it is refused if it is.
//!
//! Nothing here judges: verdicts come from the library. Any numbers may stand in a table; what points nowhere is shown
//! as such.

mod formulas;
pub mod model;
mod sheet;
mod show;
pub mod tree;

pub use show::{read_names, show, Options, Shown, Texts};
// A page that shows a record needs them too.
pub use zorambi_notation::{bounds, names, notation, rules, Bound, Names, Notation, Style};
