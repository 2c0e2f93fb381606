//! The proved library beside the other implementation, on the same inputs.
//!
//! * [`calls`]: one case put to both, and all that comes back compared
//! * [`again`]: a text that was read written again, rows that were written read again, from the same cases
//! * [`convert`]: wide connectives written in plain rows
//! * `damage`: damage to what an entry is lent
//! * [`paper`]: the paper's record, its neighbours and its models, with the paper's answers
//! * [`records`]: shipped records, with the answers in their `expected` files
//! * [`sides`]: shipped records with sides of their ands and ors swapped
//! * [`edges`]: texts and tables at the limits of the paper
//! * [`find`]: the first model at an n that is named
//! * [`grow`]: a tableau that grows, by lists of calls
//! * [`heavy`]: the largest and slowest inputs
//! * [`soundness`]: accepted records evaluated
//! * [`kinds`]: how often cases of each kind were compared, for entries that are compared by themselves
//! * [`least`]: the least numbers of cases, so that a group or a kind left out is noticed
//! * [`small`]: all small schemata, one after another
//! * [`tidy`]: older records tidied
//! * [`join`]: two records joined
//! * [`tally`]: what passed and failed, and how often each answer occurred

pub mod again;
pub mod calls;
pub mod convert;
mod damage;
pub mod edges;
pub mod find;
pub mod grow;
pub mod heavy;
pub mod join;
pub mod kinds;
pub mod least;
pub mod paper;
pub mod records;
pub mod sides;
pub mod small;
pub mod soundness;
pub mod tally;
pub mod tidy;
