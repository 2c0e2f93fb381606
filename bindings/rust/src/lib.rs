//! The proved check of schema tableaux, and the model check, for programs in Rust.
//!
//! A record is a propositional schema and a closed tableau with loop links for it. If [`check`] accepts
//! it, the schema is false at every natural n from its least value up, under every assignment. So it is if
//! [`check_older`] accepts, which is for older records: in these a proof row may repeat an earlier row. If
//! [`check_model`] accepts a model, the schema is true in it. That these are so is proved of the library
//! that this crate calls; the crate itself only lends it memory and names its answers.
//!
//! Any numbers and any bytes may be given: what comes back is a [`Verdict`], or the text or tables asked
//! for, or a numbered [`Refusal`] with its place. All functions may be called from several threads.
//!
//! ```
//! use zorambi::{check, check_older, Proof, Record, Refusal, Schema, Verdict};
//!
//! // Some p_i for i from 2 to n, and no p_i for i from 2 to n.
//! let schema = Schema {
//!     root: 4,
//!     least: 1,
//!     rows: vec![[2, 0, 2, 0], [3, 0, 2, 0], [7, 0, 2, 0], [6, 1, 2, 0], [4, 2, 3, 0]],
//! };
//! let mut proof = Proof { rows: vec![[7, 0, 2, 1], [2, 0, 1, 0], [6, 1, 2, 1], [3, 0, 1, 0]], ..Proof::default() };
//! proof.push_node([-1, 0, 4, -1, -1, -1, 0], &[4]);
//! proof.push_node([0, 2, -1, -1, -1, -1, 0], &[2, 3]);
//! proof.push_node([1, 7, 2, -1, -1, -1, 0], &[2, 3]);
//! proof.push_node([1, 3, 3, 7, 8, -1, 0], &[2, 3]);
//! proof.push_node([3, 4, 2, 5, 6, -1, 0], &[2, 7, 8]);
//! proof.push_node([4, 8, -1, -1, -1, 1, 1], &[5, 7]);
//! proof.push_node([4, 6, 6, 8, -1, -1, 0], &[6, 8]);
//! let mut record = Record { schema, proof };
//! assert_eq!(check(&record), Verdict::Accepted { nodes: 7, links: 1 });
//!
//! // Node 5 links by 2: it would go below what its target knows of n.
//! record.proof.nodes[5][6] = 2;
//! let verdict = check(&record);
//! assert_eq!(verdict, Verdict::Refused { refusal: Refusal::Bound, place: Some(5) });
//! assert_eq!(verdict.to_string(), "refused: a bound (14) at node 5");
//!
//! // Row 6 is written again, as row 9.
//! record.proof.nodes[5][6] = 1;
//! record.proof.rows.push([2, 0, 1, 0]);
//! assert_eq!(check(&record).to_string(), "refused: a proof row written twice (27) at row 9");
//! assert_eq!(check_older(&record), Verdict::Accepted { nodes: 7, links: 1 });
//! ```
//!
//! The same from texts:
//!
//! ```
//! use zorambi::{check_model_texts, check_texts, read_schema, write_schema, Refusal, Text, Verdict};
//!
//! let schema = b"root least\n1 0\nkind a b c\n2 0 2 0\n6 0 1 0\n";
//! let read = read_schema(schema)?;
//! assert_eq!((read.root, read.least, read.rows.len()), (1, 0, 2));
//! assert_eq!(write_schema(&read)?, schema);
//!
//! // All p_i for i from 1 to n: true at n = 1 if p_1 is.
//! let judged = check_model_texts(schema, b"n\n1\nsymbol index\n0 1\n");
//! assert!(judged.verdict.is_accepted());
//! let judged = check_model_texts(schema, b"n\n1\nsymbol index\n0 2\n");
//! assert_eq!(judged.verdict, Verdict::Refused { refusal: Refusal::False, place: None });
//!
//! let refused = read_schema(b"root least\n007 0\n").unwrap_err();
//! assert_eq!(refused.to_string(), "refused: a line's form (4) at line 2");
//! let judged = check_texts(b"root least\n007 0\n", b"");
//! assert_eq!((judged.verdict, judged.fault), (refused.into(), Some((Text::Schema, 2))));
//! # Ok::<(), zorambi::Refused>(())
//! ```

pub mod entries;
pub mod files;
mod identity;
mod record;
mod sha256;
mod shown;
mod text;
mod verdict;
pub mod words;

pub use identity::IDENTITY;
pub use sha256::{hex, sha256};

pub use record::{check, check_model, check_older, Model, Node, Pair, Proof, Record, Row, Schema};
pub use shown::{json_string, shown, shown_name};
pub use text::{
    check_model_texts, check_older_texts, check_texts, line, read_model, read_proof, read_schema, write_model,
    write_proof, write_schema, Judgement, Text, MAX_PAIRS, MAX_TEXT,
};
pub use verdict::{Refusal, Refused, Verdict};

// A failing width.
mod find;
pub use find::find_model;

// The pairs that occur at a width.
mod occurring;
pub use occurring::{occurring, occurring_ranges};

// Connectives as designers write them.
mod convert;
pub use convert::convert;

// All small schemata.
mod small;
pub use small::{next_small, small, Small};

// Older records, tidied.
mod tidy;
pub use tidy::tidy;

// One record for either fault.
mod join;
pub use join::join;

// A tableau that grows.
mod growing;
pub use growing::{Growing, Standing};
