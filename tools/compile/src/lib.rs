//! Compiles a schema as designers write it to a wide schema. `docs/LANGUAGE.md` is the language's reference.
//!
//! ```
//! let source = b"least 1\nformula some i from 2 to n-1: x[i] xor x[i]\n";
//! let compiled = zorambi_compile::compile(source)?;
//! assert_eq!((compiled.schema.root, compiled.schema.least), (2, 1));
//! assert_eq!(compiled.schema.rows, [[2, 0, 2, 0], [11, 0, 0, 0], [7, 1, 2, 1]]);
//! assert_eq!(compiled.names, [(0, "x".to_string())]);
//!
//! let source = b"formula all i from 1 to n and x[i]\n";
//! let fault = zorambi_compile::compile(source).unwrap_err();
//! let told = "block.zor:1:27: expected ':' after the range, found 'and'\n  \
//!             formula all i from 1 to n and x[i]\n                            ^\n";
//! assert_eq!(fault.told("block.zor", source), told);
//! # Ok::<(), zorambi_compile::Fault>(())
//! ```
//!
//! * `source`: the bytes, and a fault with its line and column
//! * `lexer`: words, numbers and signs
//! * `symbols`: the numbers of symbols
//! * `parser`: items and formulas
//! * `rows`: formula rows, each written once, and the limits on them
//! * `words`: what is said of each mistake

mod lexer;
mod parser;
mod rows;
mod source;
mod symbols;
mod words;

pub use source::{Fault, Place, MAX_SOURCE};

use zorambi::Schema;

/// What a source comes to.
#[derive(Clone, Debug, PartialEq, Eq)]
pub struct Compiled {
    /// The wide schema.
    pub schema: Schema,
    /// The symbols that have a name of their own: number and name, ascending.
    pub names: Vec<(i32, String)>,
}

impl Compiled {
    /// The names as `names.txt` has them: a line `NUMBER NAME` for each.
    pub fn names_text(&self) -> String {
        self.names.iter().map(|(number, name)| format!("{number} {name}\n")).collect()
    }
}

/// Compiles a source. What comes out is a wide schema that the library's [`convert`](zorambi::convert) takes.
pub fn compile(source: &[u8]) -> Result<Compiled, Fault> {
    let text = source::text(source)?;
    let tokens = lexer::tokens(text)?;
    let symbols = symbols::numbered(&tokens)?;
    let parsed = parser::parse(text, &tokens, &symbols)?;
    let (schema, places) = parsed.rows.schema(parsed.root, parsed.least)?;
    match zorambi::convert(&schema) {
        Ok(_) => Ok(Compiled { schema, names: symbols.names() }),
        Err(refused) => {
            let row = refused.place.filter(|_| refused.refusal.place_counts() == Some("row"));
            let at = places[row.unwrap_or(schema.root as usize)];
            Err(Fault::new(at, words::refused(refused, &schema)))
        }
    }
}
