//! Why a record, a model, a text or a table was refused. The library gives the number and the place, and it alone; here it is said
//! what the rule asks, what stands there and by how much it fails, in one sentence, then what stands around it, and what to do.
//!
//! What is given may be whatever it is: nothing here panics, and where no reason is seen that is said ([`Why::found`]).

mod alike;
mod counts;
mod fields;
mod formulas;
mod limits;
mod models;
mod next;
mod notation;
mod partners;
mod rows;
mod sets;
mod tableau;
mod texts;
mod tools;
mod why;
mod writing;

pub use fields::{Uses, USES};
pub use next::{Child, Needed};
pub use notation::Voice;
pub use rows::kind_name;
pub use tableau::{Tables, CHILDREN};
pub use texts::{Sort, Text};
pub use why::Why;

use counts::Lent;
use rows::Rows;
use tableau::Tableau;
use writing::Writing;
use zorambi::{Model, Record, Refusal, Refused, Row, Schema};
use zorambi_notation::rules::rule;
use zorambi_notation::Notation;

/// Why the check, or the older check, refuses these tables.
pub fn check(tables: &Tables, refused: Refused, voice: &Voice) -> Why {
    of_tables(tables, refused, voice, false).unwrap_or_else(|| Why::unknown(refused))
}

/// Why a call refuses these tables while a tableau grows, the row that was to be added among them: a child too many is told of the
/// row itself, not of its parent.
pub fn growing(tables: &Tables, refused: Refused, voice: &Voice) -> Why {
    of_tables(tables, refused, voice, true).unwrap_or_else(|| Why::unknown(refused))
}

fn of_tables(tables: &Tables, refused: Refused, voice: &Voice, growing: bool) -> Option<Why> {
    match refused.refusal {
        Refusal::TableTooShort => return counts::too_short(&tables.lent()),
        Refusal::TooMany => return counts::too_many(tables.schema_rows, tables.proof_rows, &tables.lent()),
        _ => {}
    }
    let tableau = Tableau::new(tables, voice);
    if !tableau::is_of_node(refused.refusal) {
        return formulas::why(&tableau.rows, tables.root, tables.least, refused);
    }
    if refused.refusal == Refusal::Parent && refused.place.is_none() {
        return sets::parent(&tableau, None);
    }
    let node = tableau.node_at(refused.place)?;
    match refused.refusal {
        Refusal::Set => sets::set(&tableau, node),
        Refusal::Parent => sets::parent(&tableau, Some(node)),
        Refusal::Drawn => sets::drawn(&tableau, node),
        Refusal::Fields => fields::fields(&tableau, node),
        Refusal::Target => fields::target(&tableau, node),
        Refusal::Bound => limits::bound(&tableau, node),
        Refusal::Partner => partners::unfolded(&tableau, node),
        Refusal::Lowered => partners::lowered(&tableau, node),
        Refusal::Children if growing => fields::child_too_many(&tableau, node),
        Refusal::Children => fields::children(&tableau, node),
        _ => None,
    }
}

/// Why a text is refused in reading.
pub fn text(text: &Text, refused: Refused) -> Why {
    texts::why(text, refused).unwrap_or_else(|| Why::unknown(refused))
}

/// Why a line that is given as a node row, while a tableau grows, is refused in reading; `None` if it is not.
pub fn row(line: &[u8], number: usize, refused: Refused) -> Option<Why> {
    texts::node_row(line, number, refused)
}

/// Why two texts are refused, the schema's first: a record's or, if the second is a model's, a model's. What they are is read and
/// judged by the library again.
pub fn texts([schema, second]: [Text; 2], refused: Refused, voice: &Voice) -> Why {
    let Ok(read) = zorambi::read_schema(schema.bytes) else { return text(&schema, refused) };
    if second.sort == Sort::Model {
        return match zorambi::read_model(second.bytes) {
            Err(_) => text(&second, refused),
            Ok(Model { n, pairs }) => model(&(&read).into(), n, (pairs.as_flattened(), pairs.len()), refused, voice),
        };
    }
    match zorambi::read_proof(second.bytes) {
        Err(_) => text(&second, refused),
        Ok(proof) => check(&Tables::from(&Record { schema: read, proof }), refused, voice),
    }
}

/// Why the tables that are lent for results are refused: their names, lengths and full sizes.
pub fn lent(tables: &[(&str, usize, usize)], refused: Refused) -> Why {
    texts::lent(tables).unwrap_or_else(|| Why::unknown(refused))
}

/// A schema's table with its count, as it is lent.
#[derive(Clone, Copy, Debug)]
pub struct SchemaTable<'a> {
    pub rows: &'a [i32],
    pub count: usize,
    pub root: i32,
    pub least: i32,
}

impl<'a> From<&'a Schema> for SchemaTable<'a> {
    fn from(schema: &'a Schema) -> SchemaTable<'a> {
        let Schema { root, least, rows } = schema;
        SchemaTable { rows: rows.as_flattened(), count: rows.len(), root: *root, least: *least }
    }
}

/// Why the model check refuses this n and these pairs, so many of them.
pub fn model(schema: &SchemaTable, n: i32, pairs: (&[i32], usize), refused: Refused, voice: &Voice) -> Why {
    let (table, count) = pairs;
    let pairs = &table[..table.len().min(count.saturating_mul(2))];
    let lent = [schema_lent(schema), Lent { name: "pair", length: table.len(), rows: count, width: 2 }];
    let rows = Rows::new([(schema.rows, schema.count), (&[], 0)], false, voice);
    let why = match refused.refusal {
        Refusal::Pair => models::pair(pairs, refused.place),
        Refusal::Width => models::width(schema.least, n),
        Refusal::False => models::is_false(&rows, schema.root, n, pairs),
        _ => of_schema(schema, &rows, &lent, refused),
    };
    why.unwrap_or_else(|| Why::unknown(refused))
}

/// Why no model is looked for at this n.
pub fn find(schema: &SchemaTable, n: i32, refused: Refused, voice: &Voice) -> Why {
    let rows = Rows::new([(schema.rows, schema.count), (&[], 0)], false, voice);
    let why = match refused.refusal {
        Refusal::Width => models::width(schema.least, n),
        Refusal::Wires if asked_find(schema, n) == Err(refused) => models::wires(&schema.read(), n),
        _ => of_schema(schema, &rows, &[schema_lent(schema)], refused),
    };
    why.unwrap_or_else(|| Why::unknown(refused))
}

fn asked_find(schema: &SchemaTable, n: i32) -> Result<(), Refused> {
    zorambi::find_model(&schema.read(), n).map(drop)
}

/// Why a wide schema is not converted.
pub fn convert(wide: &SchemaTable, refused: Refused, voice: &Voice) -> Why {
    let rows = Rows::new([(wide.rows, wide.count), (&[], 0)], true, voice);
    let why = match refused.refusal {
        Refusal::Plain => zorambi::convert(&wide.read())
            .is_err_and(|asked| asked == refused)
            .then(|| tools::plain(&wide.read()))
            .flatten(),
        _ => of_schema(wide, &rows, &[schema_lent(wide)], refused),
    };
    why.unwrap_or_else(|| Why::unknown(refused))
}

impl SchemaTable<'_> {
    /// The rows that are there.
    fn read(&self) -> Schema {
        let rows = self.rows.as_chunks().0.iter().take(self.count).copied().collect();
        Schema { root: self.root, least: self.least, rows }
    }
}

fn schema_lent(schema: &SchemaTable) -> Lent {
    Lent { name: "schema", length: schema.rows.len(), rows: schema.count, width: 4 }
}

/// What a pass over a schema's rows refuses.
fn of_schema(schema: &SchemaTable, rows: &Rows, lent: &[Lent], refused: Refused) -> Option<Why> {
    match refused.refusal {
        Refusal::TableTooShort => counts::too_short(lent),
        Refusal::TooMany => counts::too_many(schema.count, 0, lent),
        _ => formulas::why(rows, schema.root, schema.least, refused),
    }
}

/// Why two records that the check accepts are not joined.
pub fn join(first: &Record, second: &Record, refused: Refused) -> Why {
    let asked = || zorambi::join(first, second).is_err_and(|asked| asked == refused);
    let why = match refused.refusal {
        Refusal::Leasts => tools::leasts(first, second),
        Refusal::Joint if asked() => tools::joint(first, second),
        _ => None,
    };
    why.unwrap_or_else(|| Why::unknown(refused))
}

/// Why a row with so many members, or a word, is refused while a tableau grows that holds this record: 24, 25, 26.
pub fn grow(held: &Record, members: usize, refused: Refused) -> Why {
    let why = match refused.refusal {
        Refusal::Room => tools::room(held, members),
        Refusal::NoRow => Some(tools::no_row()),
        Refusal::Waiting => Some(tools::no_waiting()),
        _ => None,
    };
    why.unwrap_or_else(|| Why::unknown(refused))
}

/// Why there is no small table after this one.
pub fn small(table: &[Row], refused: Refused) -> Why {
    tools::small(table).unwrap_or_else(|| Why::unknown(refused))
}

/// Why there are no small tables of so many rows.
pub fn small_rows(rows: usize) -> Why {
    tools::small_rows(rows)
}

/// Why a schema is not written into an output of this length.
pub fn write_schema(schema: &SchemaTable, room: usize, refused: Refused) -> Why {
    let first = [schema.root, schema.least];
    let rows = ("schema", schema.rows, schema.count, 4);
    let writing = Writing { first: &first, rows, nodes: None, headings: SCHEMA_HEADINGS, room };
    writing::why(&writing, refused).unwrap_or_else(|| Why::unknown(refused))
}

/// Why the proof of these tables is not written.
pub fn write_proof(tables: &Tables, room: usize, refused: Refused) -> Why {
    let rows = ("proof", tables.proof, tables.proof_rows, 4);
    let nodes = Some([(tables.nodes, tables.node_rows), (tables.members, tables.member_count)]);
    let writing = Writing { first: &[], rows, nodes, headings: PROOF_HEADINGS, room };
    writing::why(&writing, refused).unwrap_or_else(|| Why::unknown(refused))
}

/// Why a model is not written.
pub fn write_model(n: i32, (pairs, count): (&[i32], usize), room: usize, refused: Refused) -> Why {
    let rows = ("pair", pairs, count, 2);
    let writing = Writing { first: &[n], rows, nodes: None, headings: MODEL_HEADINGS, room };
    writing::why(&writing, refused).unwrap_or_else(|| Why::unknown(refused))
}

/// The bytes of the headings of each text.
const SCHEMA_HEADINGS: usize = "root least\nkind a b c\n".len();
const PROOF_HEADINGS: usize = "kind a b c\nup rule on with other to by set\n".len();
const MODEL_HEADINGS: usize = "n\nsymbol index\n".len();

/// A node as `show` has it: what it knows of n, and what its rule says; `None` if the refusal is of no node.
pub fn node(tables: &Tables, refused: Refused, voice: &Voice) -> Option<String> {
    let tableau = Tableau::new(tables, voice);
    let node = tableau.node_at(refused.place).filter(|_| tableau::is_of_node(refused.refusal))?;
    let row = tables.nodes.as_chunks().0.get(node)?;
    let notation = Notation::new(tableau.rows.all(), &voice.names, voice.style);
    let bound = tableau.bound(node);
    Some(format!("node {node} knows {} and says: {}", tableau.knows(bound), rule(row, Some(bound), &notation)))
}

/// What the next child of a node may have; `None` if there is no such node.
pub fn child(tables: &Tables, parent: usize, voice: &Voice) -> Option<Child> {
    next::child(&Tableau::new(tables, voice), parent)
}

/// The formula rows that the step of a node needs; none if its rule needs none, or if the row that it works on is none.
pub fn needed(tables: &Tables, node: usize, voice: &Voice) -> Vec<Needed> {
    next::needed(&Tableau::new(tables, voice), node).unwrap_or_default()
}
