//! Records and models as tables, and their checks.

use crate::entries;
use crate::verdict::Verdict;

/// A formula row: kind a b c.
pub type Row = [i32; 4];
/// A node row: up rule on with other to by, then its set's start among the members and its length. `to`
/// is a link's target, any node before it. `by` is what a link lowers n by, or a split's K: its first
/// child has n ≤ K, its second n ≥ K + 1. A split's 0 stands for the least n that its node knows of.
pub type Node = [i32; 9];
/// A true pair of a model: symbol index.
pub type Pair = [i32; 2];

/// A schema: its formula rows, one of them as the root, and the least value of n.
#[derive(Clone, Debug, Default, PartialEq, Eq, Hash)]
pub struct Schema {
    pub root: i32,
    pub least: i32,
    pub rows: Vec<Row>,
}

/// A tableau for a schema: further formula rows, which go on counting where the schema's rows end, and
/// nodes with their sets. The sets follow one another in `members`.
#[derive(Clone, Debug, Default, PartialEq, Eq, Hash)]
pub struct Proof {
    pub rows: Vec<Row>,
    pub nodes: Vec<Node>,
    pub members: Vec<i32>,
}

impl Proof {
    /// Adds a node (up rule on with other to by) with its set at the end.
    pub fn push_node(&mut self, [up, rule, on, with, other, to, by]: [i32; 7], set: &[i32]) {
        let number = |count: usize| i32::try_from(count).unwrap_or(i32::MAX);
        let (start, length) = (number(self.members.len()), number(set.len()));
        self.nodes.push([up, rule, on, with, other, to, by, start, length]);
        self.members.extend_from_slice(set);
    }
}

/// A schema and its tableau.
#[derive(Clone, Debug, Default, PartialEq, Eq, Hash)]
pub struct Record {
    pub schema: Schema,
    pub proof: Proof,
}

/// A model: n, and the pairs that are true, strictly ascending.
#[derive(Clone, Debug, Default, PartialEq, Eq, Hash)]
pub struct Model {
    pub n: i32,
    pub pairs: Vec<Pair>,
}

/// A call of an entry with records, each as its tables, counts, root and least value, and with what it is given
/// besides.
macro_rules! on_records {
    ($entry:path, [$($record:expr),*] $(, $more:expr)*) => {
        $entry(
            $(
                $record.schema.rows.as_flattened(),
                $record.schema.rows.len(),
                $record.proof.rows.as_flattened(),
                $record.proof.rows.len(),
                $record.schema.root,
                $record.schema.least,
                $record.proof.nodes.as_flattened(),
                $record.proof.nodes.len(),
                &$record.proof.members,
                $record.proof.members.len(),
            )*
            $($more,)*
        )
    };
}
pub(crate) use on_records;

/// Checks a record. If it is accepted, its schema is false at every natural n from the least value up,
/// under every assignment. A proof row that equals an earlier schema or proof row is refused.
pub fn check(record: &Record) -> Verdict {
    Verdict::of_packed(on_records!(entries::check, [record]))
}

/// Checks an older record: the same, but proof rows may repeat. Where [`check`] says anything else than
/// [`Refusal::Repeated`](crate::Refusal::Repeated), both say the same.
pub fn check_older(record: &Record) -> Verdict {
    Verdict::of_packed(on_records!(entries::check_older, [record]))
}

/// Checks a model. If it is accepted, the schema is true at its n where exactly its pairs are true.
pub fn check_model(schema: &Schema, model: &Model) -> Verdict {
    Verdict::of_packed(entries::check_model(
        schema.rows.as_flattened(),
        schema.rows.len(),
        schema.root,
        schema.least,
        model.n,
        model.pairs.as_flattened(),
        model.pairs.len(),
    ))
}
