//! What the check is lent, as an explanation looks at it: rows, nodes with their sets and children, and what each node knows of n.

use crate::counts::Lent;
use crate::notation::Voice;
use crate::rows::Rows;
use zorambi::words::RULES;
use zorambi::{Record, Refusal};
use zorambi_notation::Bound;

pub const MAX_NODES: usize = 1024;
pub const MAX_MEMBERS: usize = 8192;

/// How many children each rule has.
pub const CHILDREN: [usize; 9] = [1, 2, 2, 1, 2, 0, 0, 0, 0];

/// The tables of a record with their counts, as they are lent to the check. They may be shorter than the counts say.
#[derive(Clone, Copy, Debug, Default)]
pub struct Tables<'a> {
    pub schema: &'a [i32],
    pub schema_rows: usize,
    pub proof: &'a [i32],
    pub proof_rows: usize,
    pub root: i32,
    pub least: i32,
    pub nodes: &'a [i32],
    pub node_rows: usize,
    pub members: &'a [i32],
    pub member_count: usize,
}

impl Tables<'_> {
    pub fn lent(&self) -> [Lent; 4] {
        [
            Lent { name: "schema", length: self.schema.len(), rows: self.schema_rows, width: 4 },
            Lent { name: "proof", length: self.proof.len(), rows: self.proof_rows, width: 4 },
            Lent { name: "node", length: self.nodes.len(), rows: self.node_rows, width: 9 },
            Lent { name: "member", length: self.members.len(), rows: self.member_count, width: 1 },
        ]
    }
}

impl<'a> From<&'a Record> for Tables<'a> {
    fn from(record: &'a Record) -> Tables<'a> {
        let Record { schema, proof } = record;
        Tables {
            schema: schema.rows.as_flattened(),
            schema_rows: schema.rows.len(),
            proof: proof.rows.as_flattened(),
            proof_rows: proof.rows.len(),
            root: schema.root,
            least: schema.least,
            nodes: proof.nodes.as_flattened(),
            node_rows: proof.nodes.len(),
            members: &proof.members,
            member_count: proof.members.len(),
        }
    }
}

/// A node's columns by their names.
#[derive(Clone, Copy, Debug)]
pub struct Node {
    pub up: i32,
    pub rule: i32,
    pub on: i32,
    pub with: i32,
    pub other: i32,
    pub to: i32,
    pub by: i32,
    pub start: i32,
    pub length: i32,
}

impl Node {
    /// The rule, if there is one of that number.
    pub fn rule(&self) -> Option<usize> {
        usize::try_from(self.rule).ok().filter(|rule| *rule < RULES.len())
    }

    /// `rule 4, unfold or`.
    pub fn rule_name(&self) -> String {
        match self.rule() {
            Some(rule) => format!("rule {rule}, {}", RULES[rule]),
            None => format!("rule {}", self.rule),
        }
    }

    /// The K of a split that knows this.
    pub fn k(&self, bound: Bound) -> i64 {
        match self.by {
            0 => bound.least,
            by => by.into(),
        }
    }
}

pub struct Tableau<'a> {
    pub rows: Rows,
    pub root: i32,
    pub least: i32,
    pub members: &'a [i32],
    pub nodes: Vec<Node>,
    bounds: Vec<Bound>,
    /// Which child of its parent each node is, from 0.
    order: Vec<usize>,
}

impl<'a> Tableau<'a> {
    pub fn new(tables: &Tables<'a>, voice: &Voice) -> Tableau<'a> {
        let rows = Rows::new([(tables.schema, tables.schema_rows), (tables.proof, tables.proof_rows)], false, voice);
        let members = &tables.members[..tables.members.len().min(tables.member_count)];
        let node_rows = tables.nodes.as_chunks().0.iter().take(tables.node_rows.min(MAX_NODES));
        let nodes: Vec<Node> = node_rows
            .map(|&[up, rule, on, with, other, to, by, start, length]| Node {
                up,
                rule,
                on,
                with,
                other,
                to,
                by,
                start,
                length,
            })
            .collect();
        let mut tableau = Tableau {
            rows,
            root: tables.root,
            least: tables.least,
            members,
            nodes,
            bounds: Vec::new(),
            order: Vec::new(),
        };
        tableau.know();
        tableau
    }

    /// Works out what each node knows, and which child it is.
    fn know(&mut self) {
        let mut children = vec![0_usize; self.nodes.len()];
        for at in 0..self.nodes.len() {
            let parent = self.parent(at);
            let order = parent.map_or(0, |parent| children[parent]);
            if let Some(parent) = parent {
                children[parent] += 1;
            }
            let bound = match parent {
                None => Bound { least: self.least.into(), most: None },
                Some(parent) => {
                    let (node, bound) = (self.nodes[parent], self.bounds[parent]);
                    if node.rule == 2 {
                        bound.split(node.by)[order.min(1)]
                    } else {
                        bound
                    }
                }
            };
            self.order.push(order);
            self.bounds.push(bound);
        }
    }

    /// The parent, if it is a node before it.
    pub fn parent(&self, node: usize) -> Option<usize> {
        usize::try_from(self.nodes[node].up).ok().filter(|up| *up < node)
    }

    pub fn bound(&self, node: usize) -> Bound {
        self.bounds[node]
    }

    /// Which child of its parent it is, from 0.
    pub fn order(&self, node: usize) -> usize {
        self.order[node]
    }

    pub fn children(&self, node: usize) -> Vec<usize> {
        (node + 1..self.nodes.len()).filter(|child| self.parent(*child) == Some(node)).collect()
    }

    /// The members of a node's set that are there.
    pub fn set(&self, node: usize) -> &'a [i32] {
        let Node { start, length, .. } = self.nodes[node];
        let (Ok(start), Ok(length)) = (usize::try_from(start), usize::try_from(length)) else { return &[] };
        let start = start.min(self.members.len());
        &self.members[start..start.saturating_add(length).min(self.members.len())]
    }

    pub fn row(&self, row: i32) -> String {
        self.rows.text(row)
    }

    /// A bound in words: `2 <= n <= 7`.
    pub fn knows(&self, bound: Bound) -> String {
        bound.text(self.rows.voice.style)
    }

    /// The line of a node in its proof's text.
    pub fn line(&self, node: usize) -> usize {
        3 + (self.rows.len() - self.rows.schema_rows()) + node
    }

    /// The place, if it is a node of these tables.
    pub fn node_at(&self, place: Option<usize>) -> Option<usize> {
        place.filter(|place| *place < self.nodes.len())
    }
}

/// The refusals whose place is a node.
pub fn is_of_node(refusal: Refusal) -> bool {
    (9..=17).contains(&refusal.number())
}
