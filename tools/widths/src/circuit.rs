//! The schema at n as a circuit. A row outside iterations is one gate at most, however often it is named; a row of a
//! body is one for each value of i, whichever iterations reach it there; an iteration is one gate with an input for
//! each i of its range. So a circuit is as large as its rows times their ranges.

use crate::pairs::Pairs;
use zorambi::{check_model, Model, Refusal, Refused, Schema, Verdict};

/// What goes into a gate, and comes out of a row.
#[derive(Clone, Copy, Debug, PartialEq, Eq)]
pub enum Signal {
    Value(bool),
    /// The pair of this number, or its negation.
    Pair {
        number: u32,
        negated: bool,
    },
    /// What the gate of this number gives.
    Gate(u32),
}

#[derive(Clone, Copy, Debug, PartialEq, Eq)]
pub enum Connective {
    And,
    Or,
}

/// A gate with two inputs or more, none of them a value.
#[derive(Clone, Copy, Debug)]
pub struct Gate<'a> {
    pub connective: Connective,
    /// The row that it is, and for a row of a body its i.
    pub row: u32,
    pub i: Option<i32>,
    /// Gates among them have smaller numbers.
    pub inputs: &'a [Signal],
}

#[derive(Debug)]
pub struct Circuit {
    pub n: i32,
    pub pairs: Pairs,
    pub root: Signal,
    gates: Gates,
}

impl Circuit {
    /// The schema at n, if the model check finds the schema well formed and n in range; else its refusal.
    pub fn of(schema: &Schema, n: i32) -> Result<Circuit, Refused> {
        judge(schema, n)?;
        let mut rows = Rows::new(schema, n);
        let root = rows.signal(schema.root as usize, None);
        Ok(Circuit { n, pairs: rows.pairs, root, gates: rows.gates })
    }

    pub fn gate_count(&self) -> usize {
        self.gates.heads.len()
    }

    /// All gates, in the order of their numbers.
    pub fn gates(&self) -> impl DoubleEndedIterator<Item = Gate<'_>> + ExactSizeIterator {
        (0..self.gate_count()).map(|number| self.gates.gate(number))
    }

    /// Of the pairs that an assignment makes true, some that are enough: with the others false the root is as true as
    /// before. Where the root is false all of them are kept.
    pub fn enough(&self, assignment: &[bool]) -> Vec<bool> {
        let values = self.values(assignment);
        let is_true = |signal: &Signal| value(*signal, assignment, &values);
        if !is_true(&self.root) {
            return assignment.to_vec();
        }
        let mut kept = Kept { pairs: vec![false; assignment.len()], gates: vec![false; values.len()] };
        kept.keep(self.root);
        for (number, gate) in self.gates().enumerate().rev() {
            if kept.gates[number] {
                // Of an or one true input is enough.
                let most = if gate.connective == Connective::And { gate.inputs.len() } else { 1 };
                gate.inputs.iter().filter(|input| is_true(input)).take(most).for_each(|input| kept.keep(*input));
            }
        }
        kept.pairs
    }

    /// What each gate gives under an assignment to the pairs.
    fn values(&self, assignment: &[bool]) -> Vec<bool> {
        let mut values = Vec::with_capacity(self.gate_count());
        for gate in self.gates() {
            let mut inputs = gate.inputs.iter().map(|input| value(*input, assignment, &values));
            let given = match gate.connective {
                Connective::And => inputs.all(|input| input),
                Connective::Or => inputs.any(|input| input),
            };
            values.push(given);
        }
        values
    }
}

fn value(signal: Signal, assignment: &[bool], gates: &[bool]) -> bool {
    match signal {
        Signal::Value(value) => value,
        Signal::Pair { number, negated } => assignment[number as usize] != negated,
        Signal::Gate(number) => gates[number as usize],
    }
}

/// The pairs that have to be true, and the gates that have to give true.
struct Kept {
    pairs: Vec<bool>,
    gates: Vec<bool>,
}

impl Kept {
    fn keep(&mut self, signal: Signal) {
        match signal {
            Signal::Pair { number, negated: false } => self.pairs[number as usize] = true,
            Signal::Gate(number) => self.gates[number as usize] = true,
            // A pair that is to be false is not kept.
            Signal::Pair { negated: true, .. } | Signal::Value(_) => {}
        }
    }
}

/// The schema and n by the model check, which is given no pair and so can say only of these that they are wrong.
pub fn judge(schema: &Schema, n: i32) -> Result<(), Refused> {
    match check_model(schema, &Model { n, pairs: Vec::new() }) {
        Verdict::Accepted { .. } | Verdict::Refused { refusal: Refusal::False, .. } => Ok(()),
        Verdict::Refused { refusal, place } => Err(Refused { refusal, place }),
    }
}

/// Gates with their inputs one after another.
#[derive(Debug, Default)]
struct Gates {
    heads: Vec<Head>,
    inputs: Vec<Signal>,
}

#[derive(Debug)]
struct Head {
    connective: Connective,
    row: u32,
    i: Option<i32>,
    /// Where its inputs end; they begin where those of the gate before end.
    end: u32,
}

impl Gates {
    fn gate(&self, number: usize) -> Gate<'_> {
        let Head { connective, row, i, end } = self.heads[number];
        let start = if number == 0 { 0 } else { self.heads[number - 1].end };
        Gate { connective, row, i, inputs: &self.inputs[start as usize..end as usize] }
    }

    /// What these come to. Values go, and what is then left alone needs no gate.
    fn join(&mut self, connective: Connective, row: usize, i: Option<i64>, parts: &[Signal]) -> Signal {
        let [neutral, deciding] = [connective == Connective::And, connective == Connective::Or].map(Signal::Value);
        if parts.contains(&deciding) {
            return deciding;
        }
        let start = self.inputs.len();
        self.inputs.extend(parts.iter().filter(|part| **part != neutral));
        match self.inputs.len() - start {
            0 => neutral,
            1 => self.inputs.pop().unwrap_or(neutral),
            _ => {
                let (row, i, end) = (row as u32, i.map(|i| i as i32), self.inputs.len() as u32);
                self.heads.push(Head { connective, row, i, end });
                Signal::Gate(self.heads.len() as u32 - 1)
            }
        }
    }
}

/// The rows of a well-formed schema, gone down from the root.
struct Rows<'a> {
    schema: &'a Schema,
    n: i64,
    pairs: Pairs,
    gates: Gates,
    /// What rows come to: outside iterations, and in bodies at each i from the least on.
    outside: Vec<Option<Signal>>,
    within: Vec<Vec<Option<Signal>>>,
    least_i: i64,
    i_count: usize,
}

impl Rows<'_> {
    fn new(schema: &Schema, n: i32) -> Rows<'_> {
        let pairs = Pairs::occurring(schema, n);
        let n = i64::from(n);
        let iterations = schema.rows.iter().filter(|row| matches!(row[0], 6 | 7));
        let ranges = iterations.map(|[.., b, c]| [i64::from(*b), n - i64::from(*c)]).filter(|[b, last]| b <= last);
        let [least, last] = ranges
            .reduce(|[least, last], [first, to]| [least.min(first), last.max(to)])
            // No iteration has an i.
            .unwrap_or([0, -1]);
        Rows {
            schema,
            n,
            pairs,
            gates: Gates::default(),
            outside: vec![None; schema.rows.len()],
            within: vec![Vec::new(); schema.rows.len()],
            least_i: least,
            i_count: (last - least + 1) as usize,
        }
    }

    /// What a row comes to, in a body at i.
    fn signal(&mut self, row: usize, i: Option<i64>) -> Signal {
        if let Some(known) = *self.place(row, i) {
            return known;
        }
        let [kind, a, b, c] = self.schema.rows[row];
        let signal = match kind {
            2 | 3 => {
                let base = [0, self.n, i.unwrap_or(0)][b as usize];
                let number = self.pairs.number(a, base + i64::from(c)) as u32;
                Signal::Pair { number, negated: kind == 3 }
            }
            4 | 5 => {
                let parts = [a, b].map(|part| self.signal(part as usize, i));
                self.gates.join(connective(kind), row, i, &parts)
            }
            6 | 7 => {
                let range = i64::from(b)..=self.n - i64::from(c);
                let parts: Vec<Signal> = range.map(|i| self.signal(a as usize, Some(i))).collect();
                self.gates.join(connective(kind), row, i, &parts)
            }
            _ => Signal::Value(kind == 0),
        };
        *self.place(row, i) = Some(signal);
        signal
    }

    /// Where it stands what a row comes to.
    fn place(&mut self, row: usize, i: Option<i64>) -> &mut Option<Signal> {
        match i {
            None => &mut self.outside[row],
            Some(i) => {
                let within = &mut self.within[row];
                within.resize(self.i_count, None);
                &mut within[(i - self.least_i) as usize]
            }
        }
    }
}

fn connective(kind: i32) -> Connective {
    if matches!(kind, 4 | 6) {
        Connective::And
    } else {
        Connective::Or
    }
}
