//! A circuit as clauses in DIMACS. Each pair that occurs is a variable, from 1 in ascending order, and each gate
//! another. Of a gate's equivalence with its inputs only "if the gate, then its inputs" is written (Plaisted and
//! Greenbaum 1986): a schema has negations at literals alone, so that nothing asks for a gate to be false. The
//! assignments to the pairs that the clauses allow are the models of the schema at that n.

use crate::circuit::{Circuit, Connective, Gate, Signal};
use std::io::{self, Write};

/// How many variables there are. Those of the pairs come first.
pub fn variables(circuit: &Circuit) -> usize {
    circuit.pairs.count() + circuit.gate_count()
}

/// Writes it.
pub fn write(circuit: &Circuit, out: &mut impl Write) -> io::Result<()> {
    writeln!(out, "c A schema at n = {}: satisfiable exactly where the schema has a model.", circuit.n)?;
    writeln!(out, "c Below, 'pair' is followed by a symbol, an index and the variable of that pair.")?;
    for (number, [symbol, index]) in circuit.pairs.all().enumerate() {
        writeln!(out, "c pair {symbol} {index} {}", number + 1)?;
    }
    let clauses: usize = circuit.gates().map(|gate| clause_count(&gate)).sum();
    let of_root = usize::from(circuit.root != Signal::Value(true));
    writeln!(out, "p cnf {} {}", variables(circuit), clauses + of_root)?;
    let names = Names { pairs: circuit.pairs.count() };
    for (number, gate) in circuit.gates().enumerate() {
        names.write_gate(number, &gate, out)?;
    }
    match circuit.root {
        Signal::Value(true) => Ok(()),
        // The empty clause.
        Signal::Value(false) => writeln!(out, "0"),
        root => writeln!(out, "{} 0", names.literal(root)),
    }
}

fn clause_count(gate: &Gate) -> usize {
    match gate.connective {
        Connective::And => gate.inputs.len(),
        Connective::Or => 1,
    }
}

/// The variables, given how many are those of pairs.
struct Names {
    pairs: usize,
}

impl Names {
    /// What stands for a pair or a gate in a clause. No gate has a value as its input.
    fn literal(&self, signal: Signal) -> i64 {
        match signal {
            Signal::Pair { number, negated: false } => i64::from(number) + 1,
            Signal::Pair { number, negated: true } => -i64::from(number) - 1,
            Signal::Gate(number) => (self.pairs + number as usize + 1) as i64,
            Signal::Value(_) => 0,
        }
    }

    fn write_gate(&self, number: usize, gate: &Gate, out: &mut impl Write) -> io::Result<()> {
        let negated = -((self.pairs + number + 1) as i64);
        match gate.connective {
            Connective::And => {
                for input in gate.inputs {
                    writeln!(out, "{negated} {} 0", self.literal(*input))?;
                }
                Ok(())
            }
            Connective::Or => {
                write!(out, "{negated}")?;
                for input in gate.inputs {
                    write!(out, " {}", self.literal(*input))?;
                }
                writeln!(out, " 0")
            }
        }
    }
}
