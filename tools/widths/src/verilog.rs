//! A circuit as a combinational module in Verilog-2001: an input for each pair that occurs, the output `root`, and a
//! wire for each gate, named after its row.

use crate::circuit::{Circuit, Connective, Gate, Signal};
use std::io::{self, Write};
use zorambi::Pair;

/// Columns of a line.
const WIDTH: usize = 100;

/// Writes it.
pub fn write(circuit: &Circuit, out: &mut impl Write) -> io::Result<()> {
    let pairs: Vec<Pair> = circuit.pairs.all().collect();
    let gates: Vec<String> = circuit.gates().map(|gate| wire(&gate)).collect();
    let names = Names { pairs: &pairs, gates: &gates };
    writeln!(
        out,
        "// A schema at n = {}: root is its value. An input is a symbol at an index, with m for a minus;",
        circuit.n
    )?;
    writeln!(out, "// a wire is a row of the schema, one in an iteration's body with its i.")?;
    writeln!(out, "module schema_at_{} (", circuit.n)?;
    for [symbol, index] in &pairs {
        writeln!(out, "  input {}, // symbol {symbol} at {index}", input([*symbol, *index]))?;
    }
    writeln!(out, "  output root\n);")?;
    for (gate, name) in circuit.gates().zip(&gates) {
        names.write_gate(&gate, name, out)?;
    }
    writeln!(out, "  assign root = {};\nendmodule", names.expression(circuit.root))
}

/// A number in a name.
fn number(value: i32) -> String {
    if value < 0 {
        format!("m{}", -i64::from(value))
    } else {
        value.to_string()
    }
}

fn input([symbol, index]: Pair) -> String {
    format!("p{symbol}_{}", number(index))
}

fn wire(gate: &Gate) -> String {
    match gate.i {
        None => format!("row{}", gate.row),
        Some(i) => format!("row{}_{}", gate.row, number(i)),
    }
}

struct Names<'a> {
    pairs: &'a [Pair],
    gates: &'a [String],
}

impl Names<'_> {
    fn expression(&self, signal: Signal) -> String {
        match signal {
            Signal::Value(value) => format!("1'b{}", u8::from(value)),
            Signal::Pair { number, negated } => {
                let not = if negated { "~" } else { "" };
                format!("{not}{}", input(self.pairs[number as usize]))
            }
            Signal::Gate(number) => self.gates[number as usize].clone(),
        }
    }

    /// A wire with all inputs in one list: of thousands of them a chain of operators would be as deep.
    fn write_gate(&self, gate: &Gate, name: &str, out: &mut impl Write) -> io::Result<()> {
        let operator = match gate.connective {
            Connective::And => "&",
            Connective::Or => "|",
        };
        let mut line = format!("  wire {name} = {operator}{{");
        for (at, part) in gate.inputs.iter().enumerate() {
            let part = self.expression(*part);
            if at > 0 {
                line.push(',');
                // With a blank before it, and a comma or the end after it.
                if line.len() + part.len() + 3 > WIDTH {
                    writeln!(out, "{line}")?;
                    line = "   ".to_string();
                }
                line.push(' ');
            }
            line += &part;
        }
        writeln!(out, "{line}}};")
    }
}
