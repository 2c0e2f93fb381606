//! The commands that hand a schema at a width to other tools.

use crate::{example, flag, valued, Command, Opt};

const FOLLOW: Opt = flag("--follow", "follow a link out of DIR that stands for its schema");

pub const WIDTHS: Command = Command {
    name: "widths",
    takes: "[--solver COMMAND] [--models FOLDER] [--follow] [--json] [--quiet] DIR FROM TO",
    about: "ask a SAT solver for a model of the schema in DIR at each n from FROM to TO",
    text: "Prints a line for each n as soon as it is known. 'a model, accepted by the proved check' is proved: the \
schema is true there. 'no model, the solver's word' is as good as the solver, and as the way to it; only a record \
that 'zorambi check' accepts proves that there is no model. A model with over 4,096 true pairs is more than the \
model check takes, so that it too is the solver's word, and has no text. Of the solver's model those true pairs are \
kept that are enough.\n\n\
The solver is one that follows the conventions of the SAT competition: it is given the name of a DIMACS file, ends \
with 10 for satisfiable and 20 for unsatisfiable, and prints values in lines that begin with 'v'. One whose name \
begins with 'minisat' is given a second file's name, for what it writes. Without --solver it is the first of \
cadical, kissat, minisat and cryptominisat5 that is installed.\n\n\
With --json it prints one object a line: record (the folder), n, found (true, false, or null where the solver does \
not know), proved (whether the proved check accepted a model), pairs (the true pairs, each a symbol and an index), \
solver, words (what is printed otherwise), answer and place (0, or those of a refusal), refusal (what it is about) and \
why (what does not fit, in a sentence); what there is not is null.\n\n\
The exit status is 0 if the solver answers at every n, 1 for a refusal, 2 for wrong use, for a failure, for a model \
that the proved check refuses, and if the solver does not know at some n.",
    options: &[
        valued("--solver", "COMMAND", "the solver, and what it is given before the file, with blanks between"),
        valued(
            "--models",
            "FOLDER",
            "write each model that is accepted into this new or empty folder, as N/model.txt with N/schema.txt for \
             'zorambi model'",
        ),
        FOLLOW,
        flag("--json", "print one JSON object a line"),
        flag("--quiet", "print nothing, and say nothing of a refusal: the exit status and the models tell"),
    ],
    names: [3, 3],
    examples: &[
        example("zorambi widths records/accepted/rca_zero 1 40", "no model, 40 times"),
        example("zorambi widths examples/find 1 100 --models /tmp/models", "models from n = 2 on"),
        example("zorambi widths --solver 'cadical -t 60' records/accepted/rca_zero 500 500", "at most a minute"),
    ],
    of_script: false,
};

pub const DIMACS: Command = Command {
    name: "dimacs",
    takes: "[--follow] DIR N",
    about: "write the schema in DIR at n = N as DIMACS, for SAT solvers",
    text: "The clauses are satisfiable exactly if the schema has a model at that n. Each pair that occurs is a \
variable, from 1 in ascending order, and stands in a comment line 'c pair SYMBOL INDEX VARIABLE'; their values in \
what satisfies the clauses are the models. Each and, or and iteration is one further variable, in a body one for \
each i, however often its row is used. Of each, only 'if it is true, then what it is made of' is written (Plaisted \
and Greenbaum), which is enough, as a schema has negations at literals alone. The two lines of a refusal go to \
standard error.\n\n\
The exit status is 0 for success, 1 for a refusal, 2 for wrong use or a failure.",
    options: &[FOLLOW],
    names: [2, 2],
    examples: &[example(
        "zorambi dimacs records/paper/some_and_none 3",
        "two pairs, and clauses that cannot all be true",
    )],
    of_script: false,
};

pub const VERILOG: Command = Command {
    name: "verilog",
    takes: "[--follow] DIR N",
    about: "write the schema in DIR at n = N as a combinational module in Verilog",
    text: "The module schema_at_N, in plain Verilog-2001, has an input for each pair that occurs, p3_5 for symbol 3 \
at 5 and p3_m2 for symbol 3 at -2, and the output root, which is 1 where the schema is true. Rows are wires, row7, \
and in a body row7_4 for i = 4. The two lines of a refusal go to standard error.\n\n\
The exit status is 0 for success, 1 for a refusal, 2 for wrong use or a failure.",
    options: &[FOLLOW],
    names: [2, 2],
    examples: &[example(
        "zorambi verilog records/accepted/rca_zero 8",
        "a module whose output is 0 whatever its inputs are",
    )],
    of_script: false,
};
