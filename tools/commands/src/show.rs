//! The command that shows a record.

use crate::{example, flag, Command, Opt};

pub const SHOW: Command = Command {
    name: "show",
    takes: "[--ascii] [--sets] [--width N] [--older] [--follow] [--html FILE] [--svg FILE] DIR",
    about: "show the record in DIR: its schema as a formula, its tableau as a tree",
    text: "Shows what DIR holds, as far as it can be: wide.txt and schema.txt in mathematical notation, with the row that is the root and the \
least n; the tableau of proof.txt as a tree, each node with what it knows of n and its rule in words; the true pairs of model.txt and what \
each iteration comes to there. A row that is used more than once stands under its number, [12], on a line of its own. The verdict is the \
library's; a row or node that is refused has a mark below it, and a text that cannot be read is told with its refusal.\n\n\
A file names.txt in DIR gives symbols names, a line NUMBER NAME for each, and p3 is then called so. A name is a letter or _, then letters, \
digits or _. A line that names nothing is told on standard error and ignored.\n\n\
With --ascii the schema, or the wide schema if there is one, is text of the language that 'zorambi compile' reads, and all else stands in \
comments.\n\n\
With --html or --svg nothing is printed: the record is drawn into FILE, its tableau as a tree with links as arcs. The page opens in a browser without \
a network; there a click on a node shows its set and its formulas, a refused node is marked, and it prints on one page. A file that is there is written \
over only if it is empty or such a page or drawing.\n\n\
The exit status is 0 if all texts that are there could be shown, whatever the verdict, 1 if one could not, 2 for wrong use or a failure.",
    options: &[
        flag("--ascii", "plain letters: 'all i from 2 to n: not p[i]'"),
        flag("--sets", "each node with its set of rows"),
        Opt { name: "--width", value: Some("N"), about: "columns of a line; else those of COLUMNS or of the terminal, or 100" },
        flag("--older", "judge it as an older record, in which proof rows may repeat earlier rows"),
        flag("--follow", "follow a link out of DIR that stands for a text"),
        Opt { name: "--html", value: Some("FILE"), about: "write a page for a browser" },
        Opt { name: "--svg", value: Some("FILE"), about: "write the drawing alone" },
    ],
    names: [1, 1],
    examples: &[
        example("zorambi show --sets records/paper/some_and_none", "the record of the paper, as docs/TOUR.md draws it"),
        example("zorambi show records/wide/adder_zero", "a wide schema, its plain one and its tableau"),
        example("zorambi show records/accepted/rca_zero --html /tmp/rca_zero.html", "a page with the tableau as a drawing"),
        example("zorambi show records/refused/void_above_least", "a refused tableau, and a model of its schema"),
    ],
    of_script: false,
};
