//! The commands that make texts.

use crate::{example, flag, Command, Opt};

const FOLLOW: Opt = flag("--follow", "follow a link out of a folder that stands for a text");

pub const FIND: Command = Command {
    name: "find",
    takes: "[--follow] [--json] [--quiet] DIR N",
    about: "find a model of the schema in DIR at n = N, or say that there is none",
    text: "Prints a model text, which 'zorambi model' accepts once it stands as model.txt beside the schema, or 'none': the schema is then false \
at that n under every assignment. At most 16 pairs may occur in the schema at that n; 'zorambi widths' \
has no such limit.\n\n\
With --json it prints one object: record (the folder), n, found (true or false), pairs (the true pairs, each a symbol and an index), \
answer and place (0, or those of a refusal) and refusal (why); what there is not is null.\n\n\
The exit status is 0 for a model and for none, 1 for a refusal, 2 for wrong use or a failure.",
    options: &[
        FOLLOW,
        flag("--json", "print one JSON object instead of the text"),
        flag("--quiet", "print nothing, and say nothing of a refusal: the exit status tells it"),
    ],
    names: [2, 2],
    examples: &[
        example("zorambi find records/paper/some_and_none 3", "none: the record is accepted"),
        example("zorambi find records/refused/split_at_upper_bound 8", "a model"),
    ],
    of_script: false,
};

pub const COMPILE: Command = Command {
    name: "compile",
    takes: "FILE [OUT] [--names FILE]",
    about: "write the wide schema of a schema written as designers write it",
    text: "FILE is a source in the small language of docs/LANGUAGE.md: names for symbols, x[i], x[n-1], not, and, or, implies, iff, xor, 'all i from 1 to n-1: ..', \
'some i ..', parts by name, a least value, comments. '-' is standard input. The wide schema is written as wide.txt into OUT, a new or empty folder, with \
names.txt, the symbols' numbers and names, beside it; without OUT it is printed. 'zorambi convert' makes the plain schema of it.\n\n\
A mistake is told with its line and column, what was expected, and the line itself.\n\n\
The exit status is 0 for success, 1 for a source with a mistake, 2 for wrong use or a failure.",
    options: &[Opt { name: "--names", value: Some("FILE"), about: "write the symbols' numbers and names into a new file too" }],
    names: [1, 2],
    examples: &[
        example("zorambi compile examples/blocks/adder.zor", "the wide schema, printed"),
        example("zorambi compile examples/blocks/adder.zor /tmp/adder", "/tmp/adder/wide.txt and /tmp/adder/names.txt, for 'zorambi convert /tmp/adder'"),
    ],
    of_script: false,
};

pub const CONVERT: Command = Command {
    name: "convert",
    takes: "[--follow] DIR [OUT]",
    about: "write the plain schema of DIR's wide.txt",
    text: "A wide schema also has rows of kinds 8 not, 9 implies, 10 equivalent and 11 exclusive or. The plain schema is true exactly where it \
is. It is written as schema.txt into OUT, a new or empty folder. Without OUT it is printed, and the two lines of a refusal go to standard \
error.\n\n\
The exit status is 0 for success, 1 for a refusal, 2 for wrong use or a failure.",
    options: &[FOLLOW],
    names: [1, 2],
    examples: &[example("zorambi convert records/wide/differs_from_itself", "the plain schema, printed"),
        example("zorambi convert records/wide/adder_zero /tmp/plain", "the same of another, as /tmp/plain/schema.txt"),
    ],
    of_script: false,
};

pub const SMALL: Command = Command {
    name: "small",
    takes: "[--count] ROWS",
    about: "print every small schema of 1, 2 or 3 rows, as schema texts with an empty line between",
    text: "All well-formed tables with symbol 0, literal offsets -1 to 1, iterations from 0 with c 0 or 1, and an outer last row, which is the \
root, in ascending order.\n\n\
The exit status is 0 for success, 1 for a refusal, 2 for wrong use or a failure.",
    options: &[flag("--count", "print how many there are instead")],
    names: [1, 1],
    examples: &[example("zorambi small 2 --count", "340")],
    of_script: false,
};

pub const TIDY: Command = Command {
    name: "tidy",
    takes: "[--follow] DIR [OUT]",
    about: "write the proof of the older record in DIR with no row twice",
    text: "What check --older accepts, check accepts after tidying, with the same counts. It is written as proof.txt into OUT, a new or empty \
folder, with the schema beside it. Without OUT it is printed, and the two lines of a refusal go to standard error.\n\n\
The exit status is 0 for success, 1 for a refusal, 2 for wrong use or a failure.",
    options: &[FOLLOW],
    names: [1, 2],
    examples: &[example("zorambi tidy records/tidy/rows_twice", "the proof, printed"),
        example("zorambi tidy records/tidy/rows_twice /tmp/present", "the record, present, in a folder of its own"),
    ],
    of_script: false,
};

pub const JOIN: Command = Command {
    name: "join",
    takes: "[--follow] DIR1 DIR2 OUT",
    about: "write the record for the fault of either, into the new or empty folder OUT",
    text: "check accepts the join, with a node more than both and with the links of both. Nothing is written over; after a refusal nothing is left \
in OUT.\n\n\
The exit status is 0 for success, 1 for a refusal, 2 for wrong use or a failure.",
    options: &[FOLLOW],
    names: [3, 3],
    examples: &[example(
        "zorambi join records/accepted/chain_531 records/accepted/cmp_transitive /tmp/either",
        "a record with 71 nodes and 2 links",
    )],
    of_script: false,
};

pub const GROW: Command = Command {
    name: "grow",
    takes: "[--follow] [--anew] [--json] DIR",
    about: "build a tableau for the schema in DIR row by row, from standard input",
    text: "Begins with what DIR's proof.txt has, if there is one, and answers each line of standard input at once. A line is a node row as a proof \
text has it, which is added; '? ROW' to ask about a row; 'commit' to add the row last asked about; 'back' to take the last row back; \
'formula KIND A B C, ..' to put formula rows after those that are there, and 'formula back' to take the last one back; 'rows' \
to list the rows held; 'open' to list the nodes that want children; 'save FILE' to write the proof text; 'help'.\n\n\
An answer to a row, commit, back or formula is 'answer place nodes links', then 'open' or 'closed', and why if it was refused. An answer to an enquiry \
has '? ' before it. At the end of the input rows that were not saved are told on standard error.\n\n\
With a formula row more or less the tableau is begun again and the rows held are added again, each judged by the library; where one is refused \
all stays as it was.\n\n\
With --json each answer is one object on one line: answer and place (0, or those of a refusal; null for a line that is no such word), nodes, links \
and closed (what is held), unsaved, words, of an enquiry that was answered with yes then (what would be held), and of a refusal why, context and mend. \
For the page of 'zorambi edit' there are four words more: 'draw', the drawing of what is held; 'draw ROW', an enquiry with the drawing as it would \
be and the formula rows that the step needs; 'offers UP', the rows that the next child of node UP may have, and each rule with why it cannot apply \
there; and 'page', the page itself.\n\n\
The exit status is 0 at the end of the input, 1 if DIR holds a row that is refused, 2 for wrong use or a failure.",
    options: &[
        FOLLOW,
        flag("--anew", "begin with the schema alone, whatever proof.txt has"),
        flag("--json", "answer each line by one JSON object"),
    ],
    names: [1, 1],
    examples: &[example("zorambi grow records/paper/some_and_none", "begins with a closed tableau of 7 nodes")],
    of_script: false,
};

pub const EDIT: Command = Command {
    name: "edit",
    takes: "[--no-browser] DIR",
    about: "build a tableau for the schema in DIR on a page in the browser, each row judged as it is chosen",
    text: "Serves one page on 127.0.0.1, at a free port, until Ctrl-C or until it is ended from the page. Its address is printed, with a secret in it \
without which nothing is answered; where there is a screen it is opened in the browser. The page is the drawing of 'zorambi show --html', and a form for \
the next row: a click on an open leaf makes it the parent, rules that can apply there are offered, and with each change the row is asked about and \
coloured, a refusal explained. Rows, words and verdicts come from 'zorambi grow --json'. It needs Python 3.9 or later.\n\n\
Saving writes proof.txt by the proved writer: to a new file first, then in place, with the one before kept as proof.txt.bak. Rows that are not saved \
stand in proof.txt.journal, and are taken up again after a crash; saving removes it. A text that another program changed meanwhile is told before it \
is written over. One program at a time edits a folder.\n\n\
The exit status is 0 when it is ended, 1 if DIR holds a row that is refused, 2 for wrong use or a failure.",
    options: &[flag("--no-browser", "open no browser: print the address alone")],
    names: [1, 1],
    examples: &[example("zorambi edit --no-browser examples/grow", "the paper's schema, and its first five nodes")],
    of_script: false,
};
