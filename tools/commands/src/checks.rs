//! The checks, and what the script does in the project's folder.

use crate::{example, flag, Command, Opt};

const JSON: Opt = flag("--json", "print one JSON object instead of the two lines");
const QUIET: Opt = flag("--quiet", "print and say nothing of a verdict: the exit status tells it");
const FOLLOW: Opt = flag("--follow", "follow a link out of DIR that stands for a text");

pub const CHECK: Command = Command {
    name: "check",
    takes: "[--older] [--follow] [--json] [--quiet] DIR",
    about: "check the record in DIR: schema.txt and proof.txt",
    text: "Runs the proved program on the two texts and prints what it prints: the line 'answer place nodes links' and the four numbers. \
Answer 0 is accepted: the schema is false at every n from its least value up. Any other answer is a refusal; why, and the line at \
fault, are then said on standard error.\n\n\
A text is read from a regular file in DIR alone. One that is missing or cannot be read counts as empty, and the answer is 3.\n\n\
With --json the object has record (the folder), verdict (accepted or refused), answer, place, nodes and links (the program's four \
numbers), refusal (what it is about), file, line and text (the line at fault), check (present, older or model), and why (what does not \
fit, in a sentence); what there is not is null. In \
strings a backslash of a record or a name stands twice, and any byte that is not printable ASCII as \\xNN.\n\n\
The exit status is 0 for accepted, 1 for refused, 2 for wrong use or a failure.",
    options: &[
        flag("--older", "check an older record, in which proof rows may repeat earlier rows"),
        FOLLOW,
        JSON,
        QUIET,
    ],
    names: [1, 1],
    examples: &[
        example("zorambi check records/paper/some_and_none", "the record of the paper: accepted, 7 nodes and 1 link"),
        example("zorambi check --older records/tidy/rows_twice", "an older record"),
    ],
    of_script: false,
};

pub const MODEL: Command = Command {
    name: "model",
    takes: "[--follow] [--json] [--quiet] DIR",
    about: "check the model in DIR: schema.txt and model.txt",
    text: "Runs the proved program on the two texts and prints what it prints, as check does. Answer 0 is accepted: the schema is true at the \
model's n where exactly the model's pairs are true. The object of --json is as check has it.\n\n\
The exit status is 0 for accepted, 1 for refused, 2 for wrong use or a failure.",
    options: &[FOLLOW, JSON, QUIET],
    names: [1, 1],
    examples: &[example("zorambi model records/refused/split_at_upper_bound", "the model that stands beside a refused record")],
    of_script: false,
};

pub const EXPLAIN: Command = Command {
    name: "explain",
    takes: "[--older | --model | --wide] [--follow] DIR",
    about: "say why what is in DIR is refused: what does not fit, by how much, and what to do",
    text: "The number and the place of a refusal come from the library; why it was given is said in one sentence, which check, model, \
catalogue, grow and the other commands say too. Below stand the line at fault, what was expected, the lines that it speaks of, and what to \
do. Formulas are in the plain letters that show has with --ascii; a file names.txt in DIR gives symbols names.\n\n\
DIR is taken for a record (schema.txt and proof.txt); for a model if it has model.txt and no proof.txt, and for a wide schema if it has \
wide.txt and no schema.txt.\n\n\
The exit status is 0 for accepted, 1 for refused, 2 for wrong use or a failure.",
    options: &[
        flag("--older", "explain what check --older says"),
        flag("--model", "explain what model says: of schema.txt and model.txt"),
        flag("--wide", "explain what convert says: of wide.txt"),
        FOLLOW,
    ],
    names: [1, 1],
    examples: &[example("zorambi explain records/refused/void_above_least", "why a big or is not void there")],
    of_script: false,
};

pub const HELP: Command = Command {
    name: "help",
    takes: "[--list] [COMMAND]",
    about: "say what the commands are, or what one of them does",
    text: "The same is said by 'zorambi COMMAND --help'. 'zorambi --version' says which release this is, and which library it has.",
    options: &[flag("--list", "one line a command: its name, what it is for, and its options, with tabs between")],
    names: [0, 1],
    examples: &[example("zorambi help check", "what check does")],
    of_script: false,
};

pub const BUILD: Command = Command {
    name: "build",
    takes: "",
    about: "prove and build all that the commands need",
    text: "Every command does this for what it needs itself. Once it is done the commands work from a folder that cannot be written, for \
other users, and without the kit and cargo.",
    options: &[],
    names: [0, 0],
    examples: &[],
    of_script: true,
};

pub const TEST: Command = Command {
    name: "test",
    takes: "",
    about: "prove every crate from nothing, try the must-fail edits, run all tests",
    text: "Its last line is 'N passed, M failed', and its exit status 0 if none failed.",
    options: &[],
    names: [0, 0],
    examples: &[],
    of_script: true,
};

pub const FUZZ: Command = Command {
    name: "fuzz",
    takes: "SECONDS",
    about: "compare the library with the other implementation on new inputs",
    text: "Ends with the first difference, with exit status 1.",
    options: &[],
    names: [1, 1],
    examples: &[example("./zorambi fuzz 60", "a minute of new inputs")],
    of_script: true,
};

pub const BENCH: Command = Command {
    name: "bench",
    takes: "",
    about: "time the library beside the other implementation, as markdown",
    text: "",
    options: &[],
    names: [0, 0],
    examples: &[],
    of_script: true,
};
