//! The catalogue, and what is installed.

use crate::{example, flag, valued, Command, Opt};

const CSV: Opt = valued("--csv", "FILE", "write the table as CSV (RFC 4180)");
const JSON: Opt = valued("--json", "FILE", "write the table as JSON, one object a line");

pub const CATALOGUE: Command = Command {
    name: "catalogue",
    takes: "DIR [--csv FILE] [--json FILE] [--html FILE [--pages FOLDER]] [--since TABLE] [--shard K/N] [--jobs N] [--failed] [--follow] [--quiet]",
    about: "check every record folder below DIR, on all cores",
    text: "A record folder has a schema.txt or a proof.txt; one that holds a file 'older' is checked as an older record. Each record has a line on \
standard output, in the order of their names; then comes how often each refusal came, and the totals. A folder that cannot be listed and a link to a \
folder, which is not followed, have a line too. On a terminal standard error says how far it is.\n\n\
A table has a row for each of these: record (the path below DIR), verdict (accepted, refused, not listed, not followed, listed elsewhere), answer, place, nodes and \
links (the check program's four numbers), refusal (what it is about), file, line and text (the line at fault), check (present or older), schema_sha256 and \
proof_sha256 (of the texts as they were read; empty for one that could not be read or has over 65,536 bytes), and library (release, hash and logic of the \
library that judged). Its last column is why (of a refusal: what does not fit, in a sentence). Its last row has the verdict 'end' and says what it is the table of: library, part (K/N, or 1/1) and tree (a hash of all \
names below DIR), so that a table cut short is told from a whole one. In JSON what is empty is null, and the last object has the counts as numbers. In \
names and texts a backslash stands twice and any byte that is not printable ASCII as \\xNN; so does a first byte that would make a spreadsheet take the cell for a formula.\n\n\
The page of --html opens in a browser without a network: totals, how often each refusal came, and a line for each record, which can be sorted and \
filtered. With --pages each record has a page of its own in FOLDER, as 'zorambi show --html' writes it, named after its path below DIR.\n\n\
A table or a page is written beside its name and gets it at the end, whole. A file that is there is written over only if it is empty or such a table or page.\n\n\
The exit status is 0 if all are accepted, 1 if one is refused, not listed or not followed, 2 for wrong use or a failure.",
    options: &[
        CSV,
        JSON,
        valued("--html", "FILE", "write a page that lists the records, for a browser"),
        valued("--pages", "FOLDER", "with --html: write a page for each record into FOLDER, which is made if it is not there"),
        valued("--since", "TABLE", "hold it against the CSV table of an earlier run: check what is new or changed, and tell what is gone; if another library wrote it, check all"),
        valued("--shard", "K/N", "check part K of N alone; parts go by the names' hashes, and all N together have each record once"),
        valued("--jobs", "N", "check on N threads (as many as there are cores)"),
        flag("--failed", "print the lines of what was not accepted alone"),
        flag("--follow", "follow links: to folders, and out of a record's folder for its texts"),
        flag("--quiet", "print nothing: the exit status and the tables tell"),
    ],
    names: [1, 1],
    examples: &[
        example("zorambi catalogue records --failed", "the shipped records, of which some are made to be refused"),
        example("zorambi catalogue records --html /tmp/records.html --pages /tmp/records", "the same as a page, and one for each record"),
        example("zorambi catalogue records --shard 1/4 --csv /tmp/part-1.csv", "the first of four parts, for 'zorambi merge'"),
    ],
    of_script: false,
};

pub const MERGE: Command = Command {
    name: "merge",
    takes: "TABLE.. [--csv FILE] [--json FILE] [--quiet]",
    about: "put the tables of a catalogue's parts together",
    text: "The tables are the CSV tables of all parts K/N of one catalogue, in any order. What comes out is the table that a run on the whole writes, byte for byte, and \
its totals are printed. A part that is missing, doubled or not whole, or of another library or another state of the folder, is told, and nothing is written.\n\n\
The exit status is 0 if all records are accepted, 1 if one is refused, not listed or not followed, 2 for parts that do not make a whole, wrong use or a failure.",
    options: &[CSV, JSON, flag("--quiet", "print nothing: the exit status and the tables tell")],
    names: [1, usize::MAX],
    examples: &[example("zorambi merge part-*.csv --csv whole.csv", "the table of the whole")],
    of_script: false,
};

pub const INSTALL: Command = Command {
    name: "install",
    takes: "PREFIX",
    about: "install the programs, the library, the header and the manual below PREFIX",
    text: "Proves and builds what is needed first. What is installed needs neither the kit nor cargo: PREFIX/bin/zorambi, the proved programs in PREFIX/libexec/zorambi, \
libzorambi.a and libzorambi.so with zorambi.pc for pkg-config in PREFIX/lib, zorambi.h in PREFIX/include, the package for Python in PREFIX/lib/python3, the manual's pages and completion for bash in PREFIX/share.",
    options: &[],
    names: [1, 1],
    examples: &[example("./zorambi install ~/.local", "for one user")],
    of_script: true,
};
