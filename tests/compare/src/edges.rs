//! Texts and tables at the limits of the paper, chosen by hand.

use crate::paper::{MODEL, PROOF, SCHEMA};
use crate::records::tables;
use crate::tally::Tally;
use zorambi_generate::models::ModelTables;
use zorambi_generate::Input;
use zorambi_reference::text::Named;

#[derive(Clone, Copy)]
enum Kind {
    Schema,
    Proof,
    Model,
}

fn read(kind: Kind, text: &[u8], lengths: [usize; 3]) -> Input {
    let text = text.to_vec();
    match kind {
        Kind::Schema => Input::ReadSchema { text, length: lengths[0], fill: -5 },
        Kind::Proof => Input::ReadProof { text, lengths, fill: -5 },
        Kind::Model => Input::ReadModel { text, length: lengths[0], fill: -5 },
    }
}

/// A text checked beside the paper's other one.
fn checked(kind: Kind, text: &[u8]) -> Input {
    let text = text.to_vec();
    match kind {
        Kind::Schema => Input::Texts { schema: text, proof: PROOF.into() },
        Kind::Proof => Input::Texts { schema: SCHEMA.into(), proof: text },
        Kind::Model => Input::TextsModel { schema: SCHEMA.into(), model: text },
    }
}

fn full(kind: Kind) -> [usize; 3] {
    match kind {
        Kind::Model => [8192, 0, 0],
        _ => [4096, 9216, 8192],
    }
}

pub fn test(tally: &mut Tally) {
    for (kind, text) in [(Kind::Schema, SCHEMA), (Kind::Proof, PROOF), (Kind::Model, MODEL)] {
        for (number, text) in texts(text.as_bytes()).iter().enumerate() {
            tally.compare(&format!("text {number} of {}", text.len()), &read(kind, text, full(kind)));
            tally.compare(&format!("checked, text {number} of {}", text.len()), &checked(kind, text));
        }
        lent_tables(tally, kind, text.as_bytes());
    }
    for (name, kind, text) in at_limits() {
        tally.compare(name, &read(kind, &text, full(kind)));
        tally.compare(name, &checked(kind, &text));
    }
    empty(tally);
    lines(tally);
    counts(tally);
    writing(tally);
}

/// Every entry with every slice empty.
fn empty(tally: &mut Tally) {
    let t = tables(b"", b"");
    let model =
        ModelTables { root: 0, least: 0, schema: Vec::new(), schema_count: 0, n: 0, pairs: Vec::new(), pair_count: 0 };
    let inputs = [
        Input::Check(t.clone()),
        Input::Model(model),
        read(Kind::Schema, b"", [0; 3]),
        read(Kind::Proof, b"", [0; 3]),
        read(Kind::Model, b"", [0; 3]),
        Input::WriteSchema { root: 0, least: 0, rows: Vec::new(), row_count: 0, length: 0, fill: 1 },
        Input::WriteProof { proof: t, length: 0, fill: 1 },
        Input::WriteModel { n: 0, pairs: Vec::new(), pair_count: 0, length: 0, fill: 1 },
        Input::Line { named: Named::Schema, schema: Vec::new(), proof: Vec::new(), number: 1 },
        Input::Texts { schema: Vec::new(), proof: Vec::new() },
        Input::TextsModel { schema: Vec::new(), model: Vec::new() },
    ];
    for (number, input) in inputs.iter().enumerate() {
        tally.compare(&format!("entry {number}, every slice empty"), input);
    }
}

/// Lines by number in texts of any length, with empty and unfinished lines.
fn lines(tally: &mut Tally) {
    let texts = [
        b"".to_vec(),
        b"\n".to_vec(),
        b"\n\none\n\ntwo".to_vec(),
        b"one\r\n\0\n \n".to_vec(),
        vec![b'\n'; 70_000],
        vec![b'7'; 70_000],
        [vec![b'7'; 100_000], b"\n8\n".to_vec()].concat(),
    ];
    let numbers = [0, 1, 2, 3, 4, 5, 6, 35_000, 69_999, 70_000, 70_001, 1 << 32, 1 << 63, usize::MAX];
    for text in texts {
        for number in numbers {
            let (schema, proof) = (text.clone(), Vec::new());
            let input = Input::Line { named: Named::Schema, schema, proof, number };
            tally.compare(&format!("line {number} of {} bytes", text.len()), &input);
        }
    }
}

/// A right text, damaged in all the ways that come to mind.
fn texts(right: &[u8]) -> Vec<Vec<u8>> {
    let mut texts = vec![right.to_vec(), Vec::new(), vec![0; 65_536], vec![0; 65_537]];
    texts.push((0..=255).collect());
    texts.push((0..65_536).map(|at| (at * 7 + at / 256) as u8).collect());
    for byte in [b'\n', b' ', b'0', b'9', b'-', b'u', b'\r', 0, 255] {
        texts.push(vec![byte]);
        texts.push([&[byte], right].concat());
        texts.push([right, &[byte]].concat());
        texts.push([right, &[byte, b'\n']].concat());
        for length in [65_535, 65_536, 65_537] {
            let mut long = right.to_vec();
            long.resize(length, byte);
            texts.push(long);
        }
    }
    // Cut off at each byte, one byte otherwise, gone, or twice.
    for at in 0..right.len() {
        texts.push(right[..at].to_vec());
        texts.push([&right[..at], &right[at + 1..]].concat());
        texts.push([&right[..at], &right[at..at + 1], &right[at..]].concat());
        for byte in [b'\n', b' ', b'0', b'x', b'-', 0] {
            let mut other = right.to_vec();
            other[at] = byte;
            texts.push(other);
        }
    }
    // Each word of each line for another.
    let words: [&[u8]; 22] = [
        b"0",
        b"-0",
        b"00",
        b"007",
        b"-007",
        b"1",
        b"-1",
        b"+1",
        b"99999",
        b"-99999",
        b"100000",
        b"-100000",
        b"123456",
        b"-",
        b"--1",
        b"1-",
        b"",
        b"1.0",
        b"1e1",
        b"0x1",
        b"\xef\xbb\xbf1",
        b"1\0",
    ];
    let spaces: Vec<usize> = (0..right.len()).filter(|at| b" \n".contains(&right[*at])).collect();
    for ends in spaces.windows(2) {
        for word in words {
            texts.push([&right[..=ends[0]], word, &right[ends[1]..]].concat());
        }
        for gap in [&b"  "[..], b"\t", b"\r", b"\r\n", b"\n\n", b" \n", b"\n ", b"\0", b"\xa0"] {
            texts.push([&right[..ends[0]], gap, &right[ends[0] + 1..]].concat());
        }
        for byte in [b'7', b' ', b'-', b'0'] {
            let long = vec![byte; 65_000];
            texts.push([&right[..=ends[0]], &long, &right[ends[1]..]].concat());
        }
    }
    // Every line with CR LF.
    texts.push(right.iter().flat_map(|byte| if *byte == b'\n' { vec![b'\r', b'\n'] } else { vec![*byte] }).collect());
    // Each line gone, twice, or followed by a heading.
    let lines: Vec<&[u8]> = right.split_inclusive(|byte| *byte == b'\n').collect();
    for at in 0..lines.len() {
        texts.push([lines[..at].concat(), lines[at + 1..].concat()].concat());
        texts.push([lines[..=at].concat(), lines[at..].concat()].concat());
        for heading in
            ["root least\n", "kind a b c\n", "up rule on with other to by set\n", "n\n", "symbol index\n", "u\n", "up"]
        {
            texts.push([lines[..=at].concat(), heading.as_bytes().to_vec(), lines[at + 1..].concat()].concat());
        }
    }
    texts
}

/// Lent tables that are too short, by one or wholly, and longer ones.
fn lent_tables(tally: &mut Tally, kind: Kind, right: &[u8]) {
    let long = vec![b'\n'; 65_537];
    for text in [right, b"", &right[..right.len() - 1], &long] {
        for at in 0..3 {
            for change in [-1_isize, 1, 1000, isize::MIN] {
                let mut lengths = full(kind);
                lengths[at] = lengths[at].saturating_add_signed(change);
                tally.compare(&format!("lent {lengths:?}"), &read(kind, text, lengths));
            }
        }
    }
}

/// Texts with as many rows, nodes, members and pairs as allowed, and one more; 4 and 5 at one line.
fn at_limits() -> Vec<(&'static str, Kind, Vec<u8>)> {
    let lines =
        |head: &str, line: &str, count: usize, tail: &str| [head, &line.repeat(count), tail].concat().into_bytes();
    let mut found = Vec::new();
    for count in [1023, 1024, 1025, 1026] {
        for tail in ["", "0 0 0 x\n", "0 0 0 0", "u\n"] {
            found.push(("schema rows", Kind::Schema, lines("root least\n0 0\nkind a b c\n", "0 0 0 0\n", count, tail)));
            found.push(("proof rows", Kind::Proof, lines("kind a b c\n", "0 0 0 0\n", count, tail)));
            let tail = ["up rule on with other to by set\n", tail].concat();
            found.push(("proof rows and heading", Kind::Proof, lines("kind a b c\n", "0 0 0 0\n", count, &tail)));
        }
        for tail in ["", "0 0 0 0 0 0 x\n", "0 0 0 0 0 0 0", "u\n"] {
            let head = "kind a b c\nup rule on with other to by set\n";
            found.push(("nodes", Kind::Proof, lines(head, "0 0 0 0 0 0 0\n", count, tail)));
        }
    }
    for count in [8191, 8192, 8193] {
        let head = "kind a b c\nup rule on with other to by set\n0 0 0 0 0 0 0";
        for tail in ["\n", "", " x\n", " \n", "\n0 0 0 0 0 0 0\n", "\n0 0 0 0 0 0 0 5\n", "\n0 0 0 0 0 0 0 x\n"] {
            found.push(("members", Kind::Proof, lines(head, " 7", count, tail)));
        }
    }
    for count in [4095, 4096, 4097] {
        for tail in ["", "0 x\n", "0 0", "0\n"] {
            found.push(("pairs", Kind::Model, lines("n\n0\nsymbol index\n", "0 0\n", count, tail)));
        }
    }
    // Exactly 65,536 bytes, and one more.
    for extra in ["", "0", "00"] {
        let mut text = lines("kind a b c\n", "", 0, "up rule on with other to by set\n");
        while text.len() + 18 + 20 < 65_536 {
            text.extend(b"-1 -1 -1 -1 -1 -1\n");
        }
        let left = 65_536 - text.len() - 1;
        let last = "0 ".repeat(left / 2);
        text.extend(last.as_bytes());
        text.truncate(65_535);
        text.extend(extra.as_bytes());
        text.push(b'\n');
        found.push(("a long text", Kind::Proof, text));
    }
    found
}

const COUNTS: [usize; 24] = [
    0,
    1,
    4,
    5,
    6,
    1023,
    1024,
    1025,
    2048,
    4096,
    4097,
    8192,
    8193,
    65_536,
    1 << 30,
    1 << 31,
    1 << 32,
    1 << 61,
    1 << 62,
    1 << 63,
    usize::MAX / 9,
    usize::MAX / 4 + 1,
    usize::MAX - 1,
    usize::MAX,
];

/// Counts that their tables do not hold, or hold and more.
fn counts(tally: &mut Tally) {
    let right = tables(SCHEMA.as_bytes(), PROOF.as_bytes());
    for count in COUNTS {
        for length in [0, 1, 3, 4, 20, 36, 4096, 4100, 9216, 9225, 8192, 8193] {
            for which in 0..4 {
                let mut t = right.clone();
                let (table, rows) = match which {
                    0 => (&mut t.schema, &mut t.schema_count),
                    1 => (&mut t.proof, &mut t.proof_count),
                    2 => (&mut t.nodes, &mut t.node_count),
                    _ => (&mut t.members, &mut t.member_count),
                };
                table.resize(length, 0);
                *rows = count;
                tally.compare(&format!("table {which}, length {length}, count {count}"), &Input::Check(t.clone()));
                if which > 0 {
                    let input = Input::WriteProof { proof: t, length: 65_536, fill: 1 };
                    tally.compare(&format!("writing table {which}, length {length}, count {count}"), &input);
                }
            }
            let rows = vec![0; length];
            let input = Input::WriteSchema { root: 0, least: 0, rows, row_count: count, length: 65_536, fill: 1 };
            tally.compare(&format!("writing a schema, length {length}, count {count}"), &input);
            let pairs = vec![0; length];
            let input = Input::WriteModel { n: 0, pairs: pairs.clone(), pair_count: count, length: 65_536, fill: 1 };
            tally.compare(&format!("writing a model, length {length}, count {count}"), &input);
            for (schema_count, pair_count) in [(5, count), (count, 0), (count, count)] {
                let model = ModelTables {
                    root: 3,
                    least: 0,
                    schema: right.schema.clone(),
                    schema_count,
                    n: 0,
                    pairs: pairs.clone(),
                    pair_count,
                };
                tally.compare(
                    &format!("model, length {length}, counts {schema_count} {pair_count}"),
                    &Input::Model(model),
                );
            }
        }
    }
}

const NUMBERS: [i32; 17] = [
    0,
    1,
    -1,
    9,
    10,
    -10,
    9999,
    10_000,
    -10_000,
    99_999,
    -99_999,
    100_000,
    -100_000,
    i32::MAX,
    i32::MIN,
    i32::MIN + 1,
    -2_147_400_000,
];

/// Numbers at the limit of five digits in each place that is written, and outputs of each length.
fn writing(tally: &mut Tally) {
    let right = tables(SCHEMA.as_bytes(), PROOF.as_bytes());
    for number in NUMBERS {
        for at in 0..right.schema.len() + 2 {
            let (mut root, mut least, mut rows) = (4, 1, right.schema.clone());
            match at {
                0 => root = number,
                1 => least = number,
                _ => rows[at - 2] = number,
            }
            let input = Input::WriteSchema { root, least, rows, row_count: right.schema_count, length: 200, fill: 1 };
            tally.compare(&format!("writing {number} at {at} of a schema"), &input);
        }
        for at in 0..right.proof.len() + right.nodes.len() + right.members.len() {
            let mut t = right.clone();
            *t.proof.iter_mut().chain(&mut t.nodes).chain(&mut t.members).nth(at).expect("a number") = number;
            let input = Input::WriteProof { proof: t, length: 400, fill: 1 };
            tally.compare(&format!("writing {number} at {at} of a proof"), &input);
        }
        for at in 0..5 {
            let (mut n, mut pairs) = (3, vec![0, 1, 2, 3]);
            match at {
                0 => n = number,
                _ => pairs[at - 1] = number,
            }
            let input = Input::WriteModel { n, pairs, pair_count: 2, length: 100, fill: 1 };
            tally.compare(&format!("writing {number} at {at} of a model"), &input);
        }
    }
    for length in 0..PROOF.len() + 3 {
        tally.compare(&format!("output of {length}"), &Input::WriteProof { proof: right.clone(), length, fill: 1 });
    }
    for length in 0..SCHEMA.len() + 3 {
        let (rows, row_count) = (right.schema.clone(), right.schema_count);
        let input = Input::WriteSchema { root: 4, least: 1, rows, row_count, length, fill: 1 };
        tally.compare(&format!("output of {length}"), &input);
    }
    for length in 0..MODEL.len() + 3 {
        let input = Input::WriteModel { n: 3, pairs: vec![0, 1], pair_count: 1, length, fill: 1 };
        tally.compare(&format!("output of {length}"), &input);
    }
    // Texts of about 65,536 bytes: 1,024 rows of four numbers of six bytes are 28,672; then nodes.
    let mut t = right.clone();
    (t.proof, t.proof_count) = (vec![-99_999; 4096], 1024);
    (t.members, t.member_count) = (Vec::new(), 0);
    for node_count in [740, 750, 751, 752, 753, 760, 1024] {
        t.nodes = [-99_999, -99_999, -99_999, -99_999, -99_999, -99_999, -99_999, 0, 0].repeat(node_count);
        t.node_count = node_count;
        for length in [0, 65_535, 65_536, 65_537, 100_000] {
            let input = Input::WriteProof { proof: t.clone(), length, fill: 1 };
            tally.compare(&format!("{node_count} long nodes, output of {length}"), &input);
        }
    }
}
