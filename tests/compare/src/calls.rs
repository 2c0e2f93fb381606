//! One case put to the library and to the other implementation.

use zorambi::entries;
use zorambi_generate::models::ModelTables;
use zorambi_generate::rng::mix;
use zorambi_generate::tables::Tables;
use zorambi_generate::{run, Input, Outcome};
use zorambi_reference::text::Named;

/// All that comes back from a call: the one number, the results, and the lent memory.
#[derive(Clone, Debug, Default, PartialEq, Eq)]
pub struct Seen {
    pub packed: u64,
    pub results: Vec<i32>,
    pub tables: Vec<Vec<i32>>,
    pub out: Vec<u8>,
    pub span: [usize; 2],
    /// Something was written next to the lent memory.
    pub outside: bool,
}

impl Seen {
    fn number(packed: u64) -> Seen {
        Seen { packed, ..Seen::default() }
    }

    pub fn answer(&self) -> u64 {
        self.packed >> 39 & 31
    }

    pub fn place(&self) -> i64 {
        (self.packed >> 26 & 8191) as i64 - 1
    }

    pub fn links(&self) -> u64 {
        self.packed & 8191
    }

    /// What both give; an error if they differ.
    pub fn agreed(self, other: Seen) -> Result<Seen, String> {
        self.difference(&other).map_or(Ok(other), Err)
    }

    /// What differs from another's, in few words.
    pub fn difference(&self, other: &Seen) -> Option<String> {
        if self == other {
            return None;
        }
        let words = |seen: &Seen| {
            let Seen { packed, results, span, .. } = seen;
            format!("answer {} place {} {results:?} {span:?} {}", seen.answer(), seen.place(), packed >> 44)
        };
        let (ours, theirs) = (words(self), words(other));
        let memory = match (self.outside, self.tables != other.tables || self.out != other.out) {
            (true, _) => ", written outside of what was lent",
            (false, true) => ", other memory",
            (false, false) => "",
        };
        Some(format!(
            "library {ours} ({:#x}), other implementation {theirs} ({:#x}){memory}",
            self.packed, other.packed
        ))
    }
}

/// Memory that is lent between two guards, all of it garbage.
pub(crate) struct Lent<T> {
    memory: Vec<T>,
    length: usize,
}

const GUARD: usize = 16;

impl<T: Copy + PartialEq> Lent<T> {
    pub(crate) fn new(length: usize, garbage: fn(usize) -> T) -> Lent<T> {
        Lent { memory: (0..length + 2 * GUARD).map(garbage).collect(), length }
    }

    pub(crate) fn lend(&mut self) -> &mut [T] {
        &mut self.memory[GUARD..GUARD + self.length]
    }

    /// The lent part. The guards have to be as they were; otherwise `outside` is told so.
    pub(crate) fn back(self, garbage: fn(usize) -> T, outside: &mut bool) -> Vec<T> {
        let end = GUARD + self.length;
        *outside |= (0..GUARD).chain(end..end + GUARD).any(|at| self.memory[at] != garbage(at));
        self.memory[GUARD..end].to_vec()
    }
}

pub(crate) fn number(at: usize) -> i32 {
    mix(at as u64) as i32 | 1
}

pub(crate) fn byte(at: usize) -> u8 {
    mix(at as u64) as u8 | 1
}

/// A copy of exactly this length, so that a reading past its end shows under valgrind.
pub(crate) fn exact<T: Clone>(table: &[T]) -> Box<[T]> {
    table.to_vec().into_boxed_slice()
}

/// Tables of exactly their lengths.
pub(crate) fn exactly(t: &Tables) -> Tables {
    let [schema, proof, nodes, members] =
        [&t.schema, &t.proof, &t.nodes, &t.members].map(|table| exact(table).into_vec());
    Tables { schema, proof, nodes, members, ..*t }
}

/// Lends tables and an output, all garbage, and gathers what comes back.
pub(crate) fn lent<const N: usize, const R: usize>(
    tables: [usize; N],
    output: usize,
    call: impl FnOnce([&mut [i32]; N], &mut [u8], &mut [i32; R]) -> u64,
) -> Seen {
    let mut memory = tables.map(|length| Lent::new(length, number));
    let mut out = Lent::new(output, byte);
    let mut results = std::array::from_fn(number);
    let packed = call(memory.each_mut().map(Lent::lend), out.lend(), &mut results);
    let mut outside = false;
    let tables = memory.map(|table| table.back(number, &mut outside)).to_vec();
    let out = out.back(byte, &mut outside);
    Seen { packed, results: results.to_vec(), tables, out, outside, ..Seen::default() }
}

/// An entry for tableaux: the check, or the older check.
pub type CheckEntry = fn(&[i32], usize, &[i32], usize, i32, i32, &[i32], usize, &[i32], usize) -> u64;

pub fn check(entry: CheckEntry, t: &Tables) -> u64 {
    entry(
        &t.schema,
        t.schema_count,
        &t.proof,
        t.proof_count,
        t.root,
        t.least,
        &t.nodes,
        t.node_count,
        &t.members,
        t.member_count,
    )
}

pub fn check_model(m: &ModelTables) -> u64 {
    let [schema, pairs] = [&m.schema, &m.pairs].map(|table| exact(table));
    entries::check_model(&schema, m.schema_count, m.root, m.least, m.n, &pairs, m.pair_count)
}

pub(crate) fn read_schema(text: &[u8], length: usize) -> Seen {
    lent([length], 0, |[rows], _, results| entries::read_schema(&exact(text), rows, results))
}

pub(crate) fn read_proof(text: &[u8], lengths: [usize; 3]) -> Seen {
    lent(lengths, 0, |[rows, nodes, members], _, results| {
        entries::read_proof(&exact(text), rows, nodes, members, results)
    })
}

pub(crate) fn read_model(text: &[u8], length: usize) -> Seen {
    lent([length], 0, |[pairs], _, results| entries::read_model(&exact(text), pairs, results))
}

pub(crate) fn written(length: usize, write: impl FnOnce(&mut [u8]) -> u64) -> Seen {
    lent([], length, |[], out, _: &mut [i32; 0]| write(out))
}

/// The library on a case; `None` if no entry does what is asked.
pub fn of_library(input: &Input) -> Option<Seen> {
    Some(match input {
        Input::Check(t) => Seen::number(check(entries::check, &exactly(t))),
        Input::CheckOlder(t) => Seen::number(check(entries::check_older, &exactly(t))),
        Input::Model(m) => Seen::number(check_model(m)),
        Input::ReadSchema { text, length, .. } => read_schema(text, *length),
        Input::ReadProof { text, lengths, .. } => read_proof(text, *lengths),
        Input::ReadModel { text, length, .. } => read_model(text, *length),
        Input::WriteSchema { root, least, rows, row_count, length, .. } => {
            written(*length, |out| entries::write_schema(&exact(rows), *row_count, *root, *least, out))
        }
        Input::WriteProof { proof: t, length, .. } => {
            let [rows, nodes, members] = [&t.proof, &t.nodes, &t.members].map(|table| exact(table));
            written(*length, |out| {
                entries::write_proof(&rows, t.proof_count, &nodes, t.node_count, &members, t.member_count, out)
            })
        }
        Input::WriteModel { n, pairs, pair_count, length, .. } => {
            written(*length, |out| entries::write_model(*n, &exact(pairs), *pair_count, out))
        }
        Input::Line { named, schema, proof, number } => {
            let text = if *named == Named::Schema { schema } else { proof };
            Seen { span: entries::line(&exact(text), *number), ..Seen::default() }
        }
        Input::Texts { schema, proof } => Seen::number(entries::check_texts(&exact(schema), &exact(proof))),
        Input::TextsOlder { schema, proof } => Seen::number(entries::check_older_texts(&exact(schema), &exact(proof))),
        Input::TextsModel { schema, model } => Seen::number(entries::check_model_texts(&exact(schema), &exact(model))),
        Input::LineNumbers { .. } | Input::Compare { .. } => return None,
    })
}

/// ((answer × 8192 + place + 1) × 8192 + nodes) × 8192 + links
pub(crate) fn pack(answer: u8, place: i32, rest: usize) -> u64 {
    ((u64::from(answer) * 8192 + (i64::from(place) + 1) as u64) << 26) + rest as u64
}

/// The other implementation on a case.
pub fn of_reference(input: &Input) -> Seen {
    let count = |count: usize| count as i32;
    match run(input) {
        Outcome::Verdict { packed, .. } | Outcome::Judgement { packed, .. } => Seen::number(packed as u64),
        Outcome::SchemaRead { read, rows } => Seen {
            packed: pack(read.answer, read.place, 0),
            results: vec![read.root, read.least, count(read.rows)],
            tables: vec![rows],
            ..Seen::default()
        },
        Outcome::ProofRead { read, rows, nodes, members } => Seen {
            packed: pack(read.answer, read.place, 0),
            results: [read.rows, read.nodes, read.members].map(count).to_vec(),
            tables: vec![rows, nodes, members],
            ..Seen::default()
        },
        Outcome::ModelRead { read, pairs } => Seen {
            packed: pack(read.answer, read.place, 0),
            results: vec![read.n, count(read.pairs)],
            tables: vec![pairs],
            ..Seen::default()
        },
        Outcome::Written { written, out } => {
            Seen { packed: pack(written.answer, written.place, written.bytes), out, ..Seen::default() }
        }
        Outcome::Line { start, length } => Seen { span: [start, length], ..Seen::default() },
        Outcome::LineNumbers { .. } | Outcome::Compared { .. } => Seen::default(),
    }
}
