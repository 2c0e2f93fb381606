//! A tableau that grows (document 02, No. 7), with enquiries and commits (No. 8): lists of calls put to both, with all
//! lent memory compared after each.

use crate::calls::{check, exact, number, Lent};
use crate::heavy;
use crate::kinds::{Kinds, Run};
use crate::paper::{PROOF, SCHEMA};
use crate::records;
use crate::tally::{fits, Tally};
use std::fs;
use std::path::Path;
use zorambi::entries;
use zorambi_generate::tables::Tables;
use zorambi_generate::{case, Input, Rng};
use zorambi_reference::grow::{self, Given, Memory, WAITING};
use zorambi_reference::packed::pack;

/// A node row: up rule on with other to by, and its set.
pub type NodeRow = ([i32; 7], Vec<i32>);

#[derive(Clone, Debug)]
pub enum Call {
    Begin,
    Add(NodeRow),
    TakeBack,
    Enquire(NodeRow),
    Commit,
}

/// The formula rows that are given, and the memory that is lent, to either implementation.
pub struct Session {
    pub given: Tables,
    nodes: Lent<i32>,
    members: Lent<i32>,
    held: [usize; 2],
    shown: [i32; 1],
    waiting: Lent<i32>,
    other: Memory,
    /// Something was written next to the lent tables.
    outside: bool,
}

/// A table of these numbers between guards.
fn lent(table: &[i32]) -> Lent<i32> {
    let mut lent = Lent::new(table.len(), number);
    lent.lend().copy_from_slice(table);
    lent
}

impl Session {
    /// Memory of these lengths, all of it garbage.
    pub fn new(t: &Tables, lengths: [usize; 2]) -> Session {
        let [nodes, members] = lengths.map(|length| Lent::new(length, number).lend().to_vec());
        let waiting = Lent::new(WAITING, number).lend().try_into().expect("lent in its length");
        Session::on(t, Memory { nodes, members, held: [5, usize::MAX], shown: -7, waiting })
    }

    pub fn on(t: &Tables, memory: Memory) -> Session {
        let [nodes, members, waiting] = [&memory.nodes[..], &memory.members, &memory.waiting].map(lent);
        let Memory { held, shown, .. } = memory;
        Session { given: t.clone(), nodes, members, held, shown: [shown], waiting, other: memory, outside: false }
    }

    pub fn memory(&self) -> &Memory {
        &self.other
    }

    /// Other memory from here on.
    pub fn set_memory(&mut self, memory: Memory) {
        let old = std::mem::replace(&mut self.nodes, lent(&memory.nodes));
        let _ = old.back(number, &mut self.outside);
        let old = std::mem::replace(&mut self.members, lent(&memory.members));
        let _ = old.back(number, &mut self.outside);
        let old = std::mem::replace(&mut self.waiting, lent(&memory.waiting));
        let _ = old.back(number, &mut self.outside);
        (self.held, self.shown) = (memory.held, [memory.shown]);
        self.other = memory;
    }

    /// The library's number.
    fn of_library(&mut self, call: &Call) -> u64 {
        let Tables { root, least, schema_count, proof_count, .. } = self.given;
        let [schema, proof] = [&self.given.schema, &self.given.proof].map(|table| exact(table));
        let (nodes, members) = (self.nodes.lend(), self.members.lend());
        let (held, shown) = (&mut self.held, &mut self.shown);
        let waiting: &mut [i32; WAITING] = self.waiting.lend().try_into().expect("lent in its length");
        macro_rules! put {
            ($entry:ident $(, $more:expr)*) => {
                entries::$entry(
                    &schema, schema_count, &proof, proof_count, root, least, nodes, members, held, shown $(, $more)*
                )
            };
        }
        match call {
            Call::Begin => put!(begin, waiting),
            Call::Add((row, set)) => put!(add, row, &exact(set), waiting),
            Call::TakeBack => put!(take_back, waiting),
            Call::Enquire((row, set)) => put!(enquire, row, &exact(set), waiting),
            Call::Commit => put!(commit, waiting),
        }
    }

    fn of_reference(&mut self, call: &Call) -> u64 {
        let Tables { root, least, schema, schema_count, proof, proof_count, .. } = &self.given;
        let (schema_count, proof_count) = (*schema_count, *proof_count);
        let given = Given { root: *root, least: *least, schema, schema_count, proof, proof_count };
        let verdict = match call {
            Call::Begin => grow::begin(&given, &mut self.other),
            Call::Add((row, set)) => grow::add(&given, &mut self.other, row, set),
            Call::TakeBack => grow::take_back(&given, &mut self.other),
            Call::Enquire((row, set)) => grow::enquire(&given, &mut self.other, row, set),
            Call::Commit => grow::commit(&given, &mut self.other),
        };
        pack(verdict) as u64
    }

    /// What both answer; an error if they differ, in that or in the memory that they leave.
    pub fn call(&mut self, call: &Call) -> Result<u64, String> {
        let (ours, theirs) = (self.of_library(call), self.of_reference(call));
        let words = |packed: u64, held: [usize; 2], shown: i32| {
            let place = (packed >> 26 & 8191) as i64 - 1;
            let counts = [packed >> 13 & 8191, packed & 8191];
            format!("answer {} place {place} counts {counts:?} held {held:?} shown {shown}", packed >> 39)
        };
        let (one, other) = (words(ours, self.held, self.shown[0]), words(theirs, self.other.held, self.other.shown));
        let nodes = self.nodes.lend() == self.other.nodes;
        let members = self.members.lend() == self.other.members;
        let waiting = self.waiting.lend() == self.other.waiting;
        if one == other && nodes && members && waiting {
            return Ok(ours);
        }
        let memory = format!("nodes {}, members {}, waiting {}", same(nodes), same(members), same(waiting));
        Err(format!("library {one}, other implementation {other}; {memory}"))
    }

    /// What the library's check says of these rows.
    fn check(&self, rows: &[NodeRow]) -> u64 {
        let [nodes, members] = tables_of(rows);
        let (node_count, member_count) = (rows.len(), members.len());
        let t = Tables { nodes, node_count, members, member_count, ..self.given.clone() };
        check(entries::check, &t)
    }

    /// Nothing was written next to the lent tables.
    fn within(mut self) -> bool {
        let memory = self.other.clone();
        self.set_memory(memory);
        !self.outside
    }
}

fn same(same: bool) -> &'static str {
    if same {
        "alike"
    } else {
        "differ"
    }
}

fn answer(packed: u64) -> u64 {
    packed >> 39
}

fn place(packed: u64) -> i64 {
    (packed >> 26 & 8191) as i64 - 1
}

/// The tables of node rows.
fn tables_of(rows: &[NodeRow]) -> [Vec<i32>; 2] {
    let mut tables = [Vec::new(), Vec::new()];
    for (row, set) in rows {
        let place = [tables[1].len() as i32, set.len() as i32];
        tables[0].extend(row.iter().chain(&place));
        tables[1].extend(set);
    }
    tables
}

/// The node rows of tables, as far as they have them.
pub fn rows_of(t: &Tables) -> Vec<NodeRow> {
    let row = |node: &[i32]| {
        let set = usize::try_from(node[7]).ok().zip(usize::try_from(node[8]).ok());
        let set = set.and_then(|(start, length)| t.members.get(start..start.checked_add(length)?));
        let fields = std::array::from_fn(|field| node[field]);
        (fields, set.unwrap_or_default().to_vec())
    };
    t.nodes.chunks_exact(9).take(t.node_count).map(row).collect()
}

const FULL: [usize; 2] = [9216, 8192];

const KINDS: [&str; 69] = [
    "formula rows, in memory with rubbish",
    "formula rows, accepted",
    "formula rows, refused",
    "an addition, accepted",
    "a take-back, accepted",
    "closed is shown",
    "closed before and after a take-back of one row and its addition",
    "a record grown whole, closed",
    "a shipped record grown whole, closed",
    "refused, 2",
    "refused, 5",
    "refused, 6",
    "refused, 7",
    "refused, 8",
    "refused, 9 at the row",
    "refused, 9 at a row held",
    "refused, 10 at the row",
    "refused, 10 at a row held",
    "refused, 11 at the row",
    "refused, 11 at a row held",
    "refused, 12 at the row",
    "refused, 12 at a row held",
    "refused, 13 at the row",
    "refused, 13 at a row held",
    "refused, 14 at the row",
    "refused, 14 at a row held",
    "refused, 15 at the row",
    "refused, 15 at a row held",
    "refused, 16 at the row",
    "refused, 16 at a row held",
    "refused, 17 at the row",
    "refused, 17 at a row held",
    "refused, 24 for 1,024 nodes",
    "refused, 24 for 8,192 members",
    "refused, 24 for the node table",
    "refused, 24 for the member table",
    "refused, 24 and the row's set is out of order",
    "refused, 25",
    "refused, 27",
    "rubbish past the rows held, a refused call",
    "rubbish past the rows held, an accepted call",
    "rows held altered, a refused call",
    "counts altered, a refused call",
    "formula rows altered, a refused call",
    "members counted without a node",
    "an enquiry, accepted",
    "an enquiry, refused",
    "an enquiry, closed with the row and not without it",
    "an enquiry, rubbish past the rows held",
    "a commit, accepted",
    "a commit, closed",
    "refused, 26 and nothing was enquired about",
    "refused, 26 after an enquiry that says no",
    "refused, 26 after a commit",
    "refused, 26 after a take-back",
    "refused, 26 after an addition",
    "a row still waits after a refused addition or take-back",
    "a row waits in place of another",
    "a waiting row's flag altered, 26",
    "a waiting row's length altered, 26",
    "a waiting row's length altered, another refusal",
    "a waiting row's numbers altered, a refusal",
    "numbers past a waiting row altered, accepted",
    "an addition, refused, closed",
    "an enquiry, refused, closed",
    "a commit, refused, closed",
    "rows held altered, closed no more",
    "formula rows, accepted, while a row waits",
    "formula rows, refused, while a row waits",
];

/// What the last accepted call, or the last enquiry, did to the row that waits.
#[derive(Clone, Copy, PartialEq, Eq)]
enum Since {
    Nothing,
    Enquiry,
    Refused,
    Commit,
    TakeBack,
    Addition,
}

/// Where the kinds of refusals 9 to 17 begin, two for each.
const AT_ROW: usize = 14;

struct Comparison<'a> {
    tally: &'a mut Tally,
    kinds: Kinds,
}

/// A list of calls, the rows that the accepted ones leave where nothing else writes, and the row that waits.
struct List {
    what: String,
    session: Session,
    rows: Vec<NodeRow>,
    pending: Option<NodeRow>,
    since: Since,
    /// The last call that changed the rows showed "closed".
    closed: bool,
}

impl List {
    fn new(what: &str, t: &Tables, lengths: [usize; 2]) -> List {
        List::on(what, Session::new(t, lengths), &[])
    }

    /// These rows held, as if they had been added.
    fn holding(what: &str, t: &Tables, lengths: [usize; 2], rows: &[NodeRow]) -> List {
        let [mut nodes, mut members] = tables_of(rows);
        let held = [rows.len(), members.len()];
        nodes.resize(lengths[0], 0);
        members.resize(lengths[1], 0);
        List::on(what, Session::on(t, Memory { nodes, members, held, shown: 0, waiting: [0; WAITING] }), rows)
    }

    fn on(what: &str, session: Session, rows: &[NodeRow]) -> List {
        List {
            what: what.to_string(),
            session,
            rows: rows.to_vec(),
            pending: None,
            since: Since::Nothing,
            closed: false,
        }
    }

    /// What a call does to the rows and to the row that waits.
    fn done(&mut self, call: &Call, accepted: bool) {
        if accepted && !matches!(call, Call::Enquire(_)) {
            self.closed = self.session.memory().shown == 1;
        }
        match (call, accepted) {
            (Call::Begin, _) => {
                self.rows.clear();
                (self.pending, self.since) = (None, Since::Nothing);
            }
            (Call::Enquire(row), true) => (self.pending, self.since) = (Some(row.clone()), Since::Enquiry),
            (Call::Enquire(_), false) => (self.pending, self.since) = (None, Since::Refused),
            (_, false) => {}
            (Call::Add(row), true) => {
                self.rows.push(row.clone());
                (self.pending, self.since) = (None, Since::Addition);
            }
            (Call::TakeBack, true) => {
                self.rows.pop();
                (self.pending, self.since) = (None, Since::TakeBack);
            }
            (Call::Commit, true) => {
                self.rows.extend(self.pending.take());
                self.since = Since::Commit;
            }
        }
    }
}

impl Comparison<'_> {
    /// One call, with what 02 says of it; gives its number.
    fn put(&mut self, list: &mut List, call: &Call) -> u64 {
        let before = list.session.memory().clone();
        let result = list.session.call(call);
        self.tally.test(&list.what, result.clone().map(|_| ()).map_err(|why| format!("{}: {why}", about(call))));
        let Ok(packed) = result else { return u64::MAX };
        let accepted = answer(packed) == 0;
        self.count(&list.session, call, packed, &before);
        self.count_waiting(list, call, packed);
        if has_rubbish(&before) {
            self.kinds.count(match call {
                Call::Begin => "formula rows, in memory with rubbish",
                Call::Enquire(_) => "an enquiry, rubbish past the rows held",
                _ if accepted => "rubbish past the rows held, an accepted call",
                _ => "rubbish past the rows held, a refused call",
            });
        }
        list.done(call, accepted);
        let result = as_left(list, call, accepted, packed);
        self.tally.test(&list.what, result.map_err(|why| format!("{}: {why}", about(call))));
        packed
    }

    fn count(&mut self, session: &Session, call: &Call, packed: u64, before: &Memory) {
        let kinds = &mut self.kinds;
        let ([nodes, members], answer, shown) = (before.held, answer(packed), session.memory().shown == 1);
        match (call, answer) {
            (Call::Begin, 0) => kinds.count("formula rows, accepted"),
            (Call::Begin, _) => kinds.count("formula rows, refused"),
            (Call::Add(_), 0) => kinds.count("an addition, accepted"),
            (Call::TakeBack, 0) => kinds.count("a take-back, accepted"),
            (Call::Enquire(_), 0) => kinds.count("an enquiry, accepted"),
            (Call::Enquire(_), _) => kinds.count("an enquiry, refused"),
            (Call::Commit, 0) => kinds.count("a commit, accepted"),
            _ => {}
        }
        if shown {
            kinds.count("closed is shown");
            match (call, answer) {
                (Call::Enquire(_), 0) => kinds.count("an enquiry, closed with the row and not without it"),
                (Call::Commit, 0) => kinds.count("a commit, closed"),
                (Call::Add(_), 1..) => kinds.count("an addition, refused, closed"),
                (Call::Enquire(_), 1..) => kinds.count("an enquiry, refused, closed"),
                (Call::Commit, 1..) => kinds.count("a commit, refused, closed"),
                _ => {}
            }
        }
        let at_row = place(packed) == nodes as i64 && !matches!(call, Call::TakeBack);
        match (answer, call) {
            (2, _) => kinds.count("refused, 2"),
            (5..=8, _) => kinds.count(["refused, 5", "refused, 6", "refused, 7", "refused, 8"][answer as usize - 5]),
            (9..=17, _) => kinds.count(KINDS[AT_ROW + 2 * (answer as usize - 9) + usize::from(!at_row)]),
            (24, Call::Add((_, set)) | Call::Enquire((_, set))) => {
                let members = members + set.len();
                kinds.count_if(nodes == 1024, "refused, 24 for 1,024 nodes");
                let alone = nodes < 1024;
                let passes = members > 8192 && before.members.len() >= members;
                kinds.count_if(alone && passes, "refused, 24 for 8,192 members");
                let short = [before.nodes.len() < 9 * (nodes + 1), members <= 8192 && before.members.len() < members];
                kinds.count_if(alone && short == [true, false], "refused, 24 for the node table");
                kinds.count_if(alone && short == [false, true], "refused, 24 for the member table");
                let falls = set.windows(2).any(|pair| pair[0] >= pair[1]);
                kinds.count_if(falls, "refused, 24 and the row's set is out of order");
            }
            (25, _) => kinds.count("refused, 25"),
            (27, _) => kinds.count("refused, 27"),
            _ => {}
        }
    }

    /// Counts what comes of the row that waits; the list is as before the call.
    fn count_waiting(&mut self, list: &List, call: &Call, packed: u64) {
        let kinds = &mut self.kinds;
        let waits = list.pending.is_some();
        match (call, answer(packed)) {
            (Call::Begin, 0) => kinds.count_if(waits, "formula rows, accepted, while a row waits"),
            (Call::Begin, _) => kinds.count_if(waits, "formula rows, refused, while a row waits"),
            (Call::Enquire(_), 0) => kinds.count_if(waits, "a row waits in place of another"),
            (Call::Add(_) | Call::TakeBack, 1..) => {
                kinds.count_if(waits, "a row still waits after a refused addition or take-back")
            }
            (Call::Commit, 26) => kinds.count(match list.since {
                Since::Nothing => "refused, 26 and nothing was enquired about",
                Since::Commit => "refused, 26 after a commit",
                Since::TakeBack => "refused, 26 after a take-back",
                Since::Addition => "refused, 26 after an addition",
                Since::Refused | Since::Enquiry => "refused, 26 after an enquiry that says no",
            }),
            _ => {}
        }
    }

    fn close(&mut self, list: List) {
        let outside = || Err("written outside of what was lent".to_string());
        self.tally.test(&list.what, if list.session.within() { Ok(()) } else { outside() });
    }

    /// A call after the memory or what is given was changed; all is as before after it. Gives its number.
    fn altered(&mut self, list: &mut List, call: &Call, alter: impl FnOnce(&mut Memory, &mut Tables)) -> u64 {
        let (memory, given) = (list.session.memory().clone(), list.session.given.clone());
        let mut changed = memory.clone();
        alter(&mut changed, &mut list.session.given);
        list.session.set_memory(changed.clone());
        let what = format!("{}, altered", list.what);
        let result = list.session.call(call);
        self.tally.test(&what, result.clone().map(|_| ()).map_err(|why| format!("{}: {why}", about(call))));
        if let Ok(packed) = result {
            self.count(&list.session, call, packed, &changed);
        }
        list.session.given = given;
        list.session.set_memory(memory);
        result.unwrap_or(u64::MAX)
    }
}

/// A call in few words.
fn about(call: &Call) -> String {
    match call {
        Call::Add((row, set)) | Call::Enquire((row, set)) => {
            let call = if matches!(call, Call::Add(_)) { "add" } else { "enquire" };
            let set = if set.len() > 20 { format!("with {} members", set.len()) } else { format!("{set:?}") };
            format!("{call} {row:?} {set}")
        }
        call => format!("{call:?}"),
    }
}

fn has_rubbish(memory: &Memory) -> bool {
    let [nodes, members] = memory.held;
    let past =
        |table: &[i32], from: usize| table.get(from..).is_some_and(|past| past.iter().any(|number| *number != 0));
    past(&memory.nodes, nodes.saturating_mul(9)) || past(&memory.members, members)
}

/// A row as it waits.
fn stored(pending: &Option<NodeRow>) -> [i32; WAITING] {
    let mut waiting = [0; WAITING];
    if let Some((row, set)) = pending {
        let numbers = [1, set.len() as i32].into_iter().chain(*row).chain(set.iter().copied());
        waiting.iter_mut().zip(numbers).for_each(|(place, number)| *place = number);
    }
    waiting
}

/// The rows held are those that the accepted calls leave, and the row waits that should; the counts of an accepted call are
/// those of the rows held, or of those with the row that an enquiry said yes to, and "closed" is shown exactly where the
/// check accepts these, by refused calls too.
fn as_left(list: &List, call: &Call, accepted: bool, packed: u64) -> Result<(), String> {
    let [nodes, members] = tables_of(&list.rows);
    let memory = list.session.memory();
    let held = memory.held == [list.rows.len(), members.len()]
        && memory.nodes.starts_with(&nodes)
        && memory.members.starts_with(&members);
    if !held {
        return Err(format!("{} rows are held, not those of the accepted calls", memory.held[0]));
    }
    if memory.waiting != stored(&list.pending) {
        return Err("not the row that should waits, or one where none should".to_string());
    }
    if accepted && has_rubbish(memory) && !matches!(call, Call::Enquire(_)) {
        return Err("an accepted call leaves rubbish past the rows held".to_string());
    }
    let mut rows = list.rows.clone();
    if let (Call::Enquire(row), true) = (call, accepted) {
        rows.push(row.clone());
    }
    let links = rows.iter().filter(|(row, _)| row[1] == 8).count();
    let counts = (1_u64 << 26) + ((rows.len() as u64) << 13) + links as u64;
    if accepted && packed != counts {
        return Err(format!("{packed:#x} is not the counts of the rows spoken of, {counts:#x}"));
    }
    let closed = list.session.check(&rows) == counts;
    if memory.shown == i32::from(closed) {
        Ok(())
    } else {
        Err(format!("{} is shown, and closed is {closed}", memory.shown))
    }
}

/// Numbers that are wrong somewhere.
fn odd_number(rng: &mut Rng, near: i32) -> i32 {
    let some = [-2, -1, 0, 1, 2, 3, 5, 7, 8, 9, near - 1, near, near + 1, 9999, 100_000, i32::MAX, i32::MIN];
    rng.pick(&some)
}

/// A row that is wrong, as often as not.
fn wrong_row(rng: &mut Rng, rows: &[NodeRow], at: usize, row_count: usize) -> NodeRow {
    let (mut row, mut set) = rows[at].clone();
    match rng.below(12) {
        0..=2 => row[rng.below(7)] = odd_number(rng, at as i32),
        3 => row[0] = rng.range(-1, at as i32),
        4 => row[0] = rng.range(0, at as i32 - 1),
        5 => set.reverse(),
        6 => set.extend(set.last().copied()),
        7 => {
            set.push(rng.range(0, row_count as i32));
            set.sort_unstable();
            set.dedup();
        }
        8 if !set.is_empty() => {
            set.remove(rng.below(set.len()));
        }
        9 => set.push(odd_number(rng, row_count as i32)),
        10 => set = (0..rng.pick(&[8192, 8193, 9000])).collect(),
        _ => (row, set) = rows[rng.below(rows.len())].clone(),
    }
    (row, set)
}

/// Something else in the memory or in what is given.
fn alteration(rng: &mut Rng) -> (&'static str, impl FnOnce(&mut Memory, &mut Tables)) {
    let (sort, at, value) = (rng.below(12), rng.bits() as usize, odd_number(rng, 3));
    let kind = match sort {
        0..=5 => "rows held altered, a refused call",
        6..=8 => "counts altered, a refused call",
        _ => "formula rows altered, a refused call",
    };
    let change = move |table: &mut [i32]| {
        if !table.is_empty() {
            let at = at % table.len();
            table[at] = value;
        }
    };
    let alter = move |memory: &mut Memory, given: &mut Tables| {
        let [nodes, members] = memory.held;
        match sort {
            0..=2 => change(&mut memory.nodes[..9 * nodes]),
            3 => change(&mut memory.members[..members]),
            4 if nodes > 0 => memory.nodes[9 * (at % nodes)] = (at / nodes % nodes) as i32,
            4 | 5 => {
                let swapped = memory.nodes[..9 * nodes].chunks_exact_mut(9).take(2).flatten();
                swapped.for_each(|number| *number = -*number);
            }
            6 => memory.held[at % 2] = memory.held[at % 2].wrapping_add([1, usize::MAX][at / 2 % 2]),
            7 => memory.held[at % 2] = [0, 1024, 8192, 1025, 8193, usize::MAX, usize::MAX / 9 + 1][at / 2 % 7],
            8 => {
                memory.nodes.resize(9300, 0);
                memory.members.resize(8200, 0);
                memory.held[at % 2] = [1025, 8193][at % 2];
            }
            9 => change(&mut given.schema),
            10 if given.proof_count > 0 => change(&mut given.proof),
            10 => given.schema_count = at % 3000,
            _ => [&mut given.root, &mut given.least][at % 2].clone_from(&value),
        }
    };
    (kind, alter)
}

/// Something else in the row that waits: a number's place, another number, and what that is.
fn waiting_alteration(rng: &mut Rng, set: usize) -> (usize, i32, &'static str) {
    match rng.below(6) {
        0 => (0, rng.pick(&[0, 2, -1, 3, i32::MIN, i32::MAX]), "flag"),
        1 => (1, rng.pick(&[-1, 1025, 1033, i32::MIN, i32::MAX, 1 << 16]), "length"),
        2 => (1, rng.pick(&[0, 1, set as i32 - 1, set as i32 + 1, 1024]), "length"),
        3 => (9 + set + rng.below(1024 - set), odd_number(rng, 3), "past"),
        4 if set > 0 => (9 + rng.below(set), odd_number(rng, 3), "numbers"),
        _ => (2 + rng.below(7), odd_number(rng, 3), "numbers"),
    }
}

/// Rubbish past the rows held.
fn litter(list: &mut List, rng: &mut Rng) {
    let mut memory = list.session.memory().clone();
    let [nodes, members] = memory.held;
    for (table, from) in [(&mut memory.nodes, 9 * nodes), (&mut memory.members, members)] {
        if from < table.len() && rng.chance(70) {
            let at = rng.pick(&[from, from + rng.clone().below(table.len() - from), table.len() - 1]);
            table[at] = 7;
        }
    }
    list.session.set_memory(memory);
}

impl Comparison<'_> {
    /// The record's rows one after another from row `from` on, with other calls in between; true if all are added.
    fn feed(&mut self, list: &mut List, rows: &[NodeRow], from: usize, rng: &mut Rng) -> bool {
        let row_count = list.session.given.schema_count + list.session.given.proof_count;
        for at in from..rows.len() {
            let row = &rows[at];
            if rng.chance(25) {
                let wrong = wrong_row(rng, rows, at, row_count);
                self.tries(list, wrong, rng);
            }
            if rng.chance(15) {
                litter(list, rng);
            }
            if rng.chance(15) {
                let calls = [Call::Add(row.clone()), Call::TakeBack, Call::Enquire(row.clone()), Call::Commit];
                let (kind, alter) = alteration(rng);
                let packed = self.altered(list, &calls[rng.below(4)], alter);
                self.kinds.count_if(answer(packed) != 0, kind);
            }
            let packed = match rng.chance(50) {
                true => self.put(list, &Call::Add(row.clone())),
                false => self.settles(list, rows, at, rng),
            };
            if answer(packed) != 0 {
                return false;
            }
            if rng.chance(10) {
                self.put(list, &Call::TakeBack);
                self.put(list, &Call::Add(row.clone()));
            }
            if rng.chance(5) {
                self.put(list, &Call::Commit);
            }
        }
        true
    }

    /// A row that may be wrong, added, or enquired about and perhaps committed; in the end it is not there.
    fn tries(&mut self, list: &mut List, row: NodeRow, rng: &mut Rng) {
        let mut last = if rng.chance(50) { Call::Add(row) } else { Call::Enquire(row) };
        let mut packed = self.put(list, &last);
        if matches!(last, Call::Enquire(_)) && rng.chance(50) {
            last = Call::Commit;
            packed = self.put(list, &last);
        }
        if answer(packed) == 0 && !matches!(last, Call::Enquire(_)) {
            self.put(list, &Call::TakeBack);
        }
    }

    /// Row `at` enquired about and committed, with other calls in between.
    fn settles(&mut self, list: &mut List, rows: &[NodeRow], at: usize, rng: &mut Rng) -> u64 {
        let enquiry = Call::Enquire(rows[at].clone());
        let packed = self.put(list, &enquiry);
        if answer(packed) != 0 {
            self.put(list, &Call::Commit);
            return packed;
        }
        if rng.chance(30) {
            let (place, value, what) = waiting_alteration(rng, rows[at].1.len());
            let packed = self.altered(list, &Call::Commit, |memory, _| memory.waiting[place] = value);
            match (what, answer(packed)) {
                (_, u64::MAX) | ("length" | "numbers", 0) => {}
                ("flag", 26) => self.kinds.count("a waiting row's flag altered, 26"),
                ("length", 26) => self.kinds.count("a waiting row's length altered, 26"),
                ("length", _) => self.kinds.count("a waiting row's length altered, another refusal"),
                ("numbers", _) => self.kinds.count("a waiting row's numbers altered, a refusal"),
                ("past", 0) => self.kinds.count("numbers past a waiting row altered, accepted"),
                (what, answer) => {
                    self.tally.test(&list.what, Err(format!("{what} of a waiting row altered: {answer}")));
                }
            }
        }
        if rng.chance(15) {
            let (row, set) = rows[at].clone();
            self.put(list, &Call::Add((row, [set, vec![-1]].concat())));
        }
        if rng.chance(10) {
            // The row before it, which is the last one that is there, taken back and added again; it waits on if there is none.
            let before = list.rows.last().cloned();
            self.put(list, &Call::TakeBack);
            if let Some(row) = before {
                self.put(list, &Call::Commit);
                self.put(list, &Call::Add(row));
                self.put(list, &Call::Commit);
                self.put(list, &enquiry);
            }
        }
        if rng.chance(10) {
            self.put(list, &enquiry);
        }
        let packed = self.put(list, &Call::Commit);
        if rng.chance(20) {
            self.put(list, &Call::Commit);
        }
        packed
    }

    /// A record's rows fed to memory of some lengths, then some taken back, perhaps more than there are.
    fn grow(&mut self, what: &str, t: &Tables, rng: &mut Rng) -> bool {
        let rows = rows_of(t);
        let exact = [9 * rows.len(), rows.iter().map(|(_, set)| set.len()).sum()];
        let lengths = match rng.below(6) {
            0..=2 => FULL,
            3 => exact,
            4 => [rng.below(exact[0] + 1), exact[1]],
            _ => [exact[0], rng.below(exact[1] + 1)],
        };
        let mut list = List::new(what, t, lengths);
        let begun = answer(self.put(&mut list, &Call::Begin)) == 0;
        let whole = self.feed(&mut list, &rows, 0, rng) && begun && !rows.is_empty();
        let closed = whole && list.closed;
        self.kinds.count_if(closed, "a record grown whole, closed");
        if closed {
            self.put(&mut list, &Call::TakeBack);
            self.put(&mut list, &Call::Add(rows[rows.len() - 1].clone()));
            self.kinds.count_if(list.closed, "closed before and after a take-back of one row and its addition");
        }
        for _ in 0..rng.pick(&[0, 1, 2, list.rows.len() + 2]).min(40) {
            self.put(&mut list, &Call::TakeBack);
        }
        if rng.chance(10) {
            self.put(&mut list, &Call::Begin);
        }
        self.close(list);
        closed
    }

    /// Every row of a record that is shipped, the last ones with other calls in between.
    fn shipped(&mut self, folder: &Path, last: usize, rng: &mut Rng) {
        let file = |name: &str| fs::read(folder.join(name)).unwrap_or_default();
        let t = records::tables(&file("schema.txt"), &file("proof.txt"));
        let what = format!("growing {}", folder.display());
        let rows = rows_of(&t);
        let from = rows.len().saturating_sub(last);
        let mut list = List::new(&what, &t, FULL);
        self.put(&mut list, &Call::Begin);
        if from > 0 {
            self.close(list);
            list = List::holding(&what, &t, FULL, &rows[..from]);
        }
        let whole = self.feed(&mut list, &rows, from, rng);
        let closed = whole && list.closed;
        let accepted = file("expected").starts_with(b"0 ") && !folder.join("older").is_file();
        let why = || format!("closed is {closed}, the check accepts is {accepted}");
        self.tally.test(&what, fits(closed == accepted, why));
        self.kinds.count_if(closed, "a shipped record grown whole, closed");
        self.close(list);
    }
}

pub fn test(tally: &mut Tally, run: &Run) {
    let mut comparison = Comparison { tally, kinds: Kinds::new("growing", &KINDS) };
    comparison.by_hand();
    comparison.rooms();
    comparison.altered_by_hand();
    comparison.enquiries_by_hand();
    comparison.waiting_altered_by_hand();
    comparison.closed_by_hand();
    comparison.begun_again_by_hand();
    let rng = &mut Rng::new(run.seed);
    // Every row of each record in the longer runs.
    let last = if run.count < 1000 { 6 } else { usize::MAX };
    for folder in records::folders(run.records) {
        comparison.shipped(&folder, last, rng);
    }
    for number in 0..run.count / 10 {
        let Input::Check(t) = case(!run.seed, number).input else { continue };
        comparison.grow(&format!("growing, seed {} case {number}", run.seed), &t, rng);
    }
    let Comparison { tally, kinds } = comparison;
    kinds.close(tally);
}

/// The paper's record.
fn paper() -> Tables {
    records::tables(SCHEMA.as_bytes(), PROOF.as_bytes())
}

impl Comparison<'_> {
    /// The call's answer and place.
    fn expect(&mut self, list: &mut List, call: &Call, expected: (u64, i64)) {
        let packed = self.put(list, call);
        let found = (answer(packed), place(packed));
        let why = || format!("{}: {found:?}, expected {expected:?}", about(call));
        self.tally.test(&list.what, fits(found == expected, why));
    }

    /// The paper's record row by row, with wrong rows, and back; the answers worked out by hand.
    fn by_hand(&mut self) {
        let t = paper();
        let rows = rows_of(&t);
        // Rows held, the answer and place, and the row.
        type Wrong<'a> = (usize, (u64, i64), [i32; 7], &'a [i32]);
        let wrong: [Wrong; 18] = [
            (0, (9, 0), rows[0].0, &[9]),
            (0, (10, 0), rows[0].0, &[3]),
            (0, (10, 0), rows[1].0, &[4]),
            (0, (12, 0), [-1, 1, 4, -1, -1, -1, 0], &[4]),
            (1, (9, 1), rows[1].0, &[3, 2]),
            (1, (9, 1), rows[1].0, &[0]),
            (1, (10, 1), [1, 2, -1, -1, -1, -1, 0], &[2, 3]),
            (1, (11, 1), rows[1].0, &[2, 3, 5]),
            // Node 0 has its one child: 17 after 9 and 10, before 11 and what the row has wrong.
            (2, (17, 2), [0, 9, 4, -1, -1, -1, 0], &[5]),
            (2, (9, 2), [0, 9, 4, -1, -1, -1, 0], &[5, 5]),
            (2, (10, 2), [2, 9, 4, -1, -1, -1, 0], &[5]),
            (3, (17, 3), [2, 5, 2, -1, -1, -1, 0], &[2]),
            (4, (12, 4), [3, 9, 2, 5, 6, -1, 0], &[2, 7, 8]),
            (4, (15, 4), [3, 4, 2, 5, 8, -1, 0], &[2, 7, 8]),
            (5, (13, 5), [4, 8, -1, -1, -1, 5, 1], &[5, 7]),
            (5, (14, 5), [4, 8, -1, -1, -1, 1, 2], &[5, 7]),
            (5, (16, 5), [4, 8, -1, -1, -1, 1, 1], &[5]),
            (7, (17, 7), rows[6].0, &[6, 8]),
        ];
        let mut list = List::new("the paper's record, growing", &t, FULL);
        self.expect(&mut list, &Call::Begin, (0, 0));
        self.expect(&mut list, &Call::TakeBack, (25, -1));
        for at in 0..=rows.len() {
            litter(&mut list, &mut Rng::new(at as u64));
            for (_, expected, row, set) in wrong.iter().filter(|(held, ..)| *held == at) {
                self.expect(&mut list, &Call::Add((*row, set.to_vec())), *expected);
            }
            if let Some(row) = rows.get(at) {
                self.expect(&mut list, &Call::Add(row.clone()), (0, 0));
                let shown = list.session.memory().shown == i32::from(at == 6);
                self.tally.test(&list.what, fits(shown, || format!("shown at {at}")));
            }
        }
        for _ in 0..rows.len() {
            self.expect(&mut list, &Call::TakeBack, (0, 0));
        }
        self.expect(&mut list, &Call::TakeBack, (25, -1));
        self.close(list);
        for (answer, place, alter) in formula_rows() {
            let mut list = List::new("formula rows to grow from", &t, [20, 3]);
            alter(&mut list.session.given);
            self.expect(&mut list, &Call::Begin, (answer, place));
            self.expect(&mut list, &Call::TakeBack, (answer, place));
            self.expect(&mut list, &Call::Add(rows[0].clone()), (answer, place));
            self.close(list);
        }
    }

    /// No room, in each of the ways.
    fn rooms(&mut self) {
        let t = paper();
        let rows = rows_of(&t);
        // 2 nodes and 3 members are held; the next row has 2 members.
        for (lengths, expected) in [([27, 5], (0, 0)), ([26, 5], (24, -1)), ([27, 4], (24, -1)), ([18, 3], (24, -1))] {
            let mut list = List::holding("a lent table without room", &t, lengths, &rows[..2]);
            self.expect(&mut list, &Call::Add(rows[2].clone()), expected);
            self.close(list);
        }
        for (length, members, expected) in [(8190, 8192, 24), (8189, 8192, 9), (8190, 9000, 24), (8189, 9000, 9)] {
            let mut list = List::holding("members that pass 8,192", &t, [9216, members], &rows[..2]);
            let expected = (expected, if expected == 24 { -1 } else { 2 });
            self.expect(&mut list, &Call::Add((rows[2].0, vec![9; length])), expected);
            self.close(list);
        }
        // 1,024 nodes and 8,192 members, in tables that are longer.
        let (_, largest) = heavy::tableaux().swap_remove(0);
        let rows = rows_of(&largest);
        let mut list = List::holding("1,024 nodes", &largest, [9300, 8300], &rows[..1023]);
        let (row, mut set) = rows[1023].clone();
        set.push(1023);
        self.expect(&mut list, &Call::Add((row, set)), (24, -1));
        self.expect(&mut list, &Call::Add(rows[1023].clone()), (0, 0));
        self.expect(&mut list, &Call::Add((row, vec![])), (24, -1));
        self.expect(&mut list, &Call::Add(([0; 7], vec![3, 2])), (24, -1));
        self.expect(&mut list, &Call::TakeBack, (0, 0));
        self.close(list);
    }

    /// Rows and counts that something else wrote; the answers worked out by hand.
    fn altered_by_hand(&mut self) {
        let t = paper();
        let rows = rows_of(&t);
        type Alter = fn(&mut Memory);
        let cases: [(u64, i64, Alter); 14] = [
            (2, -1, |memory| memory.nodes.truncate(53)),
            (2, -1, |memory| memory.held = [usize::MAX; 2]),
            (5, -1, |memory| {
                memory.nodes.resize(9225, 0);
                memory.held[0] = 1025;
            }),
            (9, 5, |memory| memory.held[1] += 1),
            (9, 5, |memory| memory.held[1] -= 1),
            (10, 3, |memory| memory.nodes[27] = 3),
            (11, 2, |memory| memory.members[4] = 5),
            (12, 2, |memory| memory.nodes[19] = 9),
            // Node 5 links to itself, by 2, or has lost row 7.
            (13, 5, |memory| memory.nodes[50] = 5),
            (14, 5, |memory| memory.nodes[51] = 2),
            (16, 5, |memory| memory.members[11] = 8),
            // Node 1 splits at 2, so that node 2 knows n ≤ 2; node 4 has another instance.
            (14, 2, |memory| memory.nodes[15] = 2),
            (15, 4, |memory| memory.nodes[40] = 8),
            // Node 4 becomes a second child of node 0: 17 at node 0, before 11 at node 4.
            (17, 0, |memory| memory.nodes[36] = 0),
        ];
        for (answer, place, alter) in cases {
            let row = &rows[6];
            for call in [Call::Add(row.clone()), Call::TakeBack, Call::Enquire(row.clone()), Call::Commit] {
                let mut list = List::holding("a tableau altered between calls", &t, FULL, &rows[..6]);
                let mut memory = list.session.memory().clone();
                alter(&mut memory);
                list.session.set_memory(memory.clone());
                let found = list.session.call(&call);
                let expected = Ok((answer, place));
                if let Ok(packed) = found {
                    let before = Memory { held: [6, 12], ..memory.clone() };
                    self.count(&list.session, &call, packed, &before);
                }
                let found = found.map(|packed| (self::answer(packed), self::place(packed)));
                let why = || format!("{}: {found:?}, expected {expected:?}", about(&call));
                self.tally.test(&list.what, fits(found == expected, why));
                let kept = *list.session.memory() == Memory { shown: 0, ..memory };
                self.tally.test(&list.what, fits(kept, || "the memory is not as it was".to_string()));
                self.close(list);
            }
        }
        // Members are counted, and there is no node: the first row's set would not start at 0.
        let row = &rows[0];
        let calls = [
            (Call::TakeBack, (25, -1)),
            (Call::Add(row.clone()), (9, 0)),
            (Call::Enquire(row.clone()), (9, 0)),
            (Call::Commit, (26, -1)),
        ];
        for (call, expected) in calls {
            let mut list = List::holding("members without a node", &t, FULL, &[]);
            let memory = Memory { held: [0, 1], ..list.session.memory().clone() };
            list.session.set_memory(memory);
            let found = list.session.call(&call).map(|packed| (self::answer(packed), self::place(packed)));
            let why = || format!("{}: {found:?}, expected {expected:?}", about(&call));
            self.tally.test(&list.what, fits(found == Ok(expected), why));
            self.kinds.count("members counted without a node");
            self.close(list);
        }
    }
}

impl Comparison<'_> {
    /// The paper's record by enquiries and commits; the answers worked out by hand.
    fn enquiries_by_hand(&mut self) {
        let t = paper();
        let rows = rows_of(&t);
        let enquire = |at: usize| Call::Enquire(rows[at].clone());
        let (row, set) = rows[5].clone();
        let wrong = (row, vec![7, 5]);
        let other = ([4, 2, -1, -1, -1, -1, 0], vec![2, 5, 7]);
        let mut list = List::new("the paper's record, enquired about", &t, FULL);
        self.expect(&mut list, &Call::Begin, (0, 0));
        for at in 0..5 {
            litter(&mut list, &mut Rng::new(at as u64));
            self.expect(&mut list, &Call::Commit, (26, -1));
            self.expect(&mut list, &enquire(at), (0, 0));
            self.expect(&mut list, &Call::Commit, (0, 0));
        }
        let calls = [
            (enquire(5), (0, 0)),
            (Call::Enquire(wrong.clone()), (9, 5)),
            (Call::Commit, (26, -1)),
            (Call::Enquire(other), (0, 0)),
            (enquire(5), (0, 0)),
            (Call::Add(wrong), (9, 5)),
            (Call::Commit, (0, 0)),
            (Call::Commit, (26, -1)),
            (enquire(6), (0, 0)),
            (Call::TakeBack, (0, 0)),
            (Call::Commit, (26, -1)),
            (enquire(5), (0, 0)),
            (Call::Add((row, set)), (0, 0)),
            (Call::Commit, (26, -1)),
            (enquire(6), (0, 0)),
            (Call::Commit, (0, 0)),
            (enquire(6), (17, 7)),
            (Call::Commit, (26, -1)),
        ];
        for (call, expected) in calls {
            self.expect(&mut list, &call, expected);
        }
        self.close(list);
        // No room, in tables for the rows held: asked about, and found when a row that waits is committed.
        let mut list = List::holding("an enquiry without room", &t, [45, 12], &rows[..5]);
        self.expect(&mut list, &enquire(5), (24, -1));
        self.close(list);
        let mut list = List::holding("an enquiry without room", &t, [54, 11], &rows[..5]);
        self.expect(&mut list, &enquire(5), (24, -1));
        self.close(list);
        // Nothing to take back, and a row waits on.
        let mut list = List::holding("the first row, enquired about", &t, FULL, &[]);
        self.expect(&mut list, &enquire(0), (0, 0));
        self.expect(&mut list, &Call::TakeBack, (25, -1));
        self.expect(&mut list, &Call::Commit, (0, 0));
        self.close(list);
    }

    /// The paper's record held whole: refused calls show that it is closed, unless something else altered it.
    fn closed_by_hand(&mut self) {
        let t = paper();
        let rows = rows_of(&t);
        let (row, set) = rows[6].clone();
        let calls = [
            (Call::Add((row, set.clone())), (17, 7)),
            (Call::Add((row, vec![9; 8192])), (24, -1)),
            (Call::Enquire((row, set)), (17, 7)),
            (Call::Commit, (26, -1)),
        ];
        for (call, expected) in &calls {
            let mut list = List::holding("a closed tableau", &t, FULL, &rows);
            self.expect(&mut list, call, *expected);
            let shown = list.session.memory().shown;
            self.tally.test(&list.what, fits(shown == 1, || format!("{}: {shown} is shown", about(call))));
            // Node 2 has no rule.
            let mut memory = list.session.memory().clone();
            memory.nodes[19] = 9;
            list.session.set_memory(memory);
            let found = list.session.call(call).map(|packed| (answer(packed), place(packed)));
            let found = (found, list.session.memory().shown);
            let why = || format!("{}, altered: {found:?}", about(call));
            self.tally.test(&list.what, fits(found == (Ok((12, 2)), 0), why));
            self.kinds.count("rows held altered, closed no more");
            self.close(list);
        }
    }

    /// Formula rows while the paper's row 5 waits: it waits no more, whatever they are answered.
    fn begun_again_by_hand(&mut self) {
        let t = paper();
        let rows = rows_of(&t);
        for (root, begun, then) in [(t.root, (0, 0), (26, -1)), (0, (6, -1), (6, -1))] {
            let mut list = List::holding("formula rows while a row waits", &t, FULL, &rows[..5]);
            self.expect(&mut list, &Call::Enquire(rows[5].clone()), (0, 0));
            list.session.given.root = root;
            self.expect(&mut list, &Call::Begin, begun);
            self.expect(&mut list, &Call::Commit, then);
            self.close(list);
        }
    }

    /// The paper's row 5 waits, and something else writes; the answers worked out by hand.
    fn waiting_altered_by_hand(&mut self) {
        let t = paper();
        let rows = rows_of(&t);
        type Alter = fn(&mut Memory);
        let cases: [(u64, i64, &str, Alter); 22] = [
            (26, -1, "flag", |memory| memory.waiting[0] = 0),
            (26, -1, "flag", |memory| memory.waiting[0] = 2),
            (26, -1, "flag", |memory| memory.waiting[0] = -1),
            (26, -1, "length", |memory| memory.waiting[1] = -1),
            (26, -1, "length", |memory| memory.waiting[1] = 1025),
            (26, -1, "length", |memory| memory.waiting[1] = i32::MIN),
            (26, -1, "length", |memory| memory.waiting[1] = i32::MAX),
            (9, 5, "other length", |memory| memory.waiting[1] = 1024),
            (16, 5, "other length", |memory| memory.waiting[1] = 1),
            (16, 5, "other length", |memory| memory.waiting[1] = 0),
            (10, 5, "numbers", |memory| memory.waiting[2] = 5),
            (17, 5, "numbers", |memory| memory.waiting[2] = 0),
            (12, 5, "numbers", |memory| memory.waiting[3] = 9),
            (13, 5, "numbers", |memory| memory.waiting[7] = 5),
            (14, 5, "numbers", |memory| memory.waiting[8] = 2),
            (9, 5, "numbers", |memory| memory.waiting[10] = 5),
            (11, 5, "numbers", |memory| memory.waiting[10] = 6),
            (24, -1, "", |memory| memory.nodes.truncate(53)),
            (24, -1, "", |memory| memory.members.truncate(11)),
            // The rows held come before 26.
            (12, 2, "", |memory| (memory.nodes[19], memory.waiting[0]) = (9, 0)),
            (2, -1, "", |memory| memory.nodes.truncate(44)),
            (0, 0, "past", |memory| memory.waiting[11] = 9),
        ];
        for (answer, place, what, alter) in cases {
            let mut list = List::holding("a waiting row altered between calls", &t, FULL, &rows[..5]);
            self.expect(&mut list, &Call::Enquire(rows[5].clone()), (0, 0));
            let packed = self.altered(&mut list, &Call::Commit, |memory, _| alter(memory));
            let found = (self::answer(packed), self::place(packed));
            let why = || format!("{what}: {found:?}, expected {:?}", (answer, place));
            self.tally.test(&list.what, fits(found == (answer, place), why));
            match what {
                "flag" => self.kinds.count("a waiting row's flag altered, 26"),
                "length" => self.kinds.count("a waiting row's length altered, 26"),
                "other length" => self.kinds.count("a waiting row's length altered, another refusal"),
                "numbers" => self.kinds.count("a waiting row's numbers altered, a refusal"),
                "past" => self.kinds.count("numbers past a waiting row altered, accepted"),
                _ => {}
            }
            self.expect(&mut list, &Call::Commit, (0, 0));
            self.close(list);
        }
    }
}

type AlterRows = fn(&mut Tables);

/// The paper's formula rows with each refusal.
fn formula_rows() -> [(u64, i64, AlterRows); 9] {
    [
        (2, -1, |t| t.schema_count = 6),
        (2, -1, |t| t.proof_count = usize::MAX),
        (5, -1, |t| {
            t.proof.resize(4 * 1020, 0);
            t.proof_count = 1020;
        }),
        (6, -1, |t| t.root = 5),
        (6, -1, |t| t.root = 0),
        (6, -1, |t| t.least = 10_000),
        (7, 5, |t| t.proof[1] = 5),
        (8, 20, |t| {
            t.proof.extend((8..20).flat_map(|row| [4, row, row, 0]));
            t.proof_count += 12;
        }),
        (27, 6, |t| t.proof.copy_within(0..4, 4)),
    ]
}

/// The last row of the largest and slowest tableaux added, taken back, enquired about and committed.
pub fn heavy(tally: &mut Tally) {
    let mut comparison = Comparison { tally, kinds: Kinds::new("growing", &KINDS) };
    for (name, t) in heavy::tableaux() {
        let rows = rows_of(&t);
        let mut list = List::holding(&format!("growing, {name}"), &t, FULL, &rows[..rows.len() - 1]);
        comparison.expect(&mut list, &Call::Add(rows[rows.len() - 1].clone()), (0, 0));
        let closed = list.session.memory().shown == 1;
        comparison.tally.test(name, fits(closed, || "not closed".to_string()));
        comparison.expect(&mut list, &Call::TakeBack, (0, 0));
        comparison.expect(&mut list, &Call::Enquire(rows[rows.len() - 1].clone()), (0, 0));
        comparison.expect(&mut list, &Call::Commit, (0, 0));
        comparison.close(list);
    }
}
