//! A tableau that grows row by row: document 02, No. 7; enquiries about a row, and commits: No. 8.

use crate::formula::{judge_rows, Twice};
use crate::tableau::{self, judge_tables, Kept, Missing, Record};
use crate::{holds, refuse, Refusal, Verdict, MAX_MEMBERS, MAX_NODES, MAX_ROWS, NODE_WIDTH, ROW_WIDTH};

/// What is given with every call: root and least value, then the formula rows.
#[derive(Clone, Copy, Debug)]
pub struct Given<'a> {
    pub root: i32,
    pub least: i32,
    pub schema: &'a [i32],
    pub schema_count: usize,
    pub proof: &'a [i32],
    pub proof_count: usize,
}

/// The numbers of a row that waits: 1, its set's length, its seven numbers, its set, and 0 past it.
pub const WAITING: usize = 2 + 7 + MAX_ROWS;

/// The memory in which the rows held stand: the tables, how many nodes and members they hold, and 1 where "closed" is
/// shown: after every call, refused or not. And the row last enquired about, if it waits for a commit; all 0 if none
/// does.
#[derive(Clone, Debug, PartialEq, Eq)]
pub struct Memory {
    pub nodes: Vec<i32>,
    pub members: Vec<i32>,
    pub held: [usize; 2],
    pub shown: i32,
    pub waiting: [i32; WAITING],
}

impl Memory {
    /// The rows given and held as one record.
    fn record<'a>(&'a self, given: &Given<'a>) -> Record<'a> {
        let Given { root, least, schema, schema_count, proof, proof_count } = *given;
        let [node_count, member_count] = self.held;
        let (nodes, members) = (&self.nodes, &self.members);
        Record { root, least, schema, schema_count, proof, proof_count, nodes, node_count, members, member_count }
    }

    /// The rows held, whatever is wrong with them but what is missing.
    fn judge<'a>(&'a self, given: &Given<'a>) -> Result<Kept<'a>, Refusal> {
        judge_tables(Twice::Refused, Missing::Allowed, &self.record(given))
    }

    /// The whole check accepts the rows held.
    fn closed(&self, given: &Given) -> bool {
        tableau::check(&self.record(given)).answer == 0
    }

    fn hold(&mut self, nodes: usize, members: usize) {
        self.held = [nodes, members];
        self.nodes[nodes * NODE_WIDTH..].fill(0);
        self.members[members..].fill(0);
    }

    /// The row that waits, whoever wrote it.
    fn waiting(&self) -> Option<([i32; 7], Vec<i32>)> {
        let [flag, length, row @ ..] = &self.waiting;
        let length = usize::try_from(*length).ok().filter(|length| *length <= MAX_ROWS && *flag == 1)?;
        let (row, set) = row.split_at(7);
        Some((std::array::from_fn(|field| row[field]), set[..length].to_vec()))
    }

    fn wait(&mut self, row: &[i32; 7], set: &[i32]) {
        self.waiting.fill(0);
        self.waiting[..2].copy_from_slice(&[1, set.len() as i32]);
        self.waiting[2..9].copy_from_slice(row);
        self.waiting[9..][..set.len()].copy_from_slice(set);
    }

    /// Adds a row for which there is room.
    fn push(&mut self, row: &[i32; 7], set: &[i32]) {
        let [nodes, members] = self.held;
        let place = [members as i32, set.len() as i32];
        self.nodes[nodes * NODE_WIDTH..][..NODE_WIDTH].copy_from_slice(&[&row[..], &place].concat());
        self.members[members..][..set.len()].copy_from_slice(set);
        self.hold(nodes + 1, members + set.len());
    }
}

/// Formula rows are given, no row is held and none waits, whatever the memory was and whatever is answered.
pub fn begin(given: &Given, memory: &mut Memory) -> Verdict {
    memory.hold(0, 0);
    memory.shown = 0;
    memory.waiting.fill(0);
    let Given { root, least, schema, schema_count, proof, proof_count } = *given;
    let long_enough = holds(schema.len(), schema_count, ROW_WIDTH) && holds(proof.len(), proof_count, ROW_WIDTH);
    let judged = if !long_enough {
        refuse(2, -1)
    } else if schema_count.saturating_add(proof_count) > MAX_ROWS {
        refuse(5, -1)
    } else {
        judge_rows(Twice::Refused, root, least, schema, schema_count, proof, proof_count)
    };
    judged.map_or_else(Verdict::refused, |_| Verdict::accepted(0, 0))
}

/// The nodes and links that there are with this row; the rows held are judged first, then whether there is room for the
/// row, then the row.
fn with_row(given: &Given, memory: &Memory, row: &[i32; 7], set: &[i32]) -> Result<Verdict, Refusal> {
    let mut kept = memory.judge(given)?;
    let [nodes, members] = [memory.held[0] + 1, memory.held[1].saturating_add(set.len())];
    let allowed = nodes <= MAX_NODES && members <= MAX_MEMBERS;
    if !allowed || !holds(memory.nodes.len(), nodes, NODE_WIDTH) || !holds(memory.members.len(), members, 1) {
        return refuse(24, -1);
    }
    // Members are counted and no node has them: the first row's set would not start at 0.
    if nodes == 1 && memory.held[1] > 0 {
        return refuse(9, 0);
    }
    kept.push(row, set)?;
    Ok(Verdict::accepted(kept.nodes(), kept.links()))
}

/// Adds a node row at the end, and no row waits. A refused call changes no row.
pub fn add(given: &Given, memory: &mut Memory, row: &[i32; 7], set: &[i32]) -> Verdict {
    let judged = with_row(given, memory, row, set);
    if judged.is_ok() {
        memory.push(row, set);
        memory.waiting.fill(0);
    }
    show(given, memory, judged)
}

/// Answers and shows as adding would, and changes no row: a row that would be added waits, otherwise none does.
pub fn enquire(given: &Given, memory: &mut Memory, row: &[i32; 7], set: &[i32]) -> Verdict {
    let mut with_it = memory.clone();
    let verdict = add(given, &mut with_it, row, set);
    memory.shown = with_it.shown;
    memory.waiting.fill(0);
    if verdict.answer == 0 {
        memory.wait(row, set);
    }
    verdict
}

/// Adds the row that waits.
pub fn commit(given: &Given, memory: &mut Memory) -> Verdict {
    let judged = memory.judge(given).map(|_| memory.waiting());
    match judged {
        Err(refusal) => show(given, memory, Err(refusal)),
        Ok(None) => show(given, memory, refuse(26, -1)),
        Ok(Some((row, set))) => add(given, memory, &row, &set),
    }
}

/// Takes the last node row back, and no row waits.
pub fn take_back(given: &Given, memory: &mut Memory) -> Verdict {
    let judged = without_last(given, memory);
    if judged.is_ok() {
        let nodes = memory.held[0] - 1;
        let length = memory.nodes[nodes * NODE_WIDTH + 8] as usize;
        memory.hold(nodes, memory.held[1] - length);
        memory.waiting.fill(0);
    }
    show(given, memory, judged)
}

fn without_last(given: &Given, memory: &Memory) -> Result<Verdict, Refusal> {
    let mut kept = memory.judge(given)?;
    if !kept.pop() {
        return refuse(25, -1);
    }
    Ok(Verdict::accepted(kept.nodes(), kept.links()))
}

/// "closed" where the whole check accepts the rows held, whatever the call is answered.
fn show(given: &Given, memory: &mut Memory, judged: Result<Verdict, Refusal>) -> Verdict {
    memory.shown = i32::from(memory.closed(given));
    judged.unwrap_or_else(Verdict::refused)
}

#[cfg(test)]
mod tests {
    use super::*;
    use crate::paper::{NODES, PROOF, SCHEMA};

    const GIVEN: Given = Given {
        root: 4,
        least: 1,
        schema: SCHEMA.as_flattened(),
        schema_count: 5,
        proof: PROOF.as_flattened(),
        proof_count: 4,
    };

    /// Memory with rubbish in it, of these lengths.
    fn rubbish(nodes: usize, members: usize) -> Memory {
        Memory { nodes: vec![-7; nodes], members: vec![7; members], held: [3, 5], shown: 7, waiting: [1; WAITING] }
    }

    fn accepted(nodes: usize, links: usize) -> Verdict {
        Verdict::accepted(nodes, links)
    }

    fn refused(answer: u8, place: i32) -> Verdict {
        Verdict::refused(Refusal { answer, place })
    }

    /// The memory once these rows of the record are added.
    fn grown(count: usize) -> Memory {
        let mut memory = rubbish(9216, 8192);
        assert_eq!(begin(&GIVEN, &mut memory), accepted(0, 0));
        for (number, (row, set)) in NODES.iter().take(count).enumerate() {
            let links = usize::from(number >= 5);
            assert_eq!(add(&GIVEN, &mut memory, row, set), accepted(number + 1, links));
            assert_eq!(memory.shown, i32::from(number == 6));
        }
        memory
    }

    /// The call is refused, the memory is as it was, and this is shown.
    fn shows(shown: i32, memory: &Memory, expected: (u8, i32), call: impl FnOnce(&mut Memory) -> Verdict) {
        let mut after = memory.clone();
        after.shown = 7;
        assert_eq!(call(&mut after), refused(expected.0, expected.1));
        assert_eq!(after, Memory { shown, ..memory.clone() });
    }

    /// The same, where the rows held are open.
    fn leaves(memory: &Memory, expected: (u8, i32), call: impl FnOnce(&mut Memory) -> Verdict) {
        shows(0, memory, expected, call);
    }

    #[test]
    fn row_by_row_and_back() {
        let mut memory = grown(7);
        let tables: Vec<i32> = [
            [-1, 0, 4, -1, -1, -1, 0, 0, 1],
            [0, 2, -1, -1, -1, -1, 0, 1, 2],
            [1, 7, 2, -1, -1, -1, 0, 3, 2],
            [1, 3, 3, 7, 8, -1, 0, 5, 2],
            [3, 4, 2, 5, 6, -1, 0, 7, 3],
            [4, 8, -1, -1, -1, 1, 1, 10, 2],
            [4, 6, 6, 8, -1, -1, 0, 12, 2],
        ]
        .concat();
        assert_eq!(memory.nodes[..63], tables);
        assert_eq!(memory.members[..14], [4, 2, 3, 2, 3, 2, 3, 2, 7, 8, 5, 7, 6, 8]);
        assert!(memory.nodes[63..].iter().chain(&memory.members[14..]).all(|number| *number == 0));
        for left in (0..7).rev() {
            // Rubbish past the rows held goes.
            memory.nodes[63] = 1;
            memory.members[14] = 1;
            assert_eq!(take_back(&GIVEN, &mut memory), accepted(left, usize::from(left == 6)));
            assert_eq!((memory.shown, memory.held), (0, grown(left).held));
            assert_eq!((&memory.nodes, &memory.members), (&grown(left).nodes, &grown(left).members));
        }
        leaves(&memory, (25, -1), |memory| take_back(&GIVEN, memory));
    }

    #[test]
    fn wrong_rows() {
        let wrong = |held: usize, expected: (u8, i32), row: [i32; 7], set: &[i32]| {
            let mut memory = grown(held);
            (memory.nodes[9 * held], memory.members[20]) = (5, 5);
            // With all seven the tableau is closed, and stays so.
            shows(i32::from(held == 7), &memory, expected, |memory| add(&GIVEN, memory, &row, set));
        };
        wrong(0, (9, 0), NODES[0].0, &[9]);
        wrong(0, (10, 0), NODES[0].0, &[3]);
        wrong(0, (10, 0), NODES[1].0, &[4]);
        wrong(0, (12, 0), [-1, 1, 4, -1, -1, -1, 0], &[4]);
        wrong(1, (9, 1), NODES[1].0, &[3, 2]);
        wrong(1, (9, 1), NODES[1].0, &[0]);
        wrong(1, (10, 1), [1, 2, -1, -1, -1, -1, 0], &[2, 3]);
        wrong(1, (11, 1), NODES[1].0, &[2, 3, 5]);
        // Node 0 has its one child: 17 before 11, and before what the row itself has wrong.
        wrong(2, (17, 2), [0, 9, 4, -1, -1, -1, 0], &[5]);
        wrong(2, (9, 2), [0, 9, 4, -1, -1, -1, 0], &[5, 5]);
        wrong(2, (10, 2), [2, 9, 4, -1, -1, -1, 0], &[5]);
        // Node 2 has none.
        wrong(3, (17, 3), [2, 5, 2, -1, -1, -1, 0], &[2]);
        wrong(4, (12, 4), [3, 9, 2, 5, 6, -1, 0], &[2, 7, 8]);
        wrong(4, (15, 4), [3, 4, 2, 5, 8, -1, 0], &[2, 7, 8]);
        wrong(5, (13, 5), [4, 8, -1, -1, -1, 5, 1], &[5, 7]);
        wrong(5, (14, 5), [4, 8, -1, -1, -1, 1, 2], &[5, 7]);
        wrong(5, (16, 5), [4, 8, -1, -1, -1, 1, 1], &[5]);
        wrong(7, (17, 7), NODES[6].0, NODES[6].1);
    }

    #[test]
    fn no_room() {
        // 2 nodes and 3 members are held; the next row has 2 members.
        let (row, set) = NODES[2];
        for (nodes, members, fits) in [(27, 5, true), (26, 5, false), (27, 4, false), (18, 3, false)] {
            let mut memory = grown(2);
            memory.nodes.truncate(nodes);
            memory.members.truncate(members);
            if fits {
                assert_eq!(add(&GIVEN, &mut memory, &row, set), accepted(3, 0));
            } else {
                leaves(&memory, (24, -1), |memory| add(&GIVEN, memory, &row, set));
            }
        }
        // 24 comes before 9.
        let mut memory = grown(2);
        leaves(&memory, (24, -1), |memory| add(&GIVEN, memory, &row, &[9; 8190]));
        leaves(&memory, (9, 2), |memory| add(&GIVEN, memory, &row, &[9; 8189]));
        memory.members.resize(9000, 0);
        leaves(&memory, (24, -1), |memory| add(&GIVEN, memory, &row, &[9; 8190]));
        // 1,024 nodes: an and of true and itself, again and again below one another.
        let schema = [0, 0, 0, 0, 4, 0, 0, 0];
        let given = Given { root: 1, least: 0, schema: &schema, schema_count: 2, proof: &[], proof_count: 0 };
        let mut memory = rubbish(9300, 1100);
        begin(&given, &mut memory);
        for number in 0..1024 {
            let row = [number as i32 - 1, 0, 1, -1, -1, -1, 0];
            assert_eq!(add(&given, &mut memory, &row, &[1]), accepted(number + 1, 0));
        }
        leaves(&memory, (24, -1), |memory| add(&given, memory, &[1023, 9, 1, -1, -1, -1, 0], &[1]));
    }

    #[test]
    fn rows_altered_between_calls() {
        let altered = |expected: (u8, i32), alter: &dyn Fn(&mut Memory)| {
            let mut memory = grown(5);
            alter(&mut memory);
            let (row, set) = NODES[5];
            leaves(&memory, expected, |memory| add(&GIVEN, memory, &row, set));
            leaves(&memory, expected, |memory| take_back(&GIVEN, memory));
        };
        altered((2, -1), &|memory| memory.nodes.truncate(44));
        altered((2, -1), &|memory| memory.held = [usize::MAX, usize::MAX]);
        altered((5, -1), &|memory| {
            memory.nodes.resize(9225, 0);
            memory.held[0] = 1025;
        });
        altered((9, 4), &|memory| memory.held[1] += 1);
        altered((9, 4), &|memory| memory.held[1] -= 1);
        altered((10, 3), &|memory| memory.nodes[27] = 3);
        altered((11, 2), &|memory| memory.members[4] = 5);
        altered((12, 2), &|memory| memory.nodes[19] = 9);
        // Node 4 becomes a second child of node 0: 17 at node 0, before 11 at node 4.
        altered((17, 0), &|memory| memory.nodes[36] = 0);
    }

    #[test]
    fn members_without_a_node() {
        let mut memory = grown(0);
        memory.held = [0, 1];
        leaves(&memory, (25, -1), |memory| take_back(&GIVEN, memory));
        let (row, set) = NODES[0];
        leaves(&memory, (9, 0), |memory| add(&GIVEN, memory, &row, set));
    }

    #[test]
    fn formula_rows() {
        let away = |expected: (u8, i32), given: Given| {
            let mut memory = rubbish(20, 3);
            assert_eq!(begin(&given, &mut memory), refused(expected.0, expected.1));
            let waiting = [0; WAITING];
            assert_eq!(memory, Memory { nodes: vec![0; 20], members: vec![0; 3], held: [0, 0], shown: 0, waiting });
        };
        away((2, -1), Given { schema_count: 6, ..GIVEN });
        away((2, -1), Given { proof_count: usize::MAX, ..GIVEN });
        let many = [[0; 4]; 1020].concat();
        away((5, -1), Given { proof: &many, proof_count: 1020, ..GIVEN });
        away((6, -1), Given { root: 5, ..GIVEN });
        away((6, -1), Given { root: 0, ..GIVEN });
        away((6, -1), Given { least: 10_000, ..GIVEN });
        away((7, 5), Given { proof: &[7, 5, 0, 0], proof_count: 1, ..GIVEN });
        away((27, 5), Given { proof: &[7, 0, 2, 0], proof_count: 1, ..GIVEN });
        let mut memory = rubbish(0, 0);
        assert_eq!(begin(&GIVEN, &mut memory), accepted(0, 0));
        assert_eq!(memory.waiting, [0; WAITING]);
        leaves(&memory, (24, -1), |memory| add(&GIVEN, memory, &NODES[0].0, NODES[0].1));
        // Formula rows are judged again with every call; what is held is closed only under those that it was grown from.
        leaves(&grown(7), (14, 2), |memory| take_back(&Given { least: 2, ..GIVEN }, memory));
    }

    #[test]
    fn closed_after_refused_calls() {
        let memory = grown(7);
        let (row, set) = NODES[6];
        shows(1, &memory, (17, 7), |memory| add(&GIVEN, memory, &row, set));
        shows(1, &memory, (17, 7), |memory| enquire(&GIVEN, memory, &row, set));
        shows(1, &memory, (26, -1), |memory| commit(&GIVEN, memory));
        shows(1, &memory, (24, -1), |memory| add(&GIVEN, memory, &row, &[9; 8190]));
        // Rows that something else altered are refused, and not closed.
        let mut memory = memory;
        memory.nodes[19] = 9;
        leaves(&memory, (12, 2), |memory| add(&GIVEN, memory, &row, set));
        leaves(&memory, (12, 2), |memory| take_back(&GIVEN, memory));
        leaves(&memory, (12, 2), |memory| enquire(&GIVEN, memory, &row, set));
        leaves(&memory, (12, 2), |memory| commit(&GIVEN, memory));
    }

    #[test]
    fn formula_rows_end_a_wait() {
        for given in [GIVEN, Given { root: 0, ..GIVEN }] {
            let mut memory = grown(5);
            says_yes(&mut memory, 6, 1, |memory| enquire(&GIVEN, memory, &NODES[5].0, NODES[5].1));
            begin(&given, &mut memory);
            assert_eq!(memory, grown(0));
        }
    }

    /// The call is accepted.
    fn says_yes(memory: &mut Memory, nodes: usize, links: usize, call: impl FnOnce(&mut Memory) -> Verdict) {
        assert_eq!(call(memory), accepted(nodes, links));
    }

    #[test]
    fn enquiries_and_commits() {
        let mut memory = grown(5);
        leaves(&memory, (26, -1), |memory| commit(&GIVEN, memory));
        memory.nodes[100] = 5;
        let before = memory.clone();
        let ((row, set), (other, other_set)) = (NODES[5], NODES[6]);
        says_yes(&mut memory, 6, 1, |memory| enquire(&GIVEN, memory, &row, set));
        let mut waiting = [0; WAITING];
        waiting[..11].copy_from_slice(&[1, 2, 4, 8, -1, -1, -1, 1, 1, 5, 7]);
        // No row is changed, and what is past the rows held is as it was.
        assert_eq!(memory, Memory { waiting, ..before.clone() });
        // One that says no leaves nothing to commit.
        assert_eq!(enquire(&GIVEN, &mut memory, &row, &[7, 5]), refused(9, 5));
        assert_eq!(memory, before);
        leaves(&memory, (26, -1), |memory| commit(&GIVEN, memory));
        // The last one counts; a refused addition or take-back leaves it waiting.
        says_yes(&mut memory, 6, 0, |memory| enquire(&GIVEN, memory, &[4, 2, -1, -1, -1, -1, 0], &[2, 5, 7]));
        says_yes(&mut memory, 6, 1, |memory| enquire(&GIVEN, memory, &row, set));
        leaves(&memory, (9, 5), |memory| add(&GIVEN, memory, &row, &[7, 5]));
        leaves(&memory, (6, -1), |memory| take_back(&Given { root: 0, ..GIVEN }, memory));
        says_yes(&mut memory, 6, 1, |memory| commit(&GIVEN, memory));
        assert_eq!(memory, Memory { shown: 0, ..grown(6) });
        leaves(&memory, (26, -1), |memory| commit(&GIVEN, memory));
        // Closed is shown as if the row were there, then because it is.
        says_yes(&mut memory, 7, 1, |memory| enquire(&GIVEN, memory, &other, other_set));
        assert_eq!((memory.shown, memory.held), (1, [6, 12]));
        says_yes(&mut memory, 7, 1, |memory| commit(&GIVEN, memory));
        assert_eq!(memory, grown(7));
    }

    #[test]
    fn calls_that_leave_nothing_to_commit() {
        let (row, set) = NODES[5];
        let mut memory = grown(5);
        says_yes(&mut memory, 6, 1, |memory| enquire(&GIVEN, memory, &row, set));
        says_yes(&mut memory, 4, 0, |memory| take_back(&GIVEN, memory));
        leaves(&memory, (26, -1), |memory| commit(&GIVEN, memory));
        let mut memory = grown(5);
        says_yes(&mut memory, 6, 1, |memory| enquire(&GIVEN, memory, &row, set));
        says_yes(&mut memory, 6, 1, |memory| add(&GIVEN, memory, &row, set));
        leaves(&memory, (26, -1), |memory| commit(&GIVEN, memory));
        assert_eq!(memory, grown(6));
    }

    #[test]
    fn rows_altered_while_they_wait() {
        let (row, set) = NODES[5];
        let mut memory = grown(5);
        says_yes(&mut memory, 6, 1, |memory| enquire(&GIVEN, memory, &row, set));
        let altered = |expected: (u8, i32), alter: &dyn Fn(&mut Memory)| {
            let mut memory = memory.clone();
            alter(&mut memory);
            leaves(&memory, expected, |memory| commit(&GIVEN, memory));
        };
        for (at, number) in [(0, 0), (0, 2), (0, -1), (1, -1), (1, 1025), (1, i32::MIN), (1, i32::MAX)] {
            altered((26, -1), &|memory| memory.waiting[at] = number);
        }
        altered((9, 5), &|memory| memory.waiting[1] = 1024);
        altered((16, 5), &|memory| memory.waiting[1] = 1);
        altered((10, 5), &|memory| memory.waiting[2] = 5);
        altered((17, 5), &|memory| memory.waiting[2] = 0);
        altered((12, 5), &|memory| memory.waiting[3] = 9);
        altered((13, 5), &|memory| memory.waiting[7] = 5);
        altered((14, 5), &|memory| memory.waiting[8] = 2);
        altered((9, 5), &|memory| memory.waiting[10] = 5);
        altered((11, 5), &|memory| memory.waiting[10] = 6);
        altered((24, -1), &|memory| memory.nodes.truncate(53));
        altered((24, -1), &|memory| memory.members.truncate(11));
        // The rows held come first.
        altered((12, 2), &|memory| (memory.nodes[19], memory.waiting[0]) = (9, 0));
        // What stands past its set is not looked at.
        memory.waiting[11] = 9;
        says_yes(&mut memory, 6, 1, |memory| commit(&GIVEN, memory));
        assert_eq!(memory, grown(6));
    }
}
