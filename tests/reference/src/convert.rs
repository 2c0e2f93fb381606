//! Wide connectives written in plain rows: document 02, No. 1. How many plain rows each source row writes says where
//! they stand; then every plain row is written by itself.

use crate::formula::{index, Formulas, Row, AND, BIG_AND, BIG_OR, FALSE, LITERAL, NEGATED, ON_I, OR, PLAIN, TRUE};
use crate::{holds, refuse, Refusal, MAX_DEPTH, MAX_N, MAX_OFFSET, MAX_ROWS, MAX_SIZE, MAX_SYMBOL, ROW_WIDTH};

/// The kinds that a wide schema adds.
pub const NOT: i32 = 8;
pub const IMPLIES: i32 = 9;
pub const EQUIVALENT: i32 = 10;
pub const EXCLUSIVE: i32 = 11;

/// What comes back: as in reading.
#[derive(Clone, Copy, Debug, Default, PartialEq, Eq)]
pub struct Converted {
    pub answer: u8,
    pub place: i32,
    pub root: i32,
    pub least: i32,
    pub rows: usize,
}

/// Fills `plain` with the plain rows of a wide schema; it is 0 past them, and all 0 after a refusal.
pub fn convert(root: i32, least: i32, wide: &[i32], wide_count: usize, plain: &mut [i32]) -> Converted {
    plain.fill(0);
    match plain_schema(root, least, wide, wide_count, plain.len()) {
        Err(Refusal { answer, place }) => Converted { answer, place, ..Converted::default() },
        Ok((root, rows)) => {
            plain[..rows.len() * ROW_WIDTH].copy_from_slice(&rows.concat());
            Converted { answer: 0, place: 0, root, least, rows: rows.len() }
        }
    }
}

fn plain_schema(
    root: i32,
    least: i32,
    wide: &[i32],
    wide_count: usize,
    room: usize,
) -> Result<(i32, Vec<Row>), Refusal> {
    if room < MAX_ROWS * ROW_WIDTH {
        return refuse(2, 0);
    }
    if !holds(wide.len(), wide_count, ROW_WIDTH) {
        return refuse(2, -1);
    }
    if wide_count > MAX_ROWS {
        return refuse(5, -1);
    }
    let root_row = usize::try_from(root).ok().filter(|root| *root < wide_count);
    let (Some(root_row), true) = (root_row, (0..=MAX_N).contains(&least)) else {
        return refuse(6, -1);
    };
    let wide: Vec<Row> = wide.chunks_exact(ROW_WIDTH).take(wide_count).map(|r| [r[0], r[1], r[2], r[3]]).collect();
    let mut shapes: Vec<Shape> = Vec::with_capacity(wide.len());
    for row in &wide {
        let place = shapes.len() as i32;
        match shape(*row, &shapes) {
            None => return refuse(7, place),
            Some(shape) if shape.size > MAX_SIZE || shape.depth > MAX_DEPTH => return refuse(8, place),
            Some(shape) => shapes.push(shape),
        }
    }
    if shapes[root_row].on_i {
        return refuse(6, -1);
    }
    let layout = Layout::new(&wide);
    let rows = layout.rows();
    if rows.len() > MAX_ROWS {
        return refuse(23, -1);
    }
    let formulas = Formulas::new(&rows.concat(), rows.len(), &[], 0).unwrap_or_default();
    let fits = |row: usize| formulas.facts(row as i32).is_some_and(|facts| facts.within_limits());
    if !(0..rows.len()).all(fits) {
        return refuse(23, -1);
    }
    Ok((layout.place(root, false), rows))
}

/// The plain rows of well-formed wide rows, however many and however large.
pub fn plain_rows(wide: &[Row]) -> Vec<Row> {
    Layout::new(wide).rows()
}

/// What is known of a wide row.
#[derive(Clone, Copy)]
struct Shape {
    size: u64,
    depth: u64,
    /// A literal on i stands in it outside an iteration.
    on_i: bool,
    /// A literal not on i, or an iteration, stands in it.
    not_on_i: bool,
}

/// Where a row has no part.
const NOTHING: Shape = Shape { size: 0, depth: 0, on_i: false, not_on_i: false };

/// The shape of the row after `earlier` ones; `None` if it is ill-formed.
fn shape([kind, a, b, c]: Row, earlier: &[Shape]) -> Option<Shape> {
    let offset = -MAX_OFFSET..=MAX_OFFSET;
    let part = |row: i32| earlier.get(usize::try_from(row).ok()?).copied();
    let (left, right, columns) = match kind {
        TRUE | FALSE => (NOTHING, NOTHING, (a, b, c) == (0, 0, 0)),
        LITERAL | NEGATED => {
            let columns = (0..=MAX_SYMBOL).contains(&a) && (PLAIN..=ON_I).contains(&b) && offset.contains(&c);
            (NOTHING, NOTHING, columns)
        }
        AND | OR | IMPLIES | EQUIVALENT | EXCLUSIVE => (part(a)?, part(b)?, c == 0),
        NOT => (part(a)?, NOTHING, (b, c) == (0, 0)),
        BIG_AND | BIG_OR => (part(a)?, NOTHING, offset.contains(&b) && offset.contains(&c)),
        _ => return None,
    };
    let literal = kind == LITERAL || kind == NEGATED;
    let iteration = kind == BIG_AND || kind == BIG_OR;
    let on_i = (literal && b == ON_I) || left.on_i || right.on_i;
    let not_on_i = (literal && b != ON_I) || left.not_on_i || right.not_on_i;
    // An iteration's body, and each row with two parts.
    let fits = if iteration { !not_on_i } else { !(on_i && not_on_i) };
    (columns && fits).then(|| Shape {
        size: 1 + left.size + right.size,
        depth: 1 + left.depth.max(right.depth),
        on_i: on_i && !iteration,
        not_on_i: not_on_i || iteration,
    })
}

/// Where the plain rows of each wide row stand.
struct Layout<'a> {
    wide: &'a [Row],
    /// The first plain row of each wide row.
    starts: Vec<i32>,
}

impl Layout<'_> {
    fn new(wide: &[Row]) -> Layout<'_> {
        let mut next = 0;
        let starts = wide.iter().map(|[kind, ..]| {
            let start = next;
            next += match *kind {
                NOT => 0,
                EQUIVALENT | EXCLUSIVE => 6,
                _ => 2,
            };
            start
        });
        Layout { wide, starts: starts.collect() }
    }

    /// The plain row that stands for a wide row, or for its negation.
    fn place(&self, row: i32, negated: bool) -> i32 {
        let [kind, a, ..] = self.wide[row as usize];
        let start = self.starts[row as usize];
        match kind {
            NOT => self.place(a, !negated),
            // The last of three.
            EQUIVALENT | EXCLUSIVE => start + if negated { 5 } else { 2 },
            _ => start + i32::from(negated),
        }
    }

    fn rows(&self) -> Vec<Row> {
        let mut rows = Vec::new();
        for row in 0..self.wide.len() {
            self.write(row, false, &mut rows);
            self.write(row, true, &mut rows);
        }
        rows
    }

    /// The plain rows of a wide row itself, or of its negation.
    fn write(&self, row: usize, negated: bool, rows: &mut Vec<Row>) {
        let [kind, a, b, c] = self.wide[row];
        let or_other = |kind: i32, other: i32| if negated { other } else { kind };
        let plain = match kind {
            TRUE => [or_other(TRUE, FALSE), 0, 0, 0],
            FALSE => [or_other(FALSE, TRUE), 0, 0, 0],
            LITERAL => [or_other(LITERAL, NEGATED), a, b, c],
            NEGATED => [or_other(NEGATED, LITERAL), a, b, c],
            AND => [or_other(AND, OR), self.place(a, negated), self.place(b, negated), 0],
            OR => [or_other(OR, AND), self.place(a, negated), self.place(b, negated), 0],
            BIG_AND => [or_other(BIG_AND, BIG_OR), self.place(a, negated), b, c],
            BIG_OR => [or_other(BIG_OR, BIG_AND), self.place(a, negated), b, c],
            // Not a, or b; negated: a and not b.
            IMPLIES => [or_other(OR, AND), self.place(a, !negated), self.place(b, negated), 0],
            EQUIVALENT | EXCLUSIVE => {
                // Both sides or both negated; or each with the other negated.
                let opposite = (kind == EXCLUSIVE) != negated;
                rows.push([AND, self.place(a, false), self.place(b, opposite), 0]);
                rows.push([AND, self.place(a, true), self.place(b, !opposite), 0]);
                let first = self.starts[row] + or_other(0, 3);
                [OR, first, first + 1, 0]
            }
            _ => return,
        };
        rows.push(plain);
    }
}

/// The value of a well-formed wide row at n, under an assignment.
pub fn wide_value<F: Fn(i32, i64) -> bool>(wide: &[Row], row: i32, n: i64, i: i64, assignment: &F) -> bool {
    let [kind, a, b, c] = wide[row as usize];
    let value = |row: i32| wide_value(wide, row, n, i, assignment);
    let mut range = i64::from(b)..=n - i64::from(c);
    match kind {
        TRUE => true,
        LITERAL | NEGATED => assignment(a, index(b, c, n, i)) == (kind == LITERAL),
        AND => value(a) && value(b),
        OR => value(a) || value(b),
        BIG_AND => range.all(|i| wide_value(wide, a, n, i, assignment)),
        BIG_OR => range.any(|i| wide_value(wide, a, n, i, assignment)),
        NOT => !value(a),
        IMPLIES => !value(a) || value(b),
        EQUIVALENT => value(a) == value(b),
        EXCLUSIVE => value(a) != value(b),
        _ => false,
    }
}

#[cfg(test)]
mod tests {
    use super::*;
    use crate::formula::ON_N;

    const P: Row = [LITERAL, 0, ON_N, 0];
    const Q: Row = [LITERAL, 1, ON_N, 0];
    const NOT_P: Row = [NEGATED, 0, ON_N, 0];
    const NOT_Q: Row = [NEGATED, 1, ON_N, 0];

    /// The plain root and rows.
    fn converted(root: i32, wide: &[Row]) -> (i32, Vec<Row>) {
        let mut plain = vec![9; 4098];
        let found = convert(root, 3, &wide.concat(), wide.len(), &mut plain);
        assert_eq!((found.answer, found.place, found.least), (0, 0, 3));
        assert!(plain[found.rows * 4..].iter().all(|number| *number == 0));
        let rows = plain.chunks_exact(4).take(found.rows).map(|row| [row[0], row[1], row[2], row[3]]);
        (found.root, rows.collect())
    }

    fn refusal(root: i32, least: i32, wide: &[i32], count: usize, room: usize) -> (u8, i32) {
        let mut plain = vec![9; room];
        let found = convert(root, least, wide, count, &mut plain);
        assert_eq!((found.root, found.least, found.rows), (0, 0, 0));
        assert!(plain.iter().all(|number| *number == 0));
        (found.answer, found.place)
    }

    #[test]
    fn rows_and_their_negations() {
        assert_eq!(converted(0, &[[0, 0, 0, 0], [1, 0, 0, 0]]), (0, vec![[0; 4], [1, 0, 0, 0], [1, 0, 0, 0], [0; 4]]));
        let literals = [[2, 7, 0, -3], [3, 7, 1, 4], [2, 7, 2, 0]];
        let plain = vec![[2, 7, 0, -3], [3, 7, 0, -3], [3, 7, 1, 4], [2, 7, 1, 4], [2, 7, 2, 0], [3, 7, 2, 0]];
        assert_eq!(converted(1, &literals), (2, plain));
        // p and q; p or q.
        assert_eq!(converted(2, &[P, Q, [4, 0, 1, 0]]), (4, vec![P, NOT_P, Q, NOT_Q, [4, 0, 2, 0], [5, 1, 3, 0]]));
        assert_eq!(converted(2, &[P, Q, [5, 1, 0, 0]]), (4, vec![P, NOT_P, Q, NOT_Q, [5, 2, 0, 0], [4, 3, 1, 0]]));
        // p implies q.
        assert_eq!(converted(2, &[P, Q, [9, 0, 1, 0]]), (4, vec![P, NOT_P, Q, NOT_Q, [5, 1, 2, 0], [4, 0, 3, 0]]));
    }

    #[test]
    fn equivalent_and_exclusive_or() {
        let sides = vec![P, NOT_P, Q, NOT_Q];
        let same = vec![[4, 0, 2, 0], [4, 1, 3, 0], [5, 4, 5, 0], [4, 0, 3, 0], [4, 1, 2, 0], [5, 7, 8, 0]];
        assert_eq!(converted(2, &[P, Q, [10, 0, 1, 0]]), (6, [sides.clone(), same].concat()));
        let other = vec![[4, 0, 3, 0], [4, 1, 2, 0], [5, 4, 5, 0], [4, 0, 2, 0], [4, 1, 3, 0], [5, 7, 8, 0]];
        assert_eq!(converted(2, &[P, Q, [11, 0, 1, 0]]), (6, [sides, other].concat()));
        // q equivalent to q: the same row on both sides.
        let twice = vec![Q, NOT_Q, [4, 0, 0, 0], [4, 1, 1, 0], [5, 2, 3, 0], [4, 0, 1, 0], [4, 1, 0, 0], [5, 5, 6, 0]];
        assert_eq!(converted(1, &[Q, [10, 0, 0, 0]]), (4, twice));
    }

    #[test]
    fn chains_of_not() {
        let chain = [P, [8, 0, 0, 0], [8, 1, 0, 0], [8, 2, 0, 0]];
        assert_eq!([0, 1, 2, 3].map(|root| converted(root, &chain).0), [0, 1, 0, 1]);
        assert_eq!(converted(3, &chain).1, vec![P, NOT_P]);
        // Not (p exclusive or not q): rows 0 to 3 are the literals', 4 to 9 the exclusive or's.
        let wide = [P, Q, [8, 1, 0, 0], [11, 0, 2, 0], [8, 3, 0, 0]];
        let exclusive = vec![[4, 0, 2, 0], [4, 1, 3, 0], [5, 4, 5, 0], [4, 0, 3, 0], [4, 1, 2, 0], [5, 7, 8, 0]];
        assert_eq!(converted(4, &wide), (9, [vec![P, NOT_P, Q, NOT_Q], exclusive].concat()));
    }

    #[test]
    fn iterations_over_wide_bodies() {
        let wide = [[2, 0, 2, 0], [2, 1, 2, -1], [9, 0, 1, 0], [8, 2, 0, 0], [6, 3, 1, 2], [7, 2, 0, 0]];
        let plain = vec![
            [2, 0, 2, 0],
            [3, 0, 2, 0],
            [2, 1, 2, -1],
            [3, 1, 2, -1],
            [5, 1, 2, 0],
            [4, 0, 3, 0],
            [6, 5, 1, 2],
            [7, 4, 1, 2],
            [7, 4, 0, 0],
            [6, 5, 0, 0],
        ];
        assert_eq!(converted(4, &wide), (6, plain.clone()));
        assert_eq!(converted(5, &wide), (8, plain));
    }

    #[test]
    fn ill_formed_wide_rows() {
        let on_i = [2, 0, 2, 0];
        for row in [
            [8, 0, 1, 0],
            [8, 0, 0, 1],
            [8, 2, 0, 0],
            [8, -1, 0, 0],
            [9, 0, 2, 0],
            [10, 2, 0, 0],
            [11, 0, 0, 1],
            [12, 0, 0, 0],
            // A literal on i beside one on n.
            [9, 0, 1, 0],
            [10, 1, 0, 0],
            [11, 0, 1, 0],
            [4, 0, 1, 0],
            // A body with a literal on n.
            [6, 1, 0, 0],
            [6, 0, 10_000, 0],
        ] {
            assert_eq!(refusal(1, 0, &[on_i, P, row].concat(), 3, 4096), (7, 2), "{row:?}");
        }
        // A negated literal on i is still on i, a negated iteration still none.
        assert_eq!(refusal(1, 0, &[on_i, [8, 0, 0, 0]].concat(), 2, 4096), (6, -1));
        assert_eq!(refusal(0, 0, &[on_i, [6, 0, 0, 0], [8, 1, 0, 0], [4, 0, 2, 0]].concat(), 4, 4096), (7, 3));
    }

    #[test]
    fn too_many_too_large_too_deep() {
        let literals = |count: usize| [P].repeat(count).concat();
        let mut plain = vec![0; 4096];
        assert_eq!(convert(0, 0, &literals(512), 512, &mut plain).rows, 1024);
        assert_eq!(refusal(0, 0, &literals(513), 513, 4096), (23, -1));
        // Sizes 1, 7, 31, 127, 511, 2047; with an and on top 4,095, with one more literal 4,097.
        let mut wide = vec![P];
        wide.extend((0..5).map(|row| [10, row, row, 0]));
        wide.push([4, 5, 5, 0]);
        assert_eq!(converted(6, &wide).0, 32);
        wide.push([4, 6, 0, 0]);
        assert_eq!(refusal(0, 0, &wide.concat(), 8, 4096), (23, -1));
        // An equivalence has depth 3; 61 ands more are 64.
        let mut wide = vec![P, [10, 0, 0, 0]];
        wide.extend((1..62).map(|row| [4, row, 0, 0]));
        assert_eq!(converted(0, &wide).0, 0);
        wide.push([4, 62, 0, 0]);
        assert_eq!(refusal(0, 0, &wide.concat(), 64, 4096), (23, -1));
        // 63 nots over a literal have depth 64, and write nothing.
        let mut wide = vec![P];
        wide.extend((0..63).map(|row| [8, row, 0, 0]));
        assert_eq!(converted(63, &wide), (1, vec![P, NOT_P]));
        wide.push([8, 63, 0, 0]);
        assert_eq!(refusal(0, 0, &wide.concat(), 65, 4096), (8, 64));
    }

    #[test]
    fn refusals_in_their_order() {
        let too_many = [P].repeat(513).concat();
        assert_eq!(refusal(513, 0, &too_many, 513, 4096), (6, -1));
        assert_eq!(refusal(0, -1, &too_many, 513, 4096), (6, -1));
        assert_eq!(refusal(0, 10_000, &too_many, 513, 4096), (6, -1));
        assert_eq!(refusal(0, 0, &[&too_many[..], &[2, 0, 3, 0]].concat(), 514, 4096), (7, 513));
        assert_eq!(refusal(513, 0, &[&too_many[..], &[2, 0, 2, 0]].concat(), 514, 4096), (6, -1));
        assert_eq!(refusal(9, -1, &[0; 4100], 1025, 4096), (5, -1));
        assert_eq!(refusal(9, -1, &[0; 4099], 1025, 4096), (2, -1));
        assert_eq!(refusal(9, -1, &[0; 4099], 1025, 4095), (2, 0));
    }

    #[test]
    fn the_plain_root_is_true_where_the_wide_root_is() {
        let wide = [P, Q, [8, 0, 0, 0], [9, 2, 1, 0], [10, 3, 0, 0], [11, 4, 1, 0], [8, 5, 0, 0]];
        let rows = plain_rows(&wide);
        let formulas = Formulas::new(&rows.concat(), rows.len(), &[], 0).expect("rows");
        for assignment in 0..4 {
            let is_true = |symbol: i32, _: i64| assignment >> symbol & 1 == 1;
            for root in 0..7 {
                let (plain_root, _) = converted(root, &wide);
                let plain = crate::model::value(&formulas, plain_root, 1, &is_true);
                assert_eq!(plain, wide_value(&wide, root, 1, 0, &is_true));
            }
        }
    }
}
