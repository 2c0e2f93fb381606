//! The largest and slowest inputs that the paper's limits allow, and families that grow.

use crate::calls::of_reference;
use crate::tally::Tally;
use zorambi_generate::models::ModelTables;
use zorambi_generate::tables::{Tables, Tree, TreeNode};
use zorambi_generate::twice::rows_of_one_key;
use zorambi_generate::{Input, Rng};
use zorambi_reference::formula::{Row, AND, BIG_AND, BIG_OR, FALSE, LITERAL, NEGATED, ON_I, ON_N, OR, PLAIN, TRUE};

/// Each sort of them, as deep and with sets, sizes and ranges as large as they come, but fewer nodes.
pub fn test(tally: &mut Tally) {
    let tableaux = [
        ("1,024 rows, 1,024 nodes, 8,192 members", largest()),
        ("links of 117 small rows", links(115, 3, Part::None)),
        ("links of 115 rows of size 4,033, parts shared", links(115, 3, Part::Shared)),
        ("links of 50 rows of size 4,033, own parts", links(50, 3, Part::Own)),
        ("links of 50 rows of size 4,033, literals on n", links(50, 3, Part::OnIndex)),
        ("unfoldings with instances of size 4,033", unfoldings(40)),
        ("formulas of depth 64, leaning left", deep(true)),
        ("formulas of depth 64, leaning right", deep(false)),
        ("links of 33 rows of size 4,033, either order", links(33, 3, Part::Twins)),
        ("links of 24 rows of size 4,033, either order, parts shared", links(24, 3, Part::TwinsShared)),
        ("links of 5 rows of depth 62, either order", links(5, 3, Part::Leaning)),
        ("links of 28 rows of one shape and size 255", one_shape(14, 3)),
        ("links by 1 to 40, two trees of 499 rows, either order", links_by_many(40)),
        ("links of 20 rows of size 4,031, their partners' parts in turn", crossed(20, 40, [1, 2])),
        ("links of 20 rows of size 4,031, parts of both sides in turn", crossed(20, 40, [16, 16])),
        ("unfoldings with instances in either order", swapped_unfoldings(40)),
        ("1,024 rows of one class", one_class()),
        ("1,024 rows, 970 ors of one shape, no two alike", no_two_alike()),
        ("1,024 rows of all kinds, none twice", rows(1024)),
        ("1,024 rows of one key", one_key()),
        ("511 ranges in one another", nested_ranges()),
        ("510 links in a row, each to the one before", links_in_a_row()),
    ];
    let models = [
        ("29,998 values, body of size 4,095", long_range(LITERALS_APART)),
        ("29,998 values of a big or, the last one true", last_of_range()),
        ("depth 64 with a range of 29,998 values", deep_model()),
    ];
    let tableaux = tableaux.into_iter().map(|(name, tables)| (name, Input::Check(tables)));
    let models = models.into_iter().map(|(name, model)| (name, Input::Model(model)));
    for (name, input) in tableaux.chain(models) {
        let accepted = match of_reference(&input).answer() {
            0 => Ok(()),
            answer => Err(format!("refused with {answer}")),
        };
        tally.test(name, accepted);
        tally.compare(name, &input);
    }
}

/// Tableaux, all of them accepted.
pub fn tableaux() -> Vec<(&'static str, Tables)> {
    vec![
        ("1,024 rows, 1,024 nodes, 8,192 members", largest()),
        ("500 links of 8 small rows", links(6, 500, Part::None)),
        ("50 links of 62 small rows", links(60, 50, Part::None)),
        ("180 links of 20 rows of size 4,033, parts shared", links(20, 180, Part::Shared)),
        ("50 links of 60 rows of size 4,033, parts shared", links(60, 50, Part::Shared)),
        ("70 links of 45 rows of size 4,033, own parts", links(45, 70, Part::Own)),
        ("50 links of 50 rows of size 4,033, literals on n", links(50, 50, Part::OnIndex)),
        ("1,000 unfoldings with instances of size 4,033", unfoldings(1000)),
        ("formulas of depth 64, leaning left", deep(true)),
        ("formulas of depth 64, leaning right", deep(false)),
        ("100 links of 33 rows of size 4,033, either order", links(33, 100, Part::Twins)),
        ("330 links of 10 rows of size 4,033, either order", links(10, 330, Part::Twins)),
        ("150 links of 24 rows of size 4,033, either order, parts shared", links(24, 150, Part::TwinsShared)),
        ("330 links of 10 rows of size 4,033, either order, parts shared", links(10, 330, Part::TwinsShared)),
        ("450 links of 5 rows of size 4,037 and depth 62, either order", links(5, 450, Part::Leaning)),
        ("110 links of 28 rows of one shape and size 255", one_shape(14, 110)),
        ("500 links by 1 to 500, two trees of 499 rows, either order", links_by_many(500)),
        ("300 links of 30 rows of size 4,031, their partners' parts in turn", crossed(30, 300, [1, 2])),
        ("300 links of 30 rows of size 4,031, parts of both sides in turn", crossed(30, 300, [16, 16])),
        ("1,000 unfoldings with instances of size 4,033, either order", swapped_unfoldings(1000)),
        ("1,024 rows of one class", one_class()),
        ("50 links of 62 small rows among 1,024 of one class", links_in_one_class()),
        ("1,024 rows, half of them ors of one class", ors_of_one_class()),
        ("1,024 rows, no two of one class", no_two_of_one_class()),
        ("1,024 rows, 970 ors of one shape, no two alike", no_two_alike()),
    ]
}

/// Tableaux of 1,024 rows that show what it takes to find that none is written twice, all of them accepted.
pub fn none_twice() -> Vec<(&'static str, Tables)> {
    vec![
        ("1,024 rows of all kinds, none twice", rows(1024)),
        ("1,024 rows of one class", one_class()),
        ("1,024 rows of one key", one_key()),
        ("1,024 rows, no two of one class", no_two_of_one_class()),
        ("1,024 rows, literals at random", literals_at_random()),
        ("1,024 rows, ors of neighbours", ors_of_one_class()),
        ("1,024 rows, ors with one row on the right", ors_with_one(|row, one| [OR, row, one, 0])),
        ("1,024 rows, ors with one row on the left", ors_with_one(|row, one| [OR, one, row, 0])),
        ("1,024 rows, 1,024 nodes, 8,192 members", largest()),
    ]
}

/// Models, all of them accepted.
pub fn models() -> Vec<(&'static str, ModelTables)> {
    vec![
        ("29,998 values, body of size 4,095, one literal", long_range(LITERALS_SHARED)),
        ("29,998 values, body of size 4,095, 256 literals", long_range(LITERALS_APART)),
        ("29,998 values, body of size 4,095, two lookups", long_range_of_ors()),
        ("29,998 values of a big or, the last one true", last_of_range()),
        ("depth 64 with a range of 29,998 values", deep_model()),
    ]
}

/// Rows and nodes as they are added.
#[derive(Default)]
struct Builder {
    rows: Vec<Row>,
    nodes: Vec<TreeNode>,
    rng: Rng,
}

impl Builder {
    fn row(&mut self, row: Row) -> i32 {
        self.rows.push(row);
        self.rows.len() as i32 - 1
    }

    fn node(&mut self, fields: [i32; 7], set: &[i32]) -> i32 {
        let mut set = set.to_vec();
        set.sort_unstable();
        self.nodes.push(TreeNode { fields, set });
        self.nodes.len() as i32 - 1
    }

    /// Ors over a row, down to `levels` below: size 2 ^ (levels + 1) - 1.
    fn doubled(&mut self, kind: i32, row: i32, levels: usize) -> i32 {
        (0..levels).fold(row, |row, _| self.row([kind, row, row, 0]))
    }

    /// Ors over a row of size 1 with size 4,031: parts of sizes 2,047, 1,023, 511, 255, 127 and 63.
    fn large(&mut self, row: i32) -> i32 {
        let mut parts = vec![row];
        for level in 0..10 {
            parts.push(self.row([OR, parts[level], parts[level], 0]));
        }
        (6..11).fold(parts[5], |below, level| self.row([OR, parts[level], below, 0]))
    }

    /// `width` rows of size 2 ^ (level + 1) - 1 at each level, over rows of their own like the given one. The parts of
    /// each are drawn from the level below.
    fn crossing(&mut self, row: i32, width: usize) -> Vec<Vec<i32>> {
        let like = self.rows[row as usize];
        let mut levels: Vec<Vec<i32>> = vec![(0..width).map(|_| self.row(like)).collect()];
        for level in 0..10 {
            let next = (0..width).map(|_| {
                let [left, right] = [0, 1].map(|_| self.rng.pick(&levels[level]));
                self.row([OR, left, right, 0])
            });
            let next = next.collect();
            levels.push(next);
        }
        levels
    }

    /// The same as `large`, with parts drawn from each level.
    fn large_of(&mut self, levels: &[Vec<i32>]) -> i32 {
        let below = self.rng.pick(&levels[5]);
        levels[6..11].iter().fold(below, |below, level| {
            let part = self.rng.pick(level);
            self.row([OR, part, below, 0])
        })
    }

    /// An or of the two in either order.
    fn either(&mut self, a: i32, b: i32) -> i32 {
        let row = if self.rng.chance(50) { [OR, a, b, 0] } else { [OR, b, a, 0] };
        self.row(row)
    }

    /// Parts F and G that differ in a single leaf, by levels: F is F or G, G is F or F of the level below.
    /// Either order of the sides looks right down to that leaf.
    fn twins(&mut self, f: i32, g: i32, levels: usize) -> Vec<i32> {
        let mut pair = [f, g];
        let mut found = vec![f];
        for _ in 0..levels {
            let [f, g] = pair;
            pair = [self.either(f, g), self.row([OR, f, f, 0])];
            found.push(pair[0]);
        }
        found
    }

    /// The same as `large`, of such parts.
    fn large_twins(&mut self, f: i32, g: i32) -> i32 {
        let parts = self.twins(f, g, 10);
        (6..11).fold(parts[5], |below, level| self.either(parts[level], below))
    }

    /// Two chains of 54 ors that differ in their last leaf, each or with a part of size 63 or 31: size 4,035.
    fn leaning(&mut self, f: i32, g: i32) -> i32 {
        let small = self.doubled(OR, f, 4);
        let part = self.row([OR, small, small, 0]);
        let ends = [f, g].map(|end| {
            let below = (0..9).fold(end, |below, _| self.either(below, part));
            (9..54).fold(below, |below, _| self.either(below, small))
        });
        self.either(ends[0], ends[1])
    }

    fn tables(self, root: i32, schema_count: usize) -> Tables {
        Tree { root, least: 0, rows: self.rows, schema_count, nodes: self.nodes }.tables()
    }
}

/// What stands before the one literal that tells the instances of a body apart.
#[derive(Clone, Copy, PartialEq, Eq)]
pub enum Part {
    None,
    /// Constants, in the same rows for all instances.
    Shared,
    /// Constants, in other rows for each instance, over a row of the schema that is written there as often.
    Own,
    /// Literals on the index too, so that instances are told apart at once.
    OnIndex,
    /// Literals on the index in parts that look alike in either order, swapped at random.
    Twins,
    /// The same with other literals, in the same rows for some of the instances.
    TwinsShared,
    /// The same, leaning, with literals on the index.
    Leaning,
    /// The same of size 2 ^ (levels + 1) - 1.
    Levels(usize),
}

/// Ands of false with an iteration; `held` instances of its body stand in the target's set, and
/// `count` leaves below link to it by 1. False closes the rest.
pub fn links(held: usize, count: usize, part: Part) -> Tables {
    let mut b = Builder::default();
    let no = b.row([FALSE, 0, 0, 0]);
    let first = b.row([LITERAL, 0, ON_I, 0]);
    let second = b.row([LITERAL, 1, ON_I, 0]);
    let shared = match part {
        Part::None => vec![no],
        Part::OnIndex => vec![b.large(first)],
        Part::Twins => vec![b.large_twins(first, second)],
        Part::Leaning => vec![b.leaning(first, second)],
        Part::Levels(levels) => vec![b.twins(first, second, levels)[levels]],
        Part::TwinsShared => {
            let yes = b.row([TRUE, 0, 0, 0]);
            (0..8).map(|_| b.large_twins(yes, no)).collect()
        }
        Part::Shared => vec![b.large(no)],
        Part::Own => {
            let large = b.large(no);
            [vec![large], (0..=held).map(|_| b.row([FALSE, 0, 0, 0])).collect()].concat()
        }
    };
    let body = if part == Part::None { first } else { b.row([OR, shared[0], first, 0]) };
    let mut iteration = b.row([BIG_AND, body, -9999, 0]);
    let root = b.row([AND, no, iteration, 0]);
    let schema_count = b.rows.len();
    let instance = |b: &mut Builder, limit: i32| {
        let literal = b.row([LITERAL, 0, ON_N, -limit]);
        let before = match part {
            Part::None => return literal,
            Part::Shared => shared[0],
            Part::Own => b.large(shared[1 + limit as usize]),
            Part::OnIndex => b.large(literal),
            Part::Twins | Part::Leaning | Part::Levels(_) => {
                let second = b.row([LITERAL, 1, ON_N, -limit]);
                let large = match part {
                    Part::Twins => b.large_twins(literal, second),
                    Part::Levels(levels) => b.twins(literal, second, levels)[levels],
                    _ => b.leaning(literal, second),
                };
                return b.either(large, literal);
            }
            Part::TwinsShared => {
                let large = b.rng.pick(&shared);
                return b.either(large, literal);
            }
        };
        b.row([OR, before, literal, 0])
    };
    let mut up = b.node([-1, 0, root, -1, -1, -1, 0], &[root]);
    let mut set = vec![no, iteration];
    let mut unfold = |b: &mut Builder, set: &mut Vec<i32>, up: i32, limit: i32| {
        let with = b.row([BIG_AND, body, -9999, limit + 1]);
        let other = instance(b, limit);
        let node = b.node([up, 3, iteration, with, other, -1, 0], set);
        set.retain(|row| *row != iteration);
        set.extend([with, other]);
        iteration = with;
        node
    };
    for limit in 0..held as i32 {
        up = unfold(&mut b, &mut set, up, limit);
    }
    let oldest = set[1];
    let target = b.node([up, 2, -1, -1, -1, -1, 0], &set);
    b.node([target, 5, no, -1, -1, -1, 0], &[no]);
    up = unfold(&mut b, &mut set, target, held as i32);
    set.retain(|row| *row != oldest);
    for _ in 1..count {
        let split = b.node([up, 2, -1, -1, -1, -1, 0], &set);
        b.node([split, 8, -1, -1, -1, target, 1], &set);
        up = split;
    }
    b.node([up, 8, -1, -1, -1, target, 1], &set);
    b.tables(root, schema_count)
}

/// One iteration unfolded again and again.
pub fn unfoldings(count: usize) -> Tables {
    let mut b = Builder::default();
    let no = b.row([FALSE, 0, 0, 0]);
    let literal = b.row([LITERAL, 0, ON_I, 0]);
    let large = b.large(literal);
    let body = b.row([OR, large, literal, 0]);
    let iteration = b.row([BIG_AND, body, 0, 0]);
    let root = b.row([AND, no, iteration, 0]);
    let schema_count = b.rows.len();
    let with = b.row([BIG_AND, body, 0, 1]);
    let literal = b.row([LITERAL, 0, ON_N, 0]);
    let large = b.large(literal);
    let other = b.row([OR, large, literal, 0]);
    let mut up = b.node([-1, 0, root, -1, -1, -1, 0], &[root]);
    for _ in 0..count {
        up = b.node([up, 3, iteration, with, other, -1, 0], &[no, iteration]);
    }
    b.node([up, 5, no, -1, -1, -1, 0], &[no]);
    b.tables(root, schema_count)
}

/// One iteration unfolded again and again, to 30 instances whose sides are swapped at random.
pub fn swapped_unfoldings(count: usize) -> Tables {
    let mut b = Builder::default();
    let no = b.row([FALSE, 0, 0, 0]);
    let literals = |b: &mut Builder, base: i32| [0, 1].map(|symbol| b.row([LITERAL, symbol, base, 0]));
    let instance = |b: &mut Builder, [first, second]: [i32; 2]| {
        let large = b.large_twins(first, second);
        b.either(large, first)
    };
    let of_body = literals(&mut b, ON_I);
    let body = instance(&mut b, of_body);
    // Literals in rows of their own for each instance; in the schema they may be written so often.
    let own: Vec<[i32; 2]> = (0..30).map(|_| literals(&mut b, ON_N)).collect();
    let iteration = b.row([BIG_AND, body, 0, 0]);
    let root = b.row([AND, no, iteration, 0]);
    let schema_count = b.rows.len();
    let with = b.row([BIG_AND, body, 0, 1]);
    let others: Vec<i32> = own.into_iter().map(|literals| instance(&mut b, literals)).collect();
    let mut up = b.node([-1, 0, root, -1, -1, -1, 0], &[root]);
    for at in 0..count {
        up = b.node([up, 3, iteration, with, others[at % 30], -1, 0], &[no, iteration]);
    }
    b.node([up, 5, no, -1, -1, -1, 0], &[no]);
    b.tables(root, schema_count)
}

/// `count` links to one ancestor whose set has iterations over `held` bodies of size 255, and an instance
/// of each. The bodies differ in one symbol only; the sides of all are swapped at random.
pub fn one_shape(held: usize, count: usize) -> Tables {
    let mut b = Builder::default();
    let no = b.row([FALSE, 0, 0, 0]);
    let literals = |b: &mut Builder, at: usize, base: i32, offset: i32| {
        [0, at as i32 + 1].map(|symbol| b.row([LITERAL, symbol, base, offset]))
    };
    let bodies: Vec<i32> = (0..held)
        .map(|at| {
            let [first, second] = literals(&mut b, at, ON_I, 0);
            b.twins(first, second, 7)[7]
        })
        .collect();
    // The literals of both rounds' instances, each in rows of its own, which the schema may repeat.
    let own = [0, 1].map(|limit| (0..held).map(|at| literals(&mut b, at, ON_N, -limit)).collect::<Vec<_>>());
    let iterations: Vec<i32> = bodies.iter().map(|body| b.row([BIG_AND, *body, -9999, 0])).collect();
    let mut ands = vec![no];
    for iteration in &iterations {
        ands.push(b.row([AND, ands[ands.len() - 1], *iteration, 0]));
    }
    let root = ands[held];
    let schema_count = b.rows.len();
    let mut up = -1;
    let mut set = vec![root];
    for at in (0..held).rev() {
        up = b.node([up, 0, ands[at + 1], -1, -1, -1, 0], &set);
        set.retain(|row| *row != ands[at + 1]);
        set.extend([ands[at], iterations[at]]);
    }
    // Unfolds each of them; the leaf of the links has no more than the last round's formulas.
    let round = |b: &mut Builder, set: &mut Vec<i32>, mut up: i32, limit: i32| {
        let mut found = vec![no];
        for (at, body) in bodies.iter().enumerate() {
            let on = set.iter().copied().find(|row| b.rows[*row as usize] == [BIG_AND, *body, -9999, limit]);
            let on = on.expect("an iteration");
            let with = b.row([BIG_AND, *body, -9999, limit + 1]);
            let [first, second] = own[limit as usize][at];
            let other = b.twins(first, second, 7)[7];
            up = b.node([up, 3, on, with, other, -1, 0], set);
            set.retain(|row| *row != on);
            set.extend([with, other]);
            found.extend([with, other]);
        }
        *set = found;
        up
    };
    up = round(&mut b, &mut set, up, 0);
    let target = b.node([up, 2, -1, -1, -1, -1, 0], &set);
    b.node([target, 5, no, -1, -1, -1, 0], &[no]);
    up = round(&mut b, &mut set, target, 1);
    for _ in 1..count {
        let split = b.node([up, 2, -1, -1, -1, -1, 0], &set);
        b.node([split, 8, -1, -1, -1, target, 1], &set);
        up = split;
    }
    b.node([up, 8, -1, -1, -1, target, 1], &set);
    b.tables(root, schema_count)
}

/// `count` links by 1 and 2 to one node whose set has `held` rows of size 4,031, each followed by a false one, so that
/// each has to be looked for. These rows and their partners have parts drawn at random from `widths` rows a level, of
/// which none is shared between the two sides: what remembers of a row only the last row that it agreed with has
/// forgotten it before it is asked for. Partners come with falling numbers.
pub fn crossed(held: usize, count: usize, widths: [usize; 2]) -> Tables {
    let mut b = Builder::default();
    let no = b.row([FALSE, 0, 0, 0]);
    let [own, others] = widths.map(|width| b.crossing(no, width));
    let partners: Vec<i32> = (0..90).map(|_| b.large_of(&others)).collect();
    let mut asked = Vec::new();
    for _ in 0..held {
        asked.extend([b.large_of(&own), b.row([FALSE, 0, 0, 0])]);
    }
    let bodies = [asked[0], no];
    let iterations: Vec<[i32; 2]> =
        (0..3).map(|limit| bodies.map(|body| b.row([BIG_AND, body, -9999, limit]))).collect();
    let both = b.row([AND, iterations[0][0], iterations[0][1], 0]);
    let root = b.row([AND, no, both, 0]);
    let schema_count = b.rows.len();
    let mut up = b.node([-1, 0, root, -1, -1, -1, 0], &[root]);
    up = b.node([up, 0, both, -1, -1, -1, 0], &[no, both]);
    let [first, second] = iterations[0];
    let mut set = vec![no, first, second];
    for (at, row) in asked.into_iter().enumerate() {
        up = b.node([up, 3, iterations[0][at % 2], iterations[1][at % 2], row, -1, 0], &set);
        set.push(row);
    }
    let target = b.node([up, 2, -1, -1, -1, -1, 0], &set);
    b.node([target, 5, no, -1, -1, -1, 0], &[no]);
    // From n ≥ 2 on, with the limits of both shifts.
    up = b.node([target, 2, -1, -1, -1, -1, 0], &[no, first, second]);
    b.node([up, 5, no, -1, -1, -1, 0], &[no]);
    let mut held_on = vec![no, first, second];
    for (at, body) in bodies.into_iter().enumerate() {
        for limit in 0..2 {
            let [on, with] = [iterations[limit][at], iterations[limit + 1][at]];
            up = b.node([up, 3, on, with, body, -1, 0], &held_on);
            held_on.push(with);
        }
    }
    for at in 0..count {
        let partner = partners[partners.len() - 1 - at % partners.len()];
        let by = 1 + at % 2;
        up = b.node([up, 3, first, iterations[1][0], partner, -1, 0], &held_on);
        let with_partner = [held_on.as_slice(), &[partner]].concat();
        up = b.node([up, 2, -1, -1, -1, -1, 0], &with_partner);
        b.node([up, 8, -1, -1, -1, target, by as i32], &[no, iterations[by][0], iterations[by][1], partner]);
    }
    b.node([up, 5, no, -1, -1, -1, 0], &[no]);
    b.tables(root, schema_count)
}

/// Links by 1 to `count` to one ancestor. Its set has two trees that differ in their sides, with a row for
/// each occurrence; the leaves have one of the two.
pub fn links_by_many(count: usize) -> Tables {
    let mut b = Builder::default();
    let no = b.row([FALSE, 0, 0, 0]);
    let trees = [0, 1].map(|_| {
        let mut level: Vec<i32> = (0..250).map(|at| b.row([LITERAL, at % 2, PLAIN, at / 100])).collect();
        while level.len() > 1 {
            level = level
                .chunks(2)
                .map(|pair| if pair.len() == 1 { pair[0] } else { b.either(pair[0], pair[1]) })
                .collect();
        }
        level[0]
    });
    let both = b.row([AND, trees[0], trees[1], 0]);
    let root = b.row([AND, no, both, 0]);
    let schema_count = b.rows.len();
    b.node([-1, 0, root, -1, -1, -1, 0], &[root]);
    b.node([0, 0, both, -1, -1, -1, 0], &[no, both]);
    let target = b.node([1, 2, -1, -1, -1, -1, 0], &[no, trees[0], trees[1]]);
    b.node([target, 5, no, -1, -1, -1, 0], &[no]);
    let mut up = target;
    for by in 1..=count as i32 {
        // n ≥ by here, and n = by in a first child.
        if by < count as i32 {
            up = b.node([up, 2, -1, -1, -1, -1, 0], &[no, trees[1]]);
        }
        b.node([up, 8, -1, -1, -1, target, by], &[no, trees[1]]);
    }
    b.tables(root, schema_count)
}

/// Further rows up to 1,024 below a root of false alone.
fn filled(rows: impl Fn(&mut Builder)) -> Tables {
    let mut b = Builder::default();
    let no = b.row([FALSE, 0, 0, 0]);
    rows(&mut b);
    b.rows.truncate(1024);
    b.node([-1, 5, no, -1, -1, -1, 0], &[no]);
    b.tables(no, 1)
}

/// Literals on n that differ in what is added to it.
fn one_class() -> Tables {
    filled(|b| {
        for offset in 0..1023 {
            b.row([LITERAL, 0, ON_N, offset * 17 - 8700]);
        }
    })
}

/// The same after the rows of links of such literals.
fn links_in_one_class() -> Tables {
    let mut t = links(60, 50, Part::None);
    while t.schema_count + t.proof_count < 1024 {
        t.proof.extend([LITERAL, 0, ON_N, t.proof_count as i32]);
        t.proof_count += 1;
    }
    t
}

/// Pairs of neighbouring ones of them, in either order.
fn ors_of_one_class() -> Tables {
    filled(|b| {
        let literals: Vec<i32> = (0..512).map(|offset| b.row([LITERAL, 0, ON_N, offset * 7 - 1500])).collect();
        for pair in literals.windows(2) {
            b.either(pair[0], pair[1]);
        }
    })
}

fn no_two_of_one_class() -> Tables {
    filled(|b| {
        for at in 0..1023 {
            b.row([LITERAL + at % 2, at % 256, PLAIN, at]);
        }
    })
}

/// Literals of two symbols that differ in what is added to n, and literals of all sorts, none of them twice.
fn literals_at_random() -> Tables {
    filled(|b| {
        let mut seen = std::collections::HashSet::new();
        while b.rows.len() < 1024 {
            let row = if b.rng.chance(50) {
                [LITERAL, b.rng.range(0, 1), ON_N, b.rng.range(-1000, 1000)]
            } else {
                [
                    b.rng.pick(&[LITERAL, NEGATED]),
                    b.rng.range(0, 255),
                    b.rng.pick(&[PLAIN, ON_N]),
                    b.rng.range(-9999, 9999),
                ]
            };
            if seen.insert(row) {
                b.row(row);
            }
        }
    })
}

/// Ors of each of 511 literals with one.
fn ors_with_one(or: impl Fn(i32, i32) -> Row) -> Tables {
    filled(|b| {
        let literals: Vec<i32> = (0..512).map(|at| b.row([LITERAL, at % 256, ON_N, at / 256])).collect();
        for row in &literals[1..] {
            b.row(or(*row, literals[0]));
        }
    })
}

/// Literals that all share one of the 4,096 places at which equal rows are looked for.
fn one_key() -> Tables {
    filled(|b| b.rows.extend(rows_of_one_key(0).step_by(3).take(1023)))
}

/// Ors of any two of 45 literals.
fn no_two_alike() -> Tables {
    filled(|b| {
        let literals: Vec<i32> = (0..45).map(|symbol| b.row([LITERAL, symbol, ON_N, 0])).collect();
        for (at, a) in literals.iter().enumerate() {
            for other in &literals[..at] {
                b.either(*a, *other);
            }
        }
    })
}

/// A root of depth 64 over an iteration of depth 63, unfolded and linked.
fn deep(left: bool) -> Tables {
    let mut b = Builder::default();
    let no = b.row([FALSE, 0, 0, 0]);
    let chain = |b: &mut Builder, base: i32, offset: i32| {
        let (p, q) = (b.row([LITERAL, 0, base, offset]), b.row([NEGATED, 1, base, offset]));
        (0..61).fold(p, |row, at| b.row(if left { [AND + at % 2, row, q, 0] } else { [AND + at % 2, q, row, 0] }))
    };
    let body = chain(&mut b, ON_I, 0);
    let iteration = b.row([BIG_AND, body, -9999, 0]);
    let root = b.row([AND, no, iteration, 0]);
    let schema_count = b.rows.len();
    let mut limits = vec![iteration];
    let mut instances = Vec::new();
    for limit in 0..2 {
        limits.push(b.row([BIG_AND, body, -9999, limit + 1]));
        instances.push(chain(&mut b, ON_N, -limit));
    }
    b.node([-1, 0, root, -1, -1, -1, 0], &[root]);
    b.node([0, 3, limits[0], limits[1], instances[0], -1, 0], &[no, limits[0]]);
    b.node([1, 2, -1, -1, -1, -1, 0], &[no, limits[1], instances[0]]);
    b.node([2, 5, no, -1, -1, -1, 0], &[no]);
    b.node([2, 3, limits[1], limits[2], instances[1], -1, 0], &[no, limits[1]]);
    b.node([4, 8, -1, -1, -1, 2, 1], &[no, limits[2], instances[1]]);
    b.tables(root, schema_count)
}

/// Exactly 1,024 rows, 1,024 nodes and 8,192 members: false and seven literals through 508 splits.
fn largest() -> Tables {
    let mut t = splits(1024, 8);
    let left = 1024 - t.schema_count - t.proof_count;
    t.proof.extend((0..left as i32).flat_map(|offset| [LITERAL, 9, ON_N, offset]));
    t.proof_count += left;
    t
}

/// False and further literals through splits: `count` nodes with `held` members in most of them, and
/// the root beside them in the first nodes until there are `count` × `held` members.
pub fn splits(count: usize, held: usize) -> Tables {
    let mut b = Builder::default();
    let no = b.row([FALSE, 0, 0, 0]);
    let literals: Vec<i32> = (1..held as i32).map(|symbol| b.row([LITERAL, symbol, PLAIN, 0])).collect();
    let mut ands = vec![no];
    for literal in &literals {
        ands.push(b.row([AND, ands[ands.len() - 1], *literal, 0]));
    }
    let root = ands[ands.len() - 1];
    let schema_count = b.rows.len();
    let mut set = vec![root];
    let mut up = -1;
    for (on, literal) in ands.iter().skip(1).zip(&literals).rev() {
        up = b.node([up, 0, *on, -1, -1, -1, 0], &set);
        let [_, left, ..] = b.rows[*on as usize];
        set.retain(|row| row != on);
        set.extend([left, *literal]);
    }
    while b.nodes.len() + 3 <= count {
        let split = b.node([up, 2, -1, -1, -1, -1, 0], &set);
        b.node([split, 5, no, -1, -1, -1, 0], &set);
        up = split;
    }
    b.node([up, 5, no, -1, -1, -1, 0], &set);
    let mut missing = (count * held).saturating_sub(b.nodes.iter().map(|node| node.set.len()).sum());
    for node in b.nodes.iter_mut().skip(1) {
        if missing > 0 && node.set.last() != Some(&root) {
            node.set.push(root);
            missing -= 1;
        }
    }
    b.tables(root, schema_count)
}

/// 511 splits, each the first child of the one before, at 9998, 9997, ...
fn nested_ranges() -> Tables {
    let mut b = Builder::default();
    let no = b.row([FALSE, 0, 0, 0]);
    let splits: Vec<i32> = (0..511).map(|at| b.node([at - 1, 2, -1, -1, -1, -1, 9998 - at], &[no])).collect();
    b.node([510, 5, no, -1, -1, -1, 0], &[no]);
    for split in splits {
        b.node([split, 5, no, -1, -1, -1, 0], &[no]);
    }
    b.tables(no, 1)
}

/// 511 splits, each the second child of the one before. The first child knows one n and links to the first child
/// above it, which knows one less.
fn links_in_a_row() -> Tables {
    let mut b = Builder::default();
    let no = b.row([FALSE, 0, 0, 0]);
    let (mut up, mut last) = (-1, -1);
    for at in 0..511 {
        up = b.node([up, 2, -1, -1, -1, -1, 0], &[no]);
        let first = if at == 0 { [up, 5, no, -1, -1, -1, 0] } else { [up, 8, -1, -1, -1, last, 1] };
        last = b.node(first, &[no]);
    }
    b.node([up, 5, no, -1, -1, -1, 0], &[no]);
    b.tables(no, 1)
}

/// `count` formula rows, none of them twice, and false as the root's first part.
pub fn rows(count: usize) -> Tables {
    let mut b = Builder::default();
    let no = b.row([FALSE, 0, 0, 0]);
    let literal = b.row([LITERAL, 0, ON_I, 0]);
    let iteration = b.row([BIG_OR, literal, 0, 0]);
    let root = b.row([AND, no, iteration, 0]);
    let schema_count = b.rows.len();
    let mut last = iteration;
    while b.rows.len() < count {
        let at = b.rows.len() as i32;
        last = match at % 4 {
            0 => b.row([NEGATED, 7, ON_N, at]),
            1 => b.row([OR, iteration, last, 0]),
            2 => b.row([AND, last, last, 0]),
            _ => b.row([BIG_AND, literal, -5, at]),
        };
    }
    b.node([-1, 0, root, -1, -1, -1, 0], &[root]);
    b.node([0, 5, no, -1, -1, -1, 0], &[no]);
    b.tables(root, schema_count)
}

/// A proof of large numbers, for its text: a row takes 24 bytes, a node with its 8 members 75.
pub fn wide_proof(rows: usize, nodes: usize) -> Tables {
    let node = |number: usize| [1000, 1000, 1000, 1000, 1000, 1000, 1000, number as i32 * 8, 8];
    Tables {
        root: 0,
        least: 0,
        schema: Vec::new(),
        schema_count: 0,
        proof: vec![-9999; rows * 4],
        proof_count: rows,
        nodes: (0..nodes).flat_map(node).collect(),
        node_count: nodes,
        members: vec![1000; nodes * 8],
        member_count: nodes * 8,
    }
}

const LITERALS_SHARED: usize = 1;
const LITERALS_APART: usize = 256;

fn model(rows: Vec<Row>, n: i32, pairs: Vec<i32>) -> ModelTables {
    ModelTables {
        root: rows.len() as i32 - 1,
        least: 0,
        schema_count: rows.len(),
        schema: rows.concat(),
        n,
        pair_count: pairs.len() / 2,
        pairs,
    }
}

/// 4,096 pairs of one symbol from this index on.
fn pairs(symbol: i32, first: i32) -> Vec<i32> {
    (0..4096).flat_map(|at| [symbol, first + at]).collect()
}

/// A big and over all that n = 9999 allows, of an and of 2,048 negated literals, none of them listed.
fn long_range(literals: usize) -> ModelTables {
    let mut b = Builder::default();
    let mut level: Vec<i32> = (0..literals as i32).map(|offset| b.row([NEGATED, 0, ON_I, -offset])).collect();
    while level.len() > 1 {
        level = level.chunks(2).map(|pair| b.row([AND, pair[0], pair[1], 0])).collect();
    }
    let body = b.doubled(AND, level[0], (2048 / literals).ilog2() as usize);
    b.row([BIG_AND, body, -9999, -9999]);
    model(b.rows, 9999, pairs(0, 20_000))
}

/// The same with ors of a negated literal and the literal, all pairs inside the range.
fn long_range_of_ors() -> ModelTables {
    let mut b = Builder::default();
    let (no, yes) = (b.row([NEGATED, 0, ON_I, 0]), b.row([LITERAL, 0, ON_I, 0]));
    let or = b.row([OR, no, yes, 0]);
    let body = b.doubled(AND, or, 10);
    b.row([BIG_AND, body, -9999, -9999]);
    model(b.rows, 9999, pairs(0, 0))
}

fn last_of_range() -> ModelTables {
    let mut b = Builder::default();
    let yes = b.row([LITERAL, 0, ON_I, 9999]);
    let body = b.doubled(OR, yes, 11);
    b.row([BIG_OR, body, -9999, -9999]);
    model(b.rows, 9999, vec![0, 29_997])
}

fn deep_model() -> ModelTables {
    let mut b = Builder::default();
    let (yes, no) = (b.row([LITERAL, 1, ON_I, 0]), b.row([NEGATED, 0, ON_I, 0]));
    let body = (0..62).fold(yes, |row, at| b.row(if at % 2 == 0 { [OR, row, no, 0] } else { [AND, no, row, 0] }));
    b.row([BIG_AND, body, -9999, -9999]);
    model(b.rows, 9999, pairs(0, 20_000))
}
