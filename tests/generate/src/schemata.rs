//! Schemata: random ones, and families that are false by construction from some n on.

use super::pool::Pool;
use super::rng::Rng;
use zorambi_reference::formula::{Row, AND, ON_I, ON_N, OR, PLAIN};
use zorambi_reference::{MAX_N, MAX_ROWS};

/// A schema whose rows are all rows of the pool.
#[derive(Clone, Debug)]
pub struct Schema {
    pub pool: Pool,
    pub root: i32,
    pub least: i32,
    /// Rows that a refutation does not need.
    pub inert: Vec<i32>,
    /// The family's name; "random" if nothing is known.
    pub family: &'static str,
}

impl Schema {
    pub fn rows(&self) -> Vec<Row> {
        self.pool.rows()
    }
}

/// A row that is false for every n ≥ `from`, and a least value at which a refutation is short.
struct Core {
    row: i32,
    from: i32,
    near: i32,
}

/// Where the iterations of a family begin and end: from b up to n - c; and its first symbol.
#[derive(Clone, Copy)]
struct Frame {
    b: i32,
    c: i32,
    first: i32,
}

type Family = fn(&mut Pool, &mut Rng, Frame) -> Option<Core>;

const FAMILIES: [(&str, Family); 13] = [
    ("some and all not", some_and_all_not),
    ("chain", chain),
    ("chain of two", chain),
    ("all, not at an index", all_not_at_index),
    ("all, not at n - d", all_not_at_parameter),
    ("toggles", toggles),
    ("adder", adder),
    ("comparator", comparator),
    ("arbiter", arbiter),
    ("formula and dual", formula_and_dual),
    ("void", void),
    ("propositional", propositional),
    ("moved bodies", moved_bodies),
];

/// A random schema with nothing known of it, mostly not false.
pub fn random_schema(rng: &mut Rng) -> Schema {
    loop {
        let mut pool = Pool::new(rng);
        let depth = 1 + rng.below(5);
        let symbols = 1 + rng.below(3) as i32;
        let first = if rng.chance(90) { 0 } else { 256 - symbols };
        let Some(root) = pool.random_outer(rng, depth, first, symbols) else { continue };
        pad(&mut pool, rng);
        let least = if rng.chance(90) { rng.range(0, 4) } else { rng.range(0, MAX_N) };
        return Schema { pool, root, least, inert: Vec::new(), family: "random" };
    }
}

/// A schema of one of the families, or of two joined, with further formulas around it.
pub fn false_schema(rng: &mut Rng) -> Schema {
    loop {
        let mut pool = Pool::new(rng);
        if let Some(schema) = try_false_schema(&mut pool, rng) {
            return schema;
        }
    }
}

fn try_false_schema(pool: &mut Pool, rng: &mut Rng) -> Option<Schema> {
    if rng.chance(20) {
        pad(pool, rng);
    }
    let (family, build) = FAMILIES[rng.below(FAMILIES.len())];
    let frame = random_frame(rng);
    let core = build(pool, rng, frame)?;
    let (mut row, mut from, mut near) = (core.row, core.from, core.near);
    let mut inert = Vec::new();
    if rng.chance(10) {
        // Two families, one of which must hold.
        let (_, build) = FAMILIES[rng.below(6)];
        let first = if rng.chance(50) { frame.first } else { (frame.first + 20) % 200 };
        let second = build(pool, rng, Frame { first, ..frame })?;
        row = pool.join(OR, &[row, second.row])?;
        from = from.max(second.from);
        near = near.max(second.near);
    }
    if rng.chance(30) {
        // Further formulas beside the core.
        let mut parts = vec![row];
        for _ in 0..1 + rng.below(3) {
            let depth = 1 + rng.below(3);
            let extra = pool.random_outer(rng, depth, frame.first, 4)?;
            inert.push(extra);
            parts.push(extra);
        }
        inert.retain(|extra| *extra != row);
        row = pool.join(AND, &parts)?;
    }
    if rng.chance(20) {
        pad(pool, rng);
    }
    let least = from.max(near + rng.pick(&[0, 0, 0, 1, 1, 2, -1, -2]));
    if least > MAX_N {
        return None;
    }
    Some(Schema { pool: pool.clone(), root: row, least: least.max(0), inert, family })
}

fn random_frame(rng: &mut Rng) -> Frame {
    let first = if rng.chance(80) { 0 } else { rng.range(0, 240) };
    let (b, c) = match rng.below(20) {
        0 => {
            let b = rng.range(5000, 9900);
            (b, rng.range(0, 9985) - b)
        }
        1 => {
            let b = -rng.range(5000, 9900);
            (b, rng.range(0, 60) - b)
        }
        2 => {
            // Near the largest bound.
            let b = rng.range(0, 9990);
            (b, rng.range(9990, 9998) - b)
        }
        3..=12 => (rng.range(-3, 3), rng.range(-3, 3)),
        _ => (rng.pick(&[0, 1, 1, 2]), rng.pick(&[0, 0, 0, 1])),
    };
    Frame { b, c, first }
}

/// Rows that nothing points to.
fn pad(pool: &mut Pool, rng: &mut Rng) {
    for _ in 0..rng.below(6) {
        let depth = 1 + rng.below(3);
        if rng.chance(50) {
            pool.random_body(rng, depth, 0, 3);
        } else {
            pool.random_outer(rng, depth, 0, 3);
        }
    }
}

/// Rows that nothing points to, until the pool has `count` rows.
pub fn pad_to(pool: &mut Pool, rng: &mut Rng, count: usize) {
    pool.duplicates = 100;
    while pool.len() < count.min(MAX_ROWS) {
        let kind = rng.range(0, 3);
        let row = if kind < 2 { [kind, 0, 0, 0] } else { [kind, rng.range(0, 255), rng.range(0, 2), 0] };
        pool.add(row);
    }
    pool.duplicates = 0;
}

fn on_i(pool: &mut Pool, symbol: i32, offset: i32) -> Option<i32> {
    pool.literal(true, symbol, ON_I, offset)
}

fn on_n(pool: &mut Pool, positive: bool, symbol: i32, offset: i32) -> Option<i32> {
    pool.literal(positive, symbol, ON_N, offset)
}

fn at(pool: &mut Pool, positive: bool, symbol: i32, index: i32) -> Option<i32> {
    pool.literal(positive, symbol, PLAIN, index)
}

/// One big and over a conjunction, or one for each part.
fn for_all(pool: &mut Pool, rng: &mut Rng, parts: &[i32], b: i32, c: i32) -> Option<Vec<i32>> {
    if rng.chance(50) {
        let body = pool.join(AND, parts)?;
        return Some(vec![pool.big_and(body, b, c)?]);
    }
    parts.iter().map(|part| pool.big_and(*part, b, c)).collect()
}

/// Some i has F, all i have not F.
fn some_and_all_not(pool: &mut Pool, rng: &mut Rng, Frame { b, c, first }: Frame) -> Option<Core> {
    let depth = 1 + rng.below(3);
    let body = pool.random_body(rng, depth, first, 2)?;
    let not_body = pool.dual(body)?;
    let some = pool.big_or(body, b, c)?;
    let all = pool.big_and(not_body, b - rng.pick(&[0, 0, 1, 2]), c - rng.pick(&[0, 0, 1, 2]))?;
    Some(Core { row: pool.join(AND, &[some, all])?, from: 0, near: b + c - 1 })
}

/// The same with the bodies written at different offsets.
fn moved_bodies(pool: &mut Pool, rng: &mut Rng, Frame { b, c, first }: Frame) -> Option<Core> {
    let depth = 1 + rng.below(3);
    let body = pool.random_body(rng, depth, first, 2)?;
    let by = rng.range(-2, 2);
    let moved = pool.moved(body, by)?;
    let not_moved = pool.dual(moved)?;
    let some = pool.big_or(body, b, c)?;
    let all = pool.big_and(not_moved, b - by, c + by)?;
    Some(Core { row: pool.join(AND, &[some, all])?, from: 0, near: b + c - 1 })
}

/// The first `step` indices have p0; p0 goes on by steps, through further symbols; n - c has not p0.
fn chain(pool: &mut Pool, rng: &mut Rng, Frame { b, c, first }: Frame) -> Option<Core> {
    let step = rng.pick(&[1, 1, 1, 2]);
    let symbols = if step == 1 { 1 + rng.below(3) as i32 } else { 1 };
    let positive: Vec<bool> = (0..symbols).map(|_| rng.chance(70)).collect();
    let mut steps = Vec::new();
    for number in 0..symbols {
        let next = (number + 1) % symbols;
        let offset = if number == 0 { -step } else { 0 };
        let here = pool.literal(positive[number as usize], first + number, ON_I, offset)?;
        let there = pool.literal(positive[next as usize], first + next, ON_I, 0)?;
        steps.push(pool.implies(here, there)?);
    }
    let mut parts = for_all(pool, rng, &steps, b, c)?;
    for back in 1..=step {
        parts.push(at(pool, positive[0], first, b - back)?);
    }
    parts.push(on_n(pool, !positive[0], first, -c)?);
    Some(Core { row: pool.join(AND, &parts)?, from: b + c - step, near: b + c - step })
}

fn all_not_at_index(pool: &mut Pool, rng: &mut Rng, Frame { b, c, first }: Frame) -> Option<Core> {
    let depth = 1 + rng.below(3);
    let body = pool.random_body(rng, depth, first, 2)?;
    let index = b + rng.range(0, 3);
    let instance = pool.instance_at(body, index)?;
    let not_instance = pool.dual(instance)?;
    let all = pool.big_and(body, b, c)?;
    Some(Core { row: pool.join(AND, &[all, not_instance])?, from: index + c, near: index + c })
}

fn all_not_at_parameter(pool: &mut Pool, rng: &mut Rng, Frame { b, c, first }: Frame) -> Option<Core> {
    let depth = 1 + rng.below(3);
    let body = pool.random_body(rng, depth, first, 2)?;
    let back = c + rng.range(0, 3);
    let instance = pool.instance(body, back)?;
    let not_instance = pool.dual(instance)?;
    let all = pool.big_and(body, b, c)?;
    Some(Core { row: pool.join(AND, &[all, not_instance])?, from: b + back, near: b + back })
}

/// Two values that both change at each step and are equal at first differ in the end.
fn toggles(pool: &mut Pool, rng: &mut Rng, Frame { b, c, first }: Frame) -> Option<Core> {
    let mut parts = Vec::new();
    let mut steps = Vec::new();
    let start = rng.chance(50);
    for symbol in [first, first + 1] {
        let (here, before) = (on_i(pool, symbol, 0)?, on_i(pool, symbol, -1)?);
        steps.push(pool.differ(here, before)?);
        parts.push(at(pool, start, symbol, b - 1)?);
    }
    parts.extend(for_all(pool, rng, &steps, b, c)?);
    let (x, y) = (on_n(pool, true, first, -c)?, on_n(pool, true, first + 1, -c)?);
    parts.push(pool.differ(x, y)?);
    Some(Core { row: pool.join(AND, &parts)?, from: b + c - 1, near: b + c - 1 })
}

/// A ripple-carry adder: x + 0 differs from x.
fn adder(pool: &mut Pool, rng: &mut Rng, Frame { b, c, first }: Frame) -> Option<Core> {
    let [x, y, carry, sum] = [0, 1, 2, 3].map(|symbol| symbol + first);
    let (x_i, y_i, carry_i, sum_i) = (on_i(pool, x, 0)?, on_i(pool, y, 0)?, on_i(pool, carry, 0)?, on_i(pool, sum, 0)?);
    let next = on_i(pool, carry, 1)?;
    let half = pool.differ(x_i, y_i)?;
    let whole = pool.differ(half, carry_i)?;
    let sums = pool.iff(sum_i, whole)?;
    let pairs = [pool.and(x_i, y_i)?, pool.and(x_i, carry_i)?, pool.and(y_i, carry_i)?];
    let majority = pool.join(OR, &pairs)?;
    let carries = pool.iff(next, majority)?;
    let mut parts = for_all(pool, rng, &[sums, carries], b, c)?;
    let no_y = pool.dual(y_i)?;
    parts.push(pool.big_and(no_y, b, c)?);
    parts.push(at(pool, false, carry, b)?);
    let wrong = pool.differ(x_i, sum_i)?;
    parts.push(pool.big_or(wrong, b, c)?);
    Some(Core { row: pool.join(AND, &parts)?, from: 0, near: b + c - 1 })
}

/// Comparison of three numbers from their lowest digits on: u ≤ v ≤ w, but not u ≤ w.
fn comparator(pool: &mut Pool, rng: &mut Rng, Frame { b, c, first }: Frame) -> Option<Core> {
    let digits = [first, first + 1, first + 2];
    let mut parts = Vec::new();
    let mut steps = Vec::new();
    for (number, (u, v)) in [(0, 1), (1, 2), (0, 2)].into_iter().enumerate() {
        let below = first + 3 + number as i32;
        let (u_i, v_i) = (on_i(pool, digits[u], 0)?, on_i(pool, digits[v], 0)?);
        let (here, before) = (on_i(pool, below, 0)?, on_i(pool, below, -1)?);
        let not_u = pool.dual(u_i)?;
        let less = pool.and(not_u, v_i)?;
        let at_most = pool.or(not_u, v_i)?;
        let carried = pool.and(at_most, before)?;
        let value = pool.or(less, carried)?;
        steps.push(pool.iff(here, value)?);
        parts.push(at(pool, true, below, b - 1)?);
        parts.push(on_n(pool, number < 2, below, -c)?);
    }
    parts.extend(for_all(pool, rng, &steps, b, c)?);
    Some(Core { row: pool.join(AND, &parts)?, from: b + c - 1, near: b + c - 1 })
}

/// An arbiter that grants the first request only, and yet grants two.
fn arbiter(pool: &mut Pool, rng: &mut Rng, Frame { b, c, first }: Frame) -> Option<Core> {
    let [request, asked, grant, granted] = [0, 1, 2, 3].map(|symbol| symbol + first);
    let (request_i, grant_i) = (on_i(pool, request, 0)?, on_i(pool, grant, 0)?);
    let (asked_i, asked_before) = (on_i(pool, asked, 0)?, on_i(pool, asked, -1)?);
    let (granted_i, granted_before) = (on_i(pool, granted, 0)?, on_i(pool, granted, -1)?);
    let either = pool.or(asked_before, request_i)?;
    let asking = pool.iff(asked_i, either)?;
    let not_before = pool.dual(asked_before)?;
    let first_one = pool.and(request_i, not_before)?;
    let granting = pool.iff(grant_i, first_one)?;
    let either = pool.or(granted_before, grant_i)?;
    let keeping = pool.iff(granted_i, either)?;
    let mut parts = for_all(pool, rng, &[asking, granting, keeping], b, c)?;
    parts.push(at(pool, false, granted, b - 1)?);
    if rng.chance(50) {
        parts.push(at(pool, false, asked, b - 1)?);
    }
    let twice = pool.and(grant_i, granted_before)?;
    parts.push(pool.big_or(twice, b, c)?);
    Some(Core { row: pool.join(AND, &parts)?, from: 0, near: b + c - 1 })
}

/// A formula and its negation.
fn formula_and_dual(pool: &mut Pool, rng: &mut Rng, frame: Frame) -> Option<Core> {
    let depth = 2 + rng.below(2);
    let formula = pool.random_outer(rng, depth, frame.first, 2)?;
    let dual = pool.dual(formula)?;
    Some(Core { row: pool.join(AND, &[formula, dual])?, from: 0, near: rng.range(0, 3) })
}

/// A big or over what no i has.
fn void(pool: &mut Pool, rng: &mut Rng, Frame { b, c, first }: Frame) -> Option<Core> {
    let body = if rng.chance(50) {
        pool.constant(false)?
    } else {
        let part = pool.random_body(rng, 2, first, 2)?;
        let dual = pool.dual(part)?;
        pool.join(AND, &[part, dual])?
    };
    let some = pool.big_or(body, b, c)?;
    let row = if rng.chance(50) {
        some
    } else {
        let other = pool.constant(false)?;
        pool.join(OR, &[some, other])?
    };
    Some(Core { row, from: 0, near: b + c - 1 })
}

/// No iteration: all sign patterns of one, two or three literals.
fn propositional(pool: &mut Pool, rng: &mut Rng, Frame { first, .. }: Frame) -> Option<Core> {
    let count = 1 + rng.below(3);
    let least = if rng.chance(80) { rng.range(0, 5) } else { rng.range(0, MAX_N) };
    let mut literals = Vec::new();
    for number in 0..count {
        let base = rng.pick(&[PLAIN, ON_N, ON_N]);
        literals.push((first + number as i32, base, rng.range(-3, 3)));
    }
    let mut clauses = Vec::new();
    for signs in 0..1 << count {
        let mut clause = Vec::new();
        for (number, (symbol, base, offset)) in literals.iter().enumerate() {
            clause.push(pool.literal(signs >> number & 1 == 0, *symbol, *base, *offset)?);
        }
        clauses.push(pool.join(OR, &clause)?);
    }
    Some(Core { row: pool.join(AND, &clauses)?, from: 0, near: least })
}
