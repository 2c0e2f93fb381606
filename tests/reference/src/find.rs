//! A model at an n that is named: document 02, No. 13. The schema at that n becomes a decision diagram over the pairs
//! that occur, which it asks for in ascending order; the first model is the path that takes false wherever it can.

use crate::formula::{index, judge_rows, Formulas, Twice, AND, BIG_AND, BIG_OR, LITERAL, NEGATED, ON_N, OR, TRUE};
use crate::{holds, refuse, Refusal, Verdict, MAX_N, MAX_PAIRS, MAX_ROWS, PAIR_WIDTH, ROW_WIDTH};
use std::collections::{BTreeSet, HashMap};

/// How many pairs may occur.
pub const MAX_OCCURRING: usize = 16;

/// What comes back: the verdict, with 1 as its number of nodes where a model is given, then n and the number of true
/// pairs in the table; both 0 where there is none.
#[derive(Clone, Copy, Debug, PartialEq, Eq)]
pub struct Found {
    pub verdict: Verdict,
    pub n: i32,
    pub pairs: usize,
}

/// The first model at n, its true pairs in `pairs`, which is all 0 past them.
pub fn find_model(root: i32, least: i32, schema: &[i32], schema_count: usize, n: i32, pairs: &mut [i32]) -> Found {
    pairs.fill(0);
    let none = |verdict| Found { verdict, n: 0, pairs: 0 };
    match first_model(root, least, schema, schema_count, n, pairs.len()) {
        Err(refusal) => none(Verdict::refused(refusal)),
        Ok(None) => none(Verdict::accepted(0, 0)),
        Ok(Some(found)) => {
            for (row, (symbol, index)) in pairs.chunks_exact_mut(PAIR_WIDTH).zip(&found) {
                row.copy_from_slice(&[*symbol, *index as i32]);
            }
            Found { verdict: Verdict::accepted(1, 0), n, pairs: found.len() }
        }
    }
}

/// The true pairs of the first model, if there is one; all refusals.
fn first_model(
    root: i32,
    least: i32,
    schema: &[i32],
    schema_count: usize,
    n: i32,
    room: usize,
) -> Result<Option<Vec<(i32, i64)>>, Refusal> {
    if room < MAX_PAIRS * PAIR_WIDTH {
        return refuse(2, 0);
    }
    if !holds(schema.len(), schema_count, ROW_WIDTH) {
        return refuse(2, -1);
    }
    if schema_count > MAX_ROWS {
        return refuse(5, -1);
    }
    let formulas = judge_rows(Twice::Allowed, root, least, schema, schema_count, &[], 0)?;
    if n < least || n > MAX_N {
        return refuse(19, -1);
    }
    let Some(pairs) = occurring(&formulas, root, i64::from(n), MAX_OCCURRING) else {
        return refuse(30, -1);
    };
    let mut diagram = Diagram::default();
    let at_n = AtN { formulas: &formulas, n: i64::from(n), pairs: &pairs };
    let whole = at_n.formula(&mut diagram, &mut HashMap::new(), root, None);
    Ok(diagram
        .first(whole, pairs.len())
        .map(|values| pairs.iter().zip(values).filter(|(_, value)| *value).map(|(pair, _)| *pair).collect()))
}

/// The pairs that occur in a well-formed outer row at n, ascending; `None` if there are more than `limit`.
pub fn occurring(formulas: &Formulas, root: i32, n: i64, limit: usize) -> Option<Vec<(i32, i64)>> {
    let mut pairs = BTreeSet::new();
    let mut bodies: HashMap<i32, BTreeSet<(i32, i64)>> = HashMap::new();
    for row in reached(formulas, root) {
        match formulas.row(row)? {
            [LITERAL | NEGATED, symbol, base, offset] => {
                pairs.insert((symbol, i64::from(offset) + if base == ON_N { n } else { 0 }));
            }
            [BIG_AND | BIG_OR, body, b, c] => {
                let literals = bodies.entry(body).or_insert_with(|| literals_on_i(formulas, body));
                if literals.is_empty() {
                    continue;
                }
                for i in i64::from(b)..=n - i64::from(c) {
                    pairs.extend(literals.iter().map(|(symbol, offset)| (*symbol, i + offset)));
                    if pairs.len() > limit {
                        return None;
                    }
                }
            }
            _ => {}
        }
    }
    (pairs.len() <= limit).then(|| pairs.into_iter().collect())
}

/// The row and all that it points to outside of bodies. Parts have smaller numbers.
fn reached(formulas: &Formulas, root: i32) -> BTreeSet<i32> {
    let mut found = BTreeSet::from([root]);
    let mut left = vec![root];
    while let Some(row) = left.pop() {
        if let Some([AND | OR, a, b, _]) = formulas.row(row) {
            left.extend([a, b].into_iter().filter(|part| found.insert(*part)));
        }
    }
    found
}

/// Symbol and offset of the literals in a body.
fn literals_on_i(formulas: &Formulas, body: i32) -> BTreeSet<(i32, i64)> {
    let rows = reached(formulas, body);
    let literal = |row: &i32| match formulas.row(*row) {
        Some([LITERAL | NEGATED, symbol, _, offset]) => Some((symbol, i64::from(offset))),
        _ => None,
    };
    rows.iter().filter_map(literal).collect()
}

/// A function of the pairs: false, true, or a node of the diagram.
type Function = u32;
const NEVER: Function = 0;
const ALWAYS: Function = 1;

/// Functions asked about by the first pair that they depend on: what they are where it is false, and where it is true.
/// Each function stands there once.
struct Diagram {
    nodes: Vec<(usize, Function, Function)>,
    numbers: HashMap<(usize, Function, Function), Function>,
    /// What was joined before, at a place that the join decides; a later one takes the place over.
    joins: Vec<(i32, Function, Function, Function)>,
}

const PLACES: usize = 1 << 14;

impl Default for Diagram {
    fn default() -> Diagram {
        let constant = (usize::MAX, NEVER, NEVER);
        Diagram { nodes: vec![constant; 2], numbers: HashMap::new(), joins: vec![(-1, 0, 0, 0); PLACES] }
    }
}

impl Diagram {
    fn node(&mut self, pair: usize, no: Function, yes: Function) -> Function {
        if no == yes {
            return no;
        }
        let next = self.nodes.len() as Function;
        let number = *self.numbers.entry((pair, no, yes)).or_insert(next);
        if number == next {
            self.nodes.push((pair, no, yes));
        }
        number
    }

    /// Both, or one of them: `kind` is that of an and or an or. A call goes on to later pairs.
    fn join(&mut self, kind: i32, f: Function, g: Function) -> Function {
        let (f, g) = (f.min(g), f.max(g));
        let (wins, yields) = if kind == AND { (NEVER, ALWAYS) } else { (ALWAYS, NEVER) };
        if f == g || g == yields || f == wins {
            return f;
        }
        if f == yields || g == wins {
            return g;
        }
        let place = (f as usize * 12_289 + g as usize * 31 + kind as usize) % PLACES;
        let (known_kind, known_f, known_g, known) = self.joins[place];
        if (known_kind, known_f, known_g) == (kind, f, g) {
            return known;
        }
        let (of_f, of_g) = (self.nodes[f as usize], self.nodes[g as usize]);
        let pair = of_f.0.min(of_g.0);
        let branch = |function: Function, node: (usize, Function, Function)| match node {
            (of_node, no, yes) if of_node == pair => (no, yes),
            _ => (function, function),
        };
        let ((f_no, f_yes), (g_no, g_yes)) = (branch(f, of_f), branch(g, of_g));
        let no = self.join(kind, f_no, g_no);
        let yes = self.join(kind, f_yes, g_yes);
        let joined = self.node(pair, no, yes);
        self.joins[place] = (kind, f, g, joined);
        joined
    }

    /// The first values of so many pairs that make it true.
    fn first(&self, mut function: Function, pairs: usize) -> Option<Vec<bool>> {
        if function == NEVER {
            return None;
        }
        let mut values = vec![false; pairs];
        while function != ALWAYS {
            let (pair, no, yes) = self.nodes[function as usize];
            values[pair] = no == NEVER;
            function = if values[pair] { yes } else { no };
        }
        Some(values)
    }
}

/// A schema at one n, and its pairs. Called with well-formed rows only.
struct AtN<'a> {
    formulas: &'a Formulas,
    n: i64,
    pairs: &'a [(i32, i64)],
}

/// What rows are known to be, by the index that the literals on i in them are at.
type Known = HashMap<(i32, Option<i64>), Function>;

impl AtN<'_> {
    fn formula(&self, diagram: &mut Diagram, known: &mut Known, row: i32, i: Option<i64>) -> Function {
        // A row without literals on i is the same at each.
        let i = i.filter(|_| !self.formulas.outer(row));
        if let Some(function) = known.get(&(row, i)) {
            return *function;
        }
        let [kind, a, b, c] = self.formulas.row(row).unwrap_or_default();
        let function = match kind {
            TRUE => ALWAYS,
            LITERAL | NEGATED => self.literal(diagram, kind, a, b, c, i),
            AND | OR => {
                let (left, right) = (self.formula(diagram, known, a, i), self.formula(diagram, known, b, i));
                diagram.join(kind, left, right)
            }
            BIG_AND | BIG_OR => self.range(diagram, known, if kind == BIG_AND { AND } else { OR }, a, b, c),
            _ => NEVER,
        };
        known.insert((row, i), function);
        function
    }

    fn literal(
        &self,
        diagram: &mut Diagram,
        kind: i32,
        symbol: i32,
        base: i32,
        offset: i32,
        i: Option<i64>,
    ) -> Function {
        let at = index(base, offset, self.n, i.unwrap_or_default());
        match self.pairs.binary_search(&(symbol, at)) {
            Ok(pair) if kind == LITERAL => diagram.node(pair, NEVER, ALWAYS),
            Ok(pair) => diagram.node(pair, ALWAYS, NEVER),
            Err(_) => NEVER,
        }
    }

    /// The body at each i from b up to n - c, joined; at one of them if it has no literals.
    fn range(&self, diagram: &mut Diagram, known: &mut Known, kind: i32, body: i32, b: i32, c: i32) -> Function {
        let (first, last) = (i64::from(b), self.n - i64::from(c));
        let last = if self.formulas.outer(body) { last.min(first) } else { last };
        let empty = if kind == AND { ALWAYS } else { NEVER };
        (first..=last).fold(empty, |before, i| {
            let at_i = self.formula(diagram, known, body, Some(i));
            diagram.join(kind, before, at_i)
        })
    }
}

#[cfg(test)]
mod tests {
    use super::*;

    const P: i32 = 0;
    const Q: i32 = 1;

    /// The first model of the last row at n, from 0 on.
    fn find(rows: &[[i32; 4]], n: i32) -> Option<Vec<i32>> {
        let mut pairs = vec![7; 8195];
        let found = find_model(rows.len() as i32 - 1, 0, &rows.concat(), rows.len(), n, &mut pairs);
        assert_eq!((found.verdict.answer, found.verdict.place, found.verdict.links), (0, 0, 0));
        assert!(pairs[found.pairs * 2..].iter().all(|number| *number == 0));
        assert_eq!(found.n, if found.verdict.nodes == 1 { n } else { 0 });
        pairs.truncate(found.pairs * 2);
        (found.verdict.nodes == 1).then_some(pairs)
    }

    fn refusal(root: i32, least: i32, rows: &[i32], count: usize, n: i32, room: usize) -> (u8, i32) {
        let mut pairs = vec![7; room];
        let found = find_model(root, least, rows, count, n, &mut pairs);
        assert_eq!((found.verdict.nodes, found.verdict.links, found.n, found.pairs), (0, 0, 0, 0));
        assert!(pairs.iter().all(|number| *number == 0));
        (found.verdict.answer, found.verdict.place)
    }

    #[test]
    fn constants() {
        assert_eq!(find(&[[0, 0, 0, 0]], 5), Some(vec![]));
        assert_eq!(find(&[[1, 0, 0, 0]], 5), None);
    }

    #[test]
    fn literals_at_an_index_and_at_n() {
        assert_eq!(find(&[[2, 3, 0, -4]], 5), Some(vec![3, -4]));
        assert_eq!(find(&[[2, 3, 1, -4]], 5), Some(vec![3, 1]));
        assert_eq!(find(&[[3, 3, 1, -4]], 5), Some(vec![]));
        assert_eq!(find(&[[2, 255, 1, 9999]], 9999), Some(vec![255, 19_998]));
    }

    #[test]
    fn the_first_pair_is_most_significant_and_false_comes_first() {
        // p_5 or p_3: of the pairs (0, 3) and (0, 5) the later one is the first to become true.
        assert_eq!(find(&[[2, P, 0, 5], [2, P, 0, 3], [5, 0, 1, 0]], 0), Some(vec![P, 5]));
        // p_9 or q_0: by symbol first.
        assert_eq!(find(&[[2, P, 0, 9], [2, Q, 0, 0], [5, 1, 0, 0]], 0), Some(vec![Q, 0]));
        // (not p_1 and p_2) or p_1.
        let rows = [[3, P, 0, 1], [2, P, 0, 2], [4, 0, 1, 0], [2, P, 0, 1], [5, 3, 2, 0]];
        assert_eq!(find(&rows, 0), Some(vec![P, 2]));
        // p_1 and (p_2 or p_3).
        let rows = [[2, P, 0, 1], [2, P, 0, 2], [2, P, 0, 3], [5, 1, 2, 0], [4, 0, 3, 0]];
        assert_eq!(find(&rows, 0), Some(vec![P, 1, P, 3]));
    }

    #[test]
    fn iterations() {
        // Some p_i for i from 2 up to n: the last one.
        let some = [[2, P, 2, 0], [7, 0, 2, 0]];
        assert_eq!(find(&some, 1), None);
        assert_eq!(find(&some, 2), Some(vec![P, 2]));
        assert_eq!(find(&some, 4), Some(vec![P, 4]));
        // All of them.
        let all = [[2, P, 2, 0], [6, 0, 2, 0]];
        assert_eq!(find(&all, 1), Some(vec![]));
        assert_eq!(find(&all, 4), Some(vec![P, 2, P, 3, P, 4]));
        // Each i from 0 up to 2 has p_i or p_(i + 1): p_1 and p_3 do.
        let pairs = [[2, P, 2, 0], [2, P, 2, 1], [5, 0, 1, 0], [6, 2, 0, 0]];
        assert_eq!(find(&pairs, 2), Some(vec![P, 1, P, 3]));
        // Some p_i and no p_i, the record of document 01.
        let record = [[2, P, 2, 0], [3, P, 2, 0], [7, 0, 2, 0], [6, 1, 2, 0], [4, 2, 3, 0]];
        assert_eq!([1, 2, 3, 16].map(|n| find(&record, n)), [None, None, None, None]);
    }

    #[test]
    fn pairs_that_occur() {
        let count = |rows: &[[i32; 4]], n: i64| {
            let formulas = Formulas::new(&rows.concat(), rows.len(), &[], 0).expect("rows");
            occurring(&formulas, rows.len() as i32 - 1, n, 100).map(|pairs| pairs.len())
        };
        // p_i and q_(i + 2) for i from 1 up to n; a row beside the root does not count.
        let rows = [[2, 9, 0, 0], [2, P, 2, 0], [2, Q, 2, 2], [4, 1, 2, 0], [7, 3, 1, 0]];
        assert_eq!([0, 1, 8, 50].map(|n| count(&rows, n)), [Some(0), Some(2), Some(16), Some(100)]);
        assert_eq!(count(&rows, 51), None);
        // p_i and p_(i + 2): for 1 to 4 these are p_1 to p_6.
        assert_eq!(count(&[[2, P, 2, 0], [3, P, 2, 2], [4, 0, 1, 0], [6, 2, 1, 0]], 4), Some(6));
        // p_n, p_3 and p_i at n = 3: one pair.
        let rows = [[2, P, 1, 0], [3, P, 0, 3], [2, P, 2, 0], [6, 2, 3, 0], [5, 0, 1, 0], [4, 3, 4, 0]];
        assert_eq!([3, 4].map(|n| count(&rows, n)), [Some(1), Some(2)]);
    }

    #[test]
    fn sixteen_pairs_and_seventeen() {
        let all = [[2, P, 2, 0], [6, 0, 1, 0]];
        let sixteen: Vec<i32> = (1..=16).flat_map(|index| [P, index]).collect();
        assert_eq!(find(&all, 16), Some(sixteen));
        assert_eq!(refusal(1, 0, &all.concat(), 2, 17, 8192), (30, -1));
        assert_eq!(refusal(1, 0, &all.concat(), 2, 9999, 8192), (30, -1));
        // A body without literals, at 29,998 values of i.
        assert_eq!(find(&[[0, 0, 0, 0], [6, 0, -9999, -9999]], 9999), Some(vec![]));
        assert_eq!(find(&[[1, 0, 0, 0], [7, 0, -9999, -9999]], 9999), None);
    }

    #[test]
    fn refusals_in_their_order() {
        let rows = [[2, P, 2, 0], [6, 0, 1, 0]].concat();
        assert_eq!(refusal(1, 3, &rows, 2, 2, 8192), (19, -1));
        assert_eq!(refusal(1, 3, &rows, 2, 10_000, 8192), (19, -1));
        assert_eq!(refusal(0, 3, &rows, 2, 2, 8192), (6, -1));
        assert_eq!(refusal(0, 3, &[&rows[..], &[8, 0, 0, 0]].concat(), 3, 2, 8192), (7, 2));
        assert_eq!(refusal(3, 3, &[&rows[..], &[8, 0, 0, 0]].concat(), 3, 2, 8192), (6, -1));
        let doubled: Vec<i32> = [vec![0, 0, 0, 0], (0..12).flat_map(|row| [4, row, row, 0]).collect()].concat();
        assert_eq!(refusal(0, 3, &doubled, 13, 2, 8192), (8, 12));
        assert_eq!(refusal(3, 3, &[0; 4100], 1025, 2, 8192), (5, -1));
        assert_eq!(refusal(3, 3, &[0; 4099], 1025, 2, 8192), (2, -1));
        assert_eq!(refusal(3, 3, &[0; 4099], 1025, 2, 8191), (2, 0));
        assert_eq!(refusal(3, 3, &[], usize::MAX, 2, 0), (2, 0));
    }

    #[test]
    fn the_first_of_all_assignments_one_by_one() {
        // Formulas over p_0 to p_3, among them each i's p_i and p_(i + 1), tried against all 16 assignments.
        let mut seed = 1_u64;
        let mut any = |limit: u64| {
            seed = seed.wrapping_mul(6_364_136_223_846_793_005).wrapping_add(1_442_695_040_888_963_407);
            (seed >> 33) as i32 % limit as i32
        };
        for _ in 0..300 {
            let mut rows = vec![[2, P, 2, 0], [3, P, 2, 1], [4 + any(2), 0, 1, 0], [6 + any(2), 2, any(2), 1]];
            rows.extend((0..4).map(|at| [2 + any(2), P, 0, at]));
            for next in 8..14 {
                rows.push([4 + any(2), 3 + any(next - 3), 3 + any(next - 3), 0]);
            }
            let formulas = Formulas::new(&rows.concat(), rows.len(), &[], 0).expect("rows");
            let pairs = occurring(&formulas, 13, 3, 16).expect("few pairs");
            let value = |assignment: u32, pair: usize| assignment >> (pairs.len() - 1 - pair) & 1 == 1;
            let first = (0..1 << pairs.len()).find(|assignment| {
                crate::model::value(&formulas, 13, 3, &|symbol, index| {
                    value(*assignment, pairs.binary_search(&(symbol, index)).expect("a pair that occurs"))
                })
            });
            let first = first.map(|assignment| {
                let of_pair = |at: usize| [pairs[at].0, pairs[at].1 as i32];
                (0..pairs.len()).filter(|at| value(assignment, *at)).flat_map(of_pair).collect()
            });
            assert_eq!(find(&rows, 3), first);
        }
    }
}
