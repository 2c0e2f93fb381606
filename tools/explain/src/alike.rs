//! Formulas lowered by k, and instances of bodies, written out as rows, to be set beside other rows: whether both are alike after
//! swapping sides, and if not, where they part first.

use crate::rows::Rows;
use std::collections::HashMap;
use zorambi::Row;

/// What is put into a formula.
#[derive(Clone, Copy, Debug, PartialEq, Eq, Hash)]
pub enum Put {
    /// n - k for n.
    Lower(i64),
    /// n - c for i.
    Instance(i64),
}

impl Put {
    pub const NOTHING: Put = Put::Lower(0);
}

/// Rows that were written out. Those with one class are alike.
pub struct Written<'a> {
    from: &'a Rows,
    rows: Vec<Row>,
    classes: Vec<usize>,
    known: HashMap<(usize, Put), usize>,
    class_of: HashMap<[i64; 4], usize>,
}

/// Where two rows that were written out part: what stands there, and what has to stand there.
#[derive(Clone, Copy, Debug, PartialEq, Eq)]
pub struct Parting {
    pub stands: usize,
    pub wanted: usize,
}

/// Steps that a comparison of two formulas may take before they count as far apart.
const STEPS: usize = 2000;

impl<'a> Written<'a> {
    pub fn new(from: &'a Rows) -> Written<'a> {
        Written { from, rows: Vec::new(), classes: Vec::new(), known: HashMap::new(), class_of: HashMap::new() }
    }

    /// Writes a row of the tables with something put in. `None` if it is no row, or a part of it is no row before it.
    pub fn write(&mut self, row: i32, put: Put) -> Option<usize> {
        let number = usize::try_from(row).ok()?;
        if let Some(written) = self.known.get(&(number, put)) {
            return Some(*written);
        }
        let [kind, a, b, c] = self.from.get(row)?;
        let offset = |k: i64| i32::try_from(i64::from(c) - k).ok();
        let before = |part: i32| (part < row).then_some(part);
        let row = match (kind, b, put) {
            (2 | 3, 1, Put::Lower(k)) => [kind, a, 1, offset(k)?],
            (2 | 3, 2, Put::Instance(k)) => [kind, a, 1, offset(k)?],
            (4 | 5, ..) => [kind, self.part(before(a)?, put)?, self.part(before(b)?, put)?, c],
            (6 | 7, _, Put::Lower(k)) => [kind, self.part(before(a)?, Put::NOTHING)?, b, offset(-k)?],
            (6 | 7, _, Put::Instance(_)) => [kind, self.part(before(a)?, Put::NOTHING)?, b, c],
            (0..=3, ..) => [kind, a, b, c],
            _ => return None,
        };
        let written = self.rows.len();
        self.rows.push(row);
        let class = self.class(row);
        self.classes.push(class);
        self.known.insert((number, put), written);
        Some(written)
    }

    fn part(&mut self, row: i32, put: Put) -> Option<i32> {
        i32::try_from(self.write(row, put)?).ok()
    }

    /// The class of a row whose parts are written: parts by their classes, sides in order.
    fn class(&mut self, [kind, a, b, c]: Row) -> usize {
        let class = |part: i32| self.classes[part as usize] as i64;
        let key = match kind {
            4 | 5 => {
                let (x, y) = (class(a), class(b));
                [kind.into(), x.min(y), x.max(y), c.into()]
            }
            6 | 7 => [kind.into(), class(a), b.into(), c.into()],
            _ => [kind, a, b, c].map(i64::from),
        };
        let next = self.class_of.len();
        *self.class_of.entry(key).or_insert(next)
    }

    pub fn are_alike(&self, one: usize, other: usize) -> bool {
        self.classes[one] == self.classes[other]
    }

    pub fn text(&self, written: usize) -> String {
        self.from.voice.formula(&self.rows, written)
    }

    /// Its number among these rows. Those of its parts that are not there, and itself, are put at their end.
    pub fn put(&self, written: usize, rows: &mut Vec<Row>) -> i32 {
        let [kind, a, b, c] = self.rows[written];
        let row = match kind {
            4 | 5 => [kind, self.put(a as usize, rows), self.put(b as usize, rows), c],
            6 | 7 => [kind, self.put(a as usize, rows), b, c],
            _ => [kind, a, b, c],
        };
        let there = rows.iter().position(|other| *other == row).unwrap_or_else(|| {
            rows.push(row);
            rows.len() - 1
        });
        there as i32
    }

    /// The parts of both that are to be set side by side, if the rows themselves fit: those that are alike are left out.
    fn partings(&self, stands: usize, wanted: usize) -> Option<Vec<Parting>> {
        let ([kind, a, b, c], [wanted_kind, d, e, f]) = (self.rows[stands], self.rows[wanted]);
        let pair = |stands: i32, wanted: i32| Parting { stands: stands as usize, wanted: wanted as usize };
        let alike = |pair: Parting| self.are_alike(pair.stands, pair.wanted);
        match kind {
            _ if kind != wanted_kind => None,
            4 | 5 => {
                let straight = [pair(a, d), pair(b, e)];
                let crossed = [pair(a, e), pair(b, d)];
                let pairs =
                    if crossed.into_iter().any(alike) && !straight.into_iter().any(alike) { crossed } else { straight };
                Some(pairs.into_iter().filter(|pair| !alike(*pair)).collect())
            }
            6 | 7 if (b, c) == (e, f) => Some(vec![pair(a, d)]),
            _ => None,
        }
    }

    /// The first place where they part.
    pub fn first_parting(&self, stands: usize, wanted: usize) -> Parting {
        let mut at = Parting { stands, wanted };
        while let Some(inner) = self.partings(at.stands, at.wanted).and_then(|pairs| pairs.first().copied()) {
            at = inner;
        }
        at
    }

    /// How many places differ, and how much is in them; many where it takes long to say.
    fn apart(&self, stands: usize, wanted: usize) -> usize {
        let (mut places, mut waiting) = (0, vec![Parting { stands, wanted }]);
        for _ in 0..STEPS {
            let Some(at) = waiting.pop() else { return places };
            match self.partings(at.stands, at.wanted) {
                Some(pairs) => waiting.extend(pairs),
                None => places += self.unlike(at),
            }
        }
        usize::MAX
    }

    /// Two literals of one symbol differ less than two rows of different kinds.
    fn unlike(&self, at: Parting) -> usize {
        let ([kind, a, ..], [wanted_kind, d, ..]) = (self.rows[at.stands], self.rows[at.wanted]);
        match (kind == wanted_kind, kind) {
            (true, 2 | 3) if a == d => 2,
            (true, 6 | 7) if self.classes[a as usize] == self.classes[d as usize] => 1,
            (true, _) => 4,
            (false, 2 | 3) if matches!(wanted_kind, 2 | 3) && a == d => 5,
            (false, _) => 8,
        }
    }

    /// They have another kind, or are literals of another symbol.
    pub fn are_strange(&self, stands: usize, wanted: usize) -> bool {
        let ([kind, a, ..], [wanted_kind, d, ..]) = (self.rows[stands], self.rows[wanted]);
        kind != wanted_kind || matches!(kind, 2 | 3) && a != d
    }

    /// Of these rows the one that is nearest to what is wanted.
    pub fn nearest(&mut self, set: &[i32], wanted: usize) -> Option<(i32, usize)> {
        let mut best: Option<(usize, i32, usize)> = None;
        for &row in set {
            let Some(written) = self.write(row, Put::NOTHING) else { continue };
            let apart = self.apart(written, wanted);
            if best.is_none_or(|(least, ..)| apart < least) {
                best = Some((apart, row, written));
            }
        }
        best.map(|(_, row, written)| (row, written))
    }

    /// The k with which a row lowered by k is alike to one that was written, if there is one.
    pub fn lowered_by(&mut self, row: i32, written: usize) -> Option<i64> {
        let same = self.write(row, Put::NOTHING)?;
        let k = self.shift(same)? - self.shift(written)?;
        let lowered = self.write(row, Put::Lower(k))?;
        self.are_alike(lowered, written).then_some(k)
    }

    /// The least offset from n in a row: of a literal on n, or of an iteration's limit.
    fn shift(&self, written: usize) -> Option<i64> {
        let (mut seen, mut waiting, mut least) = (vec![false; written + 1], vec![written], None);
        while let Some(at) = waiting.pop() {
            if std::mem::replace(&mut seen[at], true) {
                continue;
            }
            let found = match self.rows[at] {
                [2 | 3, _, 1, c] => Some(i64::from(c)),
                [6 | 7, _, _, c] => Some(-i64::from(c)),
                [4 | 5, a, b, _] => {
                    waiting.extend([a as usize, b as usize]);
                    None
                }
                _ => None,
            };
            least = [least, found].into_iter().flatten().min();
        }
        least
    }
}
