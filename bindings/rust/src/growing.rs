//! A tableau that grows row by row.

use crate::entries;
use crate::record::{Proof, Record, Row, Schema};
use crate::text::{rows, MAX_MEMBERS, MAX_NODES};
use crate::verdict::{counts, Refused};

/// What is there of a tableau that grows.
#[derive(Clone, Copy, Debug, Default, PartialEq, Eq, Hash)]
pub struct Standing {
    pub nodes: usize,
    pub links: usize,
    /// [`check`](crate::check) accepts the record as it stands.
    pub closed: bool,
}

/// A tableau that is built row by row, and the formula rows that it is built on. A row that is refused changes
/// nothing.
///
/// ```
/// use zorambi::{check, Growing, Refusal, Schema, Standing, Verdict};
///
/// // p_n and not p_n.
/// let schema = Schema { root: 2, least: 0, rows: vec![[2, 0, 1, 0], [3, 0, 1, 0], [4, 0, 1, 0]] };
/// let mut growing = Growing::begin(schema, vec![])?;
/// let standing = growing.add([-1, 0, 2, -1, -1, -1, 0], &[2])?;
/// assert_eq!(standing, Standing { nodes: 1, links: 0, closed: false });
///
/// // A clash of p_n with itself.
/// let refused = growing.add([0, 6, 0, 0, -1, -1, 0], &[0, 1]).unwrap_err();
/// assert_eq!((refused.refusal, refused.place), (Refusal::Fields, Some(1)));
/// assert_eq!(growing.standing(), standing);
///
/// let standing = growing.add([0, 6, 0, 1, -1, -1, 0], &[0, 1])?;
/// assert!(standing.closed);
/// assert_eq!(check(&growing.record()), Verdict::Accepted { nodes: 2, links: 0 });
///
/// growing.take_back()?;
/// assert!(!growing.standing().closed);
///
/// // What adding a row would come to, before it is added.
/// let standing = growing.enquire([0, 6, 0, 1, -1, -1, 0], &[0, 1])?;
/// assert!(standing.closed && !growing.standing().closed);
/// assert_eq!(growing.commit()?, standing);
/// assert_eq!(growing.commit().unwrap_err().refusal, Refusal::Waiting);
/// # Ok::<(), zorambi::Refused>(())
/// ```
#[derive(Clone, Debug)]
pub struct Growing {
    schema: Schema,
    rows: Vec<Row>,
    nodes: Vec<i32>,
    members: Vec<i32>,
    held: [usize; 2],
    waiting: [i32; 1033],
    standing: Standing,
}

/// A call of an entry, with what all of them are given.
macro_rules! call {
    ($entry:ident, $growing:ident $(, $more:expr)*) => {{
        let mut shown = [0];
        let packed = entries::$entry(
            $growing.schema.rows.as_flattened(),
            $growing.schema.rows.len(),
            $growing.rows.as_flattened(),
            $growing.rows.len(),
            $growing.schema.root,
            $growing.schema.least,
            &mut $growing.nodes,
            &mut $growing.members,
            &mut $growing.held,
            &mut shown,
            $($more,)*
        );
        counts(packed).map(|[nodes, links]| Standing { nodes, links, closed: shown == [1] })
    }};
}

impl Growing {
    /// A tableau without nodes for the schema, with further formula rows, which go on counting where the schema's end.
    /// They are judged as by [`check`](crate::check).
    pub fn begin(schema: Schema, rows: Vec<Row>) -> Result<Growing, Refused> {
        let (nodes, members) = (vec![0; MAX_NODES * 9], vec![0; MAX_MEMBERS]);
        let (held, waiting, standing) = ([0; 2], [0; 1033], Standing::default());
        let mut growing = Growing { schema, rows, nodes, members, held, waiting, standing };
        call!(begin, growing, &mut growing.waiting)?;
        Ok(growing)
    }

    /// Adds a node row (up rule on with other to by) with its set at the end. It is judged as by
    /// [`check`](crate::check), but that its children may come later and that it may not be a child too many.
    pub fn add(&mut self, row: [i32; 7], set: &[i32]) -> Result<Standing, Refused> {
        self.standing = call!(add, self, &row, set, &mut self.waiting)?;
        Ok(self.standing)
    }

    /// Takes the last node row back.
    pub fn take_back(&mut self) -> Result<Standing, Refused> {
        self.standing = call!(take_back, self, &mut self.waiting)?;
        Ok(self.standing)
    }

    /// Answers as [`add`](Growing::add) would, and changes no row: what would be there with the row. One that would be
    /// added waits for [`commit`](Growing::commit), otherwise none does.
    pub fn enquire(&mut self, row: [i32; 7], set: &[i32]) -> Result<Standing, Refused> {
        call!(enquire, self, &row, set, &mut self.waiting)
    }

    /// Adds the row last enquired about, if the enquiry said yes and no commit, addition or take-back succeeded since.
    pub fn commit(&mut self) -> Result<Standing, Refused> {
        self.standing = call!(commit, self, &mut self.waiting)?;
        Ok(self.standing)
    }

    /// The nodes and links that are there, and whether the tableau is closed.
    pub fn standing(&self) -> Standing {
        self.standing
    }

    /// The node row with this number (up rule on with other to by) and its set; `None` if there is none.
    pub fn row(&self, number: usize) -> Option<([i32; 7], &[i32])> {
        let held = &self.nodes[..self.held[0] * 9];
        let [up, rule, on, with, other, to, by, start, length] = *held.as_chunks().0.get(number)?;
        let set = &self.members[start as usize..][..length as usize];
        Some(([up, rule, on, with, other, to, by], set))
    }

    /// The schema, the formula rows and the node rows that are there.
    pub fn record(&self) -> Record {
        let [node_count, member_count] = self.held;
        let nodes = rows(&self.nodes, node_count as i32);
        let proof = Proof { rows: self.rows.clone(), nodes, members: self.members[..member_count].to_vec() };
        Record { schema: self.schema.clone(), proof }
    }
}
