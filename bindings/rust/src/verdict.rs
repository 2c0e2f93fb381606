//! Verdicts and refusals.

use crate::words::{counted, told, Known};
use std::error::Error;
use std::fmt;

/// The refusals, each with its number and its words.
macro_rules! refusals {
    ($($name:ident = $number:literal, $words:literal;)*) => {
        /// Why a record, a model or a text is turned away. The numbers are those of the paper and of
        /// `include/zorambi.h`.
        #[derive(Clone, Copy, Debug, PartialEq, Eq, Hash, PartialOrd, Ord)]
        #[repr(u8)]
        pub enum Refusal {
            $(#[doc = $words] $name = $number,)*
        }

        impl Refusal {
            /// All of them, in the order of their numbers.
            pub const ALL: &'static [Refusal] = &[$(Refusal::$name),*];
        }

        impl fmt::Display for Refusal {
            fn fmt(&self, f: &mut fmt::Formatter<'_>) -> fmt::Result {
                f.write_str(match self {
                    $(Refusal::$name => $words,)*
                })
            }
        }
    };
}

refusals! {
    TextTooLong = 1, "a text over 65,536 bytes";
    TableTooShort = 2, "a lent table too short";
    Heading = 3, "a heading";
    Line = 4, "a line's form";
    TooMany = 5, "too many rows or members";
    Root = 6, "the root or the least value";
    IllFormed = 7, "an ill-formed formula";
    TooLarge = 8, "a formula too large or too deep";
    Set = 9, "a set's place, order or members";
    Parent = 10, "a wrong parent";
    Drawn = 11, "a formula that the parent does not give";
    Fields = 12, "no such rule, or fields that do not fit it";
    Target = 13, "a link whose to is not the number of a node before it";
    Bound = 14, "a bound";
    Partner = 15, "an unfolding's with or other";
    Lowered = 16, "a link's row without its lowered partner";
    Children = 17, "the number of children";
    Pair = 18, "a pair out of order or range";
    Width = 19, "n out of range";
    False = 20, "the schema is false there";
    Number = 21, "a number beyond 5 digits, or sets that do not follow one another";
    Output = 22, "the output";
    // Connectives as designers write them.
    Plain = 23, "plain rows too many, too large or too deep";
    // A tableau that grows.
    Room = 24, "no room for the row";
    NoRow = 25, "no row to take back";
    // Enquiry and commit.
    Waiting = 26, "no row waits";
    // Proof rows written twice.
    Repeated = 27, "a proof row written twice";
    // One record for either fault.
    Leasts = 28, "the least values differ";
    Joint = 29, "the joined record passes a limit";
    // A failing width.
    Wires = 30, "more than 16 pairs that occur at that n";
    // All small schemata.
    NotListed = 31, "not 1 to 3 rows, or a table that is not on the list of small ones";
}

impl Refusal {
    /// Its number in the papers.
    pub fn number(self) -> u8 {
        self as u8
    }

    /// The refusal with this number.
    pub fn of_number(number: u64) -> Option<Refusal> {
        Refusal::ALL.iter().copied().find(|refusal| u64::from(refusal.number()) == number)
    }

    /// What a place of this refusal counts; `None` if it is no row, node, pair or line.
    pub fn place_counts(self) -> Option<&'static str> {
        match self.number() {
            3..=5 => Some("line"),
            7 | 8 | 27 => Some("row"),
            9..=17 => Some("node"),
            18 => Some("pair"),
            _ => None,
        }
    }
}

/// A refusal and its place: the row, node, pair or line it speaks of; `None` is the paper's -1.
#[derive(Clone, Copy, Debug, PartialEq, Eq, Hash)]
pub struct Refused {
    pub refusal: Refusal,
    pub place: Option<usize>,
}

impl fmt::Display for Refused {
    fn fmt(&self, f: &mut fmt::Formatter<'_>) -> fmt::Result {
        f.write_str(&told(*self, &Known::default()))
    }
}

impl Error for Refused {}

/// What the checks and the model check say. A model's acceptance has both counts 0.
#[must_use]
#[derive(Clone, Copy, Debug, PartialEq, Eq, Hash)]
pub enum Verdict {
    Accepted { nodes: usize, links: usize },
    Refused { refusal: Refusal, place: Option<usize> },
}

impl Verdict {
    pub fn is_accepted(self) -> bool {
        matches!(self, Verdict::Accepted { .. })
    }

    /// The verdict that a number of the library stands for:
    /// ((answer × 8192 + place + 1) × 8192 + nodes) × 8192 + links, whatever stands above it.
    pub(crate) fn of_packed(packed: u64) -> Verdict {
        counts(packed).map_or_else(Verdict::from, |[nodes, links]| Verdict::Accepted { nodes, links })
    }
}

impl From<Refused> for Verdict {
    fn from(refused: Refused) -> Verdict {
        Verdict::Refused { refusal: refused.refusal, place: refused.place }
    }
}

impl fmt::Display for Verdict {
    fn fmt(&self, f: &mut fmt::Formatter<'_>) -> fmt::Result {
        match *self {
            Verdict::Accepted { nodes: 0, .. } => f.write_str("accepted"),
            Verdict::Accepted { nodes, links } => {
                write!(f, "accepted: {}, {}", counted(nodes, "node"), counted(links, "link"))
            }
            Verdict::Refused { refusal, place } => Refused { refusal, place }.fmt(f),
        }
    }
}

/// The refusal that a number of the library stands for; `None` if it is a success.
pub(crate) fn refused(packed: u64) -> Option<Refused> {
    let answer = packed >> 39 & 31;
    if answer == 0 {
        return None;
    }
    let refusal = Refusal::of_number(answer).expect("the library answers with 0 or a refusal's number");
    Some(Refused { refusal, place: (packed >> 26 & 8191).checked_sub(1).map(|place| place as usize) })
}

/// The two counts, of nodes and of links, of a number of the library.
pub(crate) fn counts(packed: u64) -> Result<[usize; 2], Refused> {
    match refused(packed) {
        None => Ok([(packed >> 13 & 8191) as usize, (packed & 8191) as usize]),
        Some(refused) => Err(refused),
    }
}

#[cfg(test)]
mod tests {
    use super::*;

    #[test]
    fn numbers_and_names_are_those_of_the_header() {
        let header = include_str!("../../../include/zorambi.h");
        let mut found = Vec::new();
        for line in header.lines() {
            if let Some((name, rest)) = line.trim_start().split_once(" = ") {
                let number: String = rest.chars().take_while(char::is_ascii_digit).collect();
                if let (Some(name), Ok(number)) = (name.strip_prefix("ZORAMBI_"), number.parse::<u64>()) {
                    found.push((name.replace('_', "").to_lowercase(), number));
                }
            }
        }
        let mut expected = vec![("accepted".to_string(), 0)];
        let named = |refusal: &Refusal| (format!("{refusal:?}").to_lowercase(), refusal.number().into());
        expected.extend(Refusal::ALL.iter().map(named));
        assert_eq!(found, expected);
    }

    #[test]
    fn words_are_those_of_the_header() {
        let header = include_str!("../../../include/zorambi.h");
        for refusal in Refusal::ALL {
            let of_number = format!(" = {}, ", refusal.number());
            let line = header.lines().find(|line| line.starts_with("  ZORAMBI_") && line.contains(&of_number));
            let comment = line.and_then(|line| Some(line.split_once("/* ")?.1)).unwrap_or_default();
            assert!(comment.starts_with(&refusal.to_string()), "{}: {comment}", refusal.number());
        }
    }

    #[test]
    fn numbers_of_refusals() {
        let known: Vec<u64> = Refusal::ALL.iter().map(|refusal| u64::from(refusal.number())).collect();
        assert!(known.is_sorted_by(|one, other| one < other));
        assert!((1..=22).chain([27]).all(|number| known.contains(&number)));
        for number in (0..600).chain([u64::MAX]) {
            let found = Refusal::of_number(number).map(|refusal| u64::from(refusal.number()));
            assert_eq!(found, known.contains(&number).then_some(number));
        }
    }

    #[test]
    fn packed_numbers_of_the_paper() {
        let accepted = (8192 + 7) * 8192 + 1;
        assert_eq!(Verdict::of_packed(accepted), Verdict::Accepted { nodes: 7, links: 1 });
        let refused = (14 * 8192 + 5 + 1) * 8192 * 8192;
        assert_eq!(Verdict::of_packed(refused), Verdict::Refused { refusal: Refusal::Bound, place: Some(5) });
        let without_place = 20 * 8192 * 8192 * 8192;
        assert_eq!(Verdict::of_packed(without_place), Verdict::Refused { refusal: Refusal::False, place: None });
        for fault in [1, 2 * 65_536 + 1, (1 << 20) - 1] {
            for packed in [accepted, refused, without_place, 31 << 39] {
                assert_eq!(Verdict::of_packed(fault << 44 | packed), Verdict::of_packed(packed));
            }
        }
    }

    #[test]
    fn verdicts_in_words() {
        let words = |verdict: Verdict| verdict.to_string();
        assert_eq!(words(Verdict::Accepted { nodes: 7, links: 1 }), "accepted: 7 nodes, 1 link");
        assert_eq!(words(Verdict::Accepted { nodes: 0, links: 0 }), "accepted");
        assert_eq!(
            words(Verdict::Refused { refusal: Refusal::Bound, place: Some(5) }),
            "refused: a bound (14) at node 5"
        );
        assert_eq!(
            words(Verdict::Refused { refusal: Refusal::Root, place: None }),
            "refused: the root or the least value (6)"
        );
    }
}
