//! zorambi-beside: calls of the library's entries by the crate for Rust, as the package for Python makes them too.
//!
//! Standard input has a call in each line: the entry's name and its values, with a space between. Numbers one after another are written
//! `1,-2,3`, or `4096x7` for 4096 sevens, and `-` for none; bytes as hexadecimal digits, and `-` for none. What is lent is written the
//! same way, as it is before the call. For each call a line is printed: the number that comes back, then for each array that is lent the
//! start of its hash after the call. A line `told NUMBER PLACE RULE GROWING` asks for a refusal's words instead.

use std::io::{self, BufWriter, Read, Write};
use zorambi::entries;
use zorambi::words::{told, Known};
use zorambi::{hex, sha256, Refusal, Refused};

/// The values of a call, one after another.
struct Values<'a>(std::str::SplitAsciiWhitespace<'a>);

impl<'a> Values<'a> {
    fn word(&mut self) -> &'a str {
        self.0.next().expect("a value for each parameter")
    }

    fn number<T: std::str::FromStr>(&mut self) -> T {
        let word = self.word();
        word.parse().unwrap_or_else(|_| panic!("{word} is no number of the parameter's type"))
    }

    fn numbers<T: std::str::FromStr + Clone>(&mut self) -> Vec<T> {
        let parsed = |word: &str| word.parse().unwrap_or_else(|_| panic!("{word} is no number of the array's type"));
        match self.word() {
            "-" => Vec::new(),
            word => match word.split_once('x') {
                Some((count, number)) => vec![parsed(number); count.parse().expect("a count")],
                None => word.split(',').map(parsed).collect(),
            },
        }
    }

    fn array<T: std::str::FromStr + Clone, const LENGTH: usize>(&mut self) -> [T; LENGTH] {
        self.numbers().try_into().unwrap_or_else(|_| panic!("{LENGTH} numbers"))
    }

    fn bytes(&mut self) -> Vec<u8> {
        let digits = match self.word() {
            "-" => "",
            word => word,
        };
        let byte = |at: usize| u8::from_str_radix(&digits[at..at + 2], 16).expect("two digits for each byte");
        (0..digits.len()).step_by(2).map(byte).collect()
    }
}

/// The hash of what stands in lent memory.
trait Hashed {
    fn hashed(&self) -> String;
}

impl Hashed for [u8] {
    fn hashed(&self) -> String {
        hex(&sha256(self)[..8])
    }
}

impl Hashed for [i32] {
    fn hashed(&self) -> String {
        self.iter().flat_map(|number| number.to_ne_bytes()).collect::<Vec<u8>>().hashed()
    }
}

impl Hashed for [usize] {
    fn hashed(&self) -> String {
        self.iter().flat_map(|number| number.to_ne_bytes()).collect::<Vec<u8>>().hashed()
    }
}

/// A call of an entry with values of these kinds, and what is printed of it.
macro_rules! call {
    ($entry:path, $values:ident: $($kind:ident)*) => { call!(@ $entry, $values, ($($kind)*) () ()) };
    (@ $entry:path, $values:ident, (numbers $($left:ident)*) ($($given:tt)*) ($($lent:ident)*)) => {{
        let given = $values.numbers::<i32>();
        call!(@ $entry, $values, ($($left)*) ($($given)* &given,) ($($lent)*))
    }};
    (@ $entry:path, $values:ident, (text $($left:ident)*) ($($given:tt)*) ($($lent:ident)*)) => {{
        let given = $values.bytes();
        call!(@ $entry, $values, ($($left)*) ($($given)* &given,) ($($lent)*))
    }};
    (@ $entry:path, $values:ident, (number $($left:ident)*) ($($given:tt)*) ($($lent:ident)*)) => {{
        let given = $values.number();
        call!(@ $entry, $values, ($($left)*) ($($given)* given,) ($($lent)*))
    }};
    (@ $entry:path, $values:ident, (row $($left:ident)*) ($($given:tt)*) ($($lent:ident)*)) => {{
        let given = $values.array();
        call!(@ $entry, $values, ($($left)*) ($($given)* &given,) ($($lent)*))
    }};
    (@ $entry:path, $values:ident, (lent $($left:ident)*) ($($given:tt)*) ($($lent:ident)*)) => {{
        let mut given = $values.numbers::<i32>();
        call!(@ $entry, $values, ($($left)*) ($($given)* &mut given,) ($($lent)* given))
    }};
    (@ $entry:path, $values:ident, (out $($left:ident)*) ($($given:tt)*) ($($lent:ident)*)) => {{
        let mut given = $values.bytes();
        call!(@ $entry, $values, ($($left)*) ($($given)* &mut given,) ($($lent)* given))
    }};
    (@ $entry:path, $values:ident, (fixed $($left:ident)*) ($($given:tt)*) ($($lent:ident)*)) => {{
        let mut given = $values.array();
        call!(@ $entry, $values, ($($left)*) ($($given)* &mut given,) ($($lent)* given))
    }};
    (@ $entry:path, $values:ident, () ($($given:tt)*) ($($lent:ident)*)) => {{
        #[allow(unused_mut)]
        let mut printed = vec![$entry($($given)*).to_string()];
        $(printed.push($lent[..].hashed());)*
        printed.join(" ")
    }};
}

/// What is printed of one line.
fn answered(line: &str) -> String {
    let mut values = Values(line.split_ascii_whitespace());
    let v = &mut values;
    let name = v.word();
    let printed = match name {
        "check" => call!(entries::check, v: numbers number numbers number number number numbers number numbers number),
        "check_older" => {
            call!(entries::check_older, v: numbers number numbers number number number numbers number numbers number)
        }
        "check_model" => call!(entries::check_model, v: numbers number number number number numbers number),
        "read_schema" => call!(entries::read_schema, v: text lent fixed),
        "read_proof" => call!(entries::read_proof, v: text lent lent lent fixed),
        "read_model" => call!(entries::read_model, v: text lent fixed),
        "write_schema" => call!(entries::write_schema, v: numbers number number number out),
        "write_proof" => call!(entries::write_proof, v: numbers number numbers number numbers number out),
        "write_model" => call!(entries::write_model, v: number numbers number out),
        "line" => format!("0 {}", entries::line(&v.bytes(), v.number())[..].hashed()),
        "check_texts" => call!(entries::check_texts, v: text text),
        "check_older_texts" => call!(entries::check_older_texts, v: text text),
        "check_model_texts" => call!(entries::check_model_texts, v: text text),
        "find_model" => call!(entries::find_model, v: numbers number number number number lent fixed),
        "convert" => call!(entries::convert, v: numbers number number number lent fixed),
        "next_small" => call!(entries::next_small, v: numbers number lent),
        "tidy" => call!(entries::tidy, v: numbers number numbers number number number numbers number numbers number
            lent lent lent fixed),
        "join" => call!(entries::join, v: numbers number numbers number number number numbers number numbers number
            numbers number numbers number number number numbers number numbers number lent lent lent lent fixed),
        "begin" => {
            call!(entries::begin, v: numbers number numbers number number number lent lent fixed fixed fixed)
        }
        "add" => call!(entries::add, v: numbers number numbers number number number lent lent fixed fixed row numbers
            fixed),
        "take_back" => {
            call!(entries::take_back, v: numbers number numbers number number number lent lent fixed fixed fixed)
        }
        "enquire" => call!(entries::enquire, v: numbers number numbers number number number lent lent fixed fixed row
            numbers fixed),
        "commit" => call!(entries::commit, v: numbers number numbers number number number lent lent fixed fixed fixed),
        "told" => words(v),
        _ => panic!("there is no entry {name}"),
    };
    assert!(values.0.next().is_none(), "{name} is given too much");
    printed
}

/// A refusal's words: its number, its place or -1, the rule of its node or -1 where that is not known, and 1 if a tableau grows.
fn words(values: &mut Values) -> String {
    let refusal = Refusal::of_number(values.number()).expect("a refusal's number");
    let place = usize::try_from(values.number::<i64>()).ok();
    let line = match values.number::<i64>() {
        -1 => None,
        rule => Some(format!("0 {rule} -1 -1 -1 -1 0")),
    };
    let growing = values.number::<u8>() == 1;
    told(Refused { refusal, place }, &Known { line: line.as_deref().map(str::as_bytes), growing, ..Known::default() })
}

fn main() -> io::Result<()> {
    let mut calls = String::new();
    io::stdin().read_to_string(&mut calls)?;
    let mut out = BufWriter::new(io::stdout().lock());
    for line in calls.lines() {
        writeln!(out, "{}", answered(line))?;
    }
    out.flush()
}
