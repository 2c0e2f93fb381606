//! The texts of a folder, and the words of a command that are numbers.

use crate::end::{line_shown, Stop};
use std::ffi::OsStr;
use std::path::Path;
use zorambi::files::{enter, load, Loaded, Unread};
use zorambi::words::Known;
use zorambi::{read_proof, read_schema, shown_name, Proof, Record, Refused, Schema};
use zorambi_explain::{Sort, Voice, Why};

/// The text and the line that a refusal points to.
type Fault = Option<(zorambi::Text, usize)>;

/// A text, and its name as it is told; where there are several folders the name of its own is told too.
pub struct Text {
    folder: String,
    sort: Sort,
    text: Loaded,
}

impl Text {
    /// The text of that sort in a folder; one that cannot be read counts as empty.
    pub fn load(folder: &OsStr, sort: Sort, follow: bool) -> Result<Text, Stop> {
        let folder = Path::new(folder);
        enter(folder).map_err(|why| Stop::Wrong(why.to_string()))?;
        Ok(Text { folder: String::new(), sort, text: load(folder, sort.file(), follow) })
    }

    /// The same, and another one if there is no such file.
    pub fn load_or(other: &[u8], folder: &OsStr, sort: Sort, follow: bool) -> Result<Text, Stop> {
        let mut text = Text::load(folder, sort, follow)?;
        if matches!(text.text.unread, Some(Unread::Missing)) {
            text.text = Loaded { bytes: other.to_vec(), unread: None };
        }
        Ok(text)
    }

    /// This text, whatever a folder holds.
    pub fn given(bytes: &[u8], sort: Sort) -> Text {
        Text { folder: String::new(), sort, text: Loaded { bytes: bytes.to_vec(), unread: None } }
    }

    /// The same in one of several folders.
    pub fn of(folder: &OsStr, sort: Sort, follow: bool) -> Result<Text, Stop> {
        let told = shown_name(Path::new(folder).join(""));
        Ok(Text { folder: told, ..Text::load(folder, sort, follow)? })
    }

    pub fn bytes(&self) -> &[u8] {
        &self.text.bytes
    }

    /// Reads it as a schema.
    pub fn schema(&self) -> Result<Schema, Stop> {
        read_schema(&self.text.bytes).map_err(|refused| self.unread(refused))
    }

    /// Reads it as a proof.
    pub fn proof(&self) -> Result<Proof, Stop> {
        read_proof(&self.text.bytes).map_err(|refused| self.unread(refused))
    }

    /// Reads a schema and a proof.
    pub fn record([schema, proof]: &[Text; 2]) -> Result<Record, Stop> {
        Ok(Record { schema: schema.schema()?, proof: proof.proof()? })
    }

    /// A refusal of a record, at the line of its schema or its proof that the library points to.
    pub fn refused_at_fault(fault: Fault, [schema, proof]: &[Text; 2], refused: Refused, why: Option<Why>) -> Stop {
        match fault {
            None => schema.refused(refused, 0, why),
            Some((zorambi::Text::Schema, line)) => schema.refused(refused, line, why),
            Some((_, line)) => proof.refused(refused, line, why),
        }
    }

    /// A refusal in reading, whose place is a line from 1 on, or 0.
    fn unread(&self, refused: Refused) -> Stop {
        let why = zorambi_explain::text(&zorambi_explain::Text::new(self.sort, &self.text), refused);
        self.refused(refused, refused.place.unwrap_or(0), Some(why))
    }

    /// A refusal of a schema's rows: row r is line 4 + r.
    pub fn refused_row(&self, refused: Refused, why: Option<Why>) -> Stop {
        let at_row = refused.refusal.place_counts() == Some("row");
        self.refused(refused, refused.place.filter(|_| at_row).map_or(0, |row| 4 + row), why)
    }

    /// A refusal of the schema that it is read as, or of this n.
    pub fn refused_at(&self, schema: &Schema, n: i32, refused: Refused) -> Stop {
        self.refused_row(refused, Some(zorambi_explain::find(&schema.into(), n, refused, &Voice::default())))
    }

    /// A refusal of a node row that a proof with this many formula rows has, while a tableau grows: node j is line 3 + rows + j.
    pub fn refused_node(&self, refused: Refused, rows: usize, node: usize, why: Why) -> Stop {
        self.refused_as(refused, 3 + rows + node, Some(why), true)
    }

    /// A refusal at this line, which is none if it is 0.
    fn refused(&self, refused: Refused, line: usize, why: Option<Why>) -> Stop {
        self.refused_as(refused, line, why, false)
    }

    fn refused_as(&self, refused: Refused, line: usize, why: Option<Why>, growing: bool) -> Stop {
        let bytes = zorambi::line(&self.text.bytes, line);
        let known = Known {
            file: Some(self.sort.file()),
            unread: self.text.unread.as_ref(),
            line: (line > 0).then_some(bytes),
            growing,
        };
        let below = match line {
            0 => Some(self.folder.clone()),
            _ if known.unread.is_some() => Some(self.folder.clone()),
            line => Some(line_shown(&format!("{}{}", self.folder, self.sort.file()), line, bytes)),
        };
        Stop::refused(refused, &known, why, below.filter(|below| !below.is_empty()))
    }
}

/// A number as the texts have it: 0, or an optional minus and 1 to 5 digits, the first not 0.
pub fn number(word: &OsStr) -> Result<i32, Stop> {
    let number = word.to_str().and_then(|word| word.parse::<i32>().ok().filter(|number| number.to_string() == word));
    number
        .filter(|number| (-99_999..=99_999).contains(number))
        .ok_or_else(|| Stop::Wrong(format!("no number of up to 5 digits: {}", shown_name(word))))
}

#[cfg(test)]
mod tests {
    use super::number;
    use crate::end::Stop;
    use std::ffi::OsStr;

    #[test]
    fn numbers_as_the_texts_have_them() {
        for (word, value) in [("0", 0), ("7", 7), ("-1", -1), ("10000", 10_000), ("99999", 99_999), ("-99999", -99_999)]
        {
            assert!(matches!(number(OsStr::new(word)), Ok(found) if found == value), "{word}");
        }
        for word in
            ["", "-", "-0", "+1", "01", "007", "-01", "100000", "-100000", "1 ", " 1", "1.0", "x", "١", "4294967299"]
        {
            assert!(matches!(number(OsStr::new(word)), Err(Stop::Wrong(_))), "{word}");
        }
    }
}
