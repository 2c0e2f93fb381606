//! Rows of a CSV file, as RFC 4180 has them.

/// The fields with commas between, and CR LF at the end; a field that has a comma, a quote, CR or LF in it stands in quotes, its
/// quotes doubled.
pub fn row<Field: AsRef<str>>(fields: &[Field]) -> String {
    let fields: Vec<String> = fields.iter().map(|one| field(one.as_ref())).collect();
    fields.join(",") + "\r\n"
}

fn field(field: &str) -> String {
    if field.contains([',', '"', '\n', '\r']) {
        format!("\"{}\"", field.replace('"', "\"\""))
    } else {
        field.to_string()
    }
}

/// The fields of the first row of `text`, and what comes after it; `None` if that is no whole row.
pub fn first_row(text: &str) -> Option<(Vec<String>, &str)> {
    let (mut fields, mut rest) = (Vec::new(), text);
    loop {
        let field;
        (field, rest) = first_field(rest)?;
        fields.push(field);
        if let Some(next) = rest.strip_prefix(',') {
            rest = next;
        } else {
            return Some((fields, rest.strip_prefix("\r\n")?));
        }
    }
}

fn first_field(text: &str) -> Option<(String, &str)> {
    let Some(quoted) = text.strip_prefix('"') else {
        let end = text.find([',', '"', '\n', '\r'])?;
        return Some((text[..end].to_string(), &text[end..]));
    };
    let (mut field, mut rest) = (String::new(), quoted);
    loop {
        let (part, after) = rest.split_once('"')?;
        field += part;
        match after.strip_prefix('"') {
            Some(next) => (field.push('"'), rest = next).1,
            None => return Some((field, after)),
        }
    }
}

#[cfg(test)]
mod tests {
    use super::{first_row, row};

    #[test]
    fn plain_and_quoted() {
        assert_eq!(row(&["a", "", "b c"]), "a,,b c\r\n");
        assert_eq!(row(&[" a ", "b;c'", "-1"]), " a ,b;c',-1\r\n");
        assert_eq!(row(&["a,b", "say \"so\"", "\""]), "\"a,b\",\"say \"\"so\"\"\",\"\"\"\"\r\n");
        assert_eq!(row(&["one\ntwo", "\r", "\r\n"]), "\"one\ntwo\",\"\r\",\"\r\n\"\r\n");
    }

    #[test]
    fn read_back() {
        for fields in [&["a", "", "b c"][..], &[""], &["a,b", "say \"so\"", "\""], &["one\ntwo", "\r", "\r\n", "\"\""]]
        {
            let text = row(fields) + "next";
            let (read, rest) = first_row(&text).unwrap();
            assert_eq!(
                (&read[..], rest),
                (&fields.iter().map(|field| field.to_string()).collect::<Vec<_>>()[..], "next")
            );
        }
    }

    #[test]
    fn no_whole_row() {
        for text in ["", "a", "a,b", "a\n", "a\rb", "\"a", "\"a\"b\r\n", "a\"b\r\n", "\"a\"\"\r\n"] {
            assert_eq!(first_row(text), None, "{text:?}");
        }
    }
}
