//! Names of the files that pages of records have, and how pages lead to each other.

use std::fmt::Write;
use std::os::unix::ffi::OsStrExt;
use std::path::{Component, Path};
use zorambi::{hex, sha256};

/// A file's name has at most this many bytes, with room for what is put around it.
const LONGEST: usize = 200;

/// The name of the file for the page of a record with this name: letters, digits, `-`, `_` and `.` as they are, `~` for `/`, any other
/// byte as `=` and two digits. Names that differ have pages that differ; that of a long one ends with its hash.
///
/// ```
/// use zorambi_pages::links::page_name;
///
/// assert_eq!(page_name("accepted/rca_zero"), "accepted~rca_zero.html");
/// assert_eq!(page_name("../<b>"), "=2e.~=3cb=3e.html");
/// ```
pub fn page_name(record: &str) -> String {
    let mut name = String::new();
    for (at, byte) in record.bytes().enumerate() {
        match byte {
            b'.' if at == 0 => name.push_str("=2e"),
            b'/' => name.push('~'),
            b'-' | b'_' | b'.' | b'0'..=b'9' | b'A'..=b'Z' | b'a'..=b'z' => name.push(char::from(byte)),
            _ => drop(write!(name, "={byte:02x}")),
        }
    }
    if name.len() > LONGEST {
        // No other name has this: `=` is followed by two digits in all of them.
        name = format!("{}==={}", &name[..LONGEST / 2], hex(&sha256(record.as_bytes())));
    }
    name + ".html"
}

/// How a page in one folder leads to a file in another, both as the system names them in full.
///
/// ```
/// use std::path::Path;
/// use zorambi_pages::links::relative;
///
/// assert_eq!(relative(Path::new("/a/b"), Path::new("/a/c d/e.html")), "../c%20d/e.html");
/// assert_eq!(relative(Path::new("/a/b"), Path::new("/a/b/x:y")), "./x%3Ay");
/// ```
pub fn relative(from: &Path, to: &Path) -> String {
    let (from, to): (Vec<Component>, Vec<Component>) = (from.components().collect(), to.components().collect());
    let common = from.iter().zip(&to).take_while(|(one, other)| one == other).count();
    let up = "../".repeat(from.len() - common);
    let start = if up.is_empty() { "./" } else { &up };
    let down: Vec<String> = to[common..].iter().map(|part| encoded(part.as_os_str().as_bytes())).collect();
    format!("{start}{}", down.join("/"))
}

/// A part of a path in a URL (RFC 3986).
pub fn encoded(part: &[u8]) -> String {
    let mut text = String::new();
    for byte in part {
        match byte {
            b'-' | b'_' | b'.' | b'~' | b'0'..=b'9' | b'A'..=b'Z' | b'a'..=b'z' => text.push(char::from(*byte)),
            _ => drop(write!(text, "%{byte:02X}")),
        }
    }
    text
}

#[cfg(test)]
mod tests {
    use super::*;
    use std::collections::HashSet;

    #[test]
    fn names_are_safe_and_differ() {
        let long = "a/".repeat(300);
        let longer = format!("{long}b");
        let names = [
            ".",
            "..",
            "a",
            "a/b",
            "a~b",
            "a=2fb",
            "a=7eb",
            "-x",
            "=2e",
            "x.html",
            "a b",
            "a\\x0ab",
            "<script>",
            "é",
            &long,
            &longer,
            "../../etc/passwd",
            "A",
        ];
        let pages: HashSet<String> = names.iter().map(|name| page_name(name)).collect();
        assert_eq!(pages.len(), names.len());
        for page in pages {
            assert!(page.len() < 240 && !page.starts_with('.') && page.ends_with(".html"), "{page}");
            assert!(page.bytes().all(|byte| byte.is_ascii_alphanumeric() || b"-_.~=".contains(&byte)), "{page}");
        }
    }

    #[test]
    fn ways_between_folders() {
        let way = |from: &str, to: &str| relative(Path::new(from), Path::new(to));
        assert_eq!(way("/a", "/a/b.html"), "./b.html");
        assert_eq!(way("/a/b/c", "/x.html"), "../../../x.html");
        assert_eq!(way("/", "/a\"b/é"), "./a%22b/%C3%A9");
    }
}
