//! Bytes of records, and names of files and folders, as they can be shown on one line: nothing in them reaches a
//! terminal, a table or a page as anything but plain text, and two that differ are shown differently.

use std::ffi::OsStr;
use std::os::unix::ffi::OsStrExt;

/// Printable ASCII as it is, but for a backslash, which stands twice; any other byte as `\xNN`.
///
/// ```
/// assert_eq!(zorambi::shown(b"a\\b\t\x1b[31m\xff\n"), r"a\\b\x09\x1b[31m\xff\x0a");
/// ```
pub fn shown(bytes: &[u8]) -> String {
    let mut text = String::with_capacity(bytes.len());
    for &byte in bytes {
        match byte {
            b'\\' => text.push_str(r"\\"),
            b' '..=b'~' => text.push(char::from(byte)),
            _ => text.push_str(&format!("\\x{byte:02x}")),
        }
    }
    text
}

/// A name of a file or a folder, or a word of a command.
///
/// ```
/// assert_eq!(zorambi::shown_name("bad\nname"), r"bad\x0aname");
/// ```
pub fn shown_name(name: impl AsRef<OsStr>) -> String {
    shown(name.as_ref().as_bytes())
}

/// A JSON string (RFC 8259) of this text.
///
/// ```
/// assert_eq!(zorambi::json_string("a \"b\"\\\n"), r#""a \"b\"\\\u000a""#);
/// ```
pub fn json_string(text: &str) -> String {
    let mut string = String::from("\"");
    for c in text.chars() {
        match c {
            '"' | '\\' => string.extend(['\\', c]),
            c if c.is_control() => string += &format!("\\u{:04x}", u32::from(c)),
            c => string.push(c),
        }
    }
    string + "\""
}

#[cfg(test)]
mod tests {
    use super::shown;

    #[test]
    fn every_byte_by_itself() {
        for byte in 0..=255 {
            let expected = match byte {
                92 => r"\\".to_string(),
                32..=126 => (byte as char).to_string(),
                _ => format!("\\x{byte:02x}"),
            };
            assert_eq!(shown(&[byte]), expected);
        }
        assert_eq!(shown(&[31, 32, 126, 127, 128]), r"\x1f ~\x7f\x80");
    }
}
