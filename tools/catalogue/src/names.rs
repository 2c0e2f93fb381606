//! Names of folders and lines of texts as a table writes them.

use std::ffi::OsStr;
use zorambi::shown_name;

/// The shown path of what has this name in the folder with the shown path `parent`, which is empty at the top.
pub fn below(parent: &str, name: &OsStr) -> String {
    let name = shown_name(name);
    if parent.is_empty() {
        name
    } else {
        format!("{parent}/{name}")
    }
}

/// What is shown, as a cell of a table. Spreadsheets take what starts with =, + or @, or with - before anything but numbers, for a
/// formula: that byte is then written as `\xNN`.
pub fn cell(shown: &str) -> String {
    let formula = match shown.as_bytes() {
        [b'=' | b'+' | b'@', ..] => true,
        [b'-', rest @ ..] => !rest.iter().all(|byte| matches!(byte, b'0'..=b'9' | b' ' | b'-')),
        _ => false,
    };
    if formula {
        format!("\\x{:02x}{}", shown.as_bytes()[0], &shown[1..])
    } else {
        shown.to_string()
    }
}

#[cfg(test)]
mod tests {
    use super::cell;

    #[test]
    fn no_cell_is_a_formula() {
        for plain in ["", "a", "a=b", "-1 0 4 -1 -1 -1 0 4", "-", "4 8", "\\x0a", "'=1"] {
            assert_eq!(cell(plain), plain);
        }
        assert_eq!(cell("=1+1"), "\\x3d1+1");
        assert_eq!(cell("+1"), "\\x2b1");
        assert_eq!(cell("@a"), "\\x40a");
        assert_eq!(cell("-1+cmd"), "\\x2d1+cmd");
    }
}
