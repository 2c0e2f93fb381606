//! Text that stays text: whatever bytes a record, a names file or a folder's name has, in a page they are words and never markup.

use zorambi::json_string;

/// Text as it stands in HTML or SVG, between tags or within a quoted value. A control character, which XML cannot have at all, becomes
/// the replacement character.
pub fn text(text: &str) -> String {
    let mut escaped = String::with_capacity(text.len());
    for c in text.chars() {
        match c {
            '&' => escaped.push_str("&amp;"),
            '<' => escaped.push_str("&lt;"),
            '>' => escaped.push_str("&gt;"),
            '"' => escaped.push_str("&quot;"),
            '\'' => escaped.push_str("&#39;"),
            '\n' => escaped.push('\n'),
            c if c.is_control() => escaped.push('\u{fffd}'),
            c => escaped.push(c),
        }
    }
    escaped
}

/// A JSON string that may stand in a script element: nothing in it can end the element, since it has no `<`.
pub fn string(text: &str) -> String {
    json_string(text).replace('<', "\\u003c")
}

#[cfg(test)]
mod tests {
    use super::*;

    #[test]
    fn no_markup_is_left() {
        assert_eq!(text("<b a='1' c=\"2\">&amp;"), "&lt;b a=&#39;1&#39; c=&quot;2&quot;&gt;&amp;amp;");
        assert_eq!(text("p \u{2265} 1\n\u{1}\u{1b}[31m\u{9f}"), "p \u{2265} 1\n\u{fffd}\u{fffd}[31m\u{fffd}");
    }

    #[test]
    fn no_script_ends_early() {
        let escaped = string("</script><!-- \"quoted\" \\ \n");
        assert_eq!(escaped, "\"\\u003c/script>\\u003c!-- \\\"quoted\\\" \\\\ \\u000a\"");
        for c in (0..0x3000).filter_map(char::from_u32) {
            assert!(!text(&c.to_string()).contains(['<', '>', '"', '\'']));
            assert!(!string(&c.to_string()).contains(['<', '\n', '\r']));
        }
    }
}
