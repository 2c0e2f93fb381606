//! The page of a record: one file with its style, its script and its data, and nothing from elsewhere.

use crate::beside::Kind;
use crate::data;
use crate::escape::text;
use crate::picture::{Picture, GLYPHS};
use crate::svg;
use zorambi::sha256;
use zorambi::words::{counted, RULES};

const START: &str = "<!DOCTYPE html>\n<!-- a record, drawn by zorambi -->\n";
/// A page of a record, known again by its start.
pub const KIND: Kind = Kind { start: START, what: "page of a record" };

const STYLE: &str = include_str!("page.css");
const SCRIPT: &str = include_str!("page.js");
const EDITOR_STYLE: &str = include_str!("editor.css");
const EDITOR_SCRIPT: &str = include_str!("editor.js");
/// What the editor's page has besides its drawing: it is filled by its script.
const EDITOR_HEADER: &str = include_str!("editor-header.html");
const EDITOR_PANEL: &str = include_str!("editor-panel.html");

/// The page. `up` is where the page of its catalogue is, if it has one.
pub fn page(picture: &Picture, up: Option<&str>) -> String {
    format!(
        "{START}<html lang=\"en\">\n<head>\n{head}<title>{title}</title>\n<style>\n{STYLE}{drawing}</style>\n</head>\n<body>\n\
         {header}<main>\n<section class=\"left\" aria-label=\"the tableau\">\n{tools}<div id=\"drawing\">\n{svg}</div>\n</section>\n{panel}</main>\n\
         <script type=\"application/json\" id=\"record\">\n{data}\n</script>\n<script>{SCRIPT}</script>\n</body>\n</html>\n",
        head = head(SCRIPT, ""),
        title = text(&picture.title()),
        drawing = svg::STYLE,
        header = header(picture, up),
        svg = if picture.nodes.is_empty() { EMPTY.to_string() } else { svg::inline(picture) },
        tools = TOOLS,
        panel = panel(picture),
        data = data::object(picture),
    )
}

/// The page of the editor. It has nothing of a record in it: its script asks the server that it comes from, and no other.
pub fn editor() -> String {
    let script = format!("{SCRIPT}{EDITOR_SCRIPT}");
    format!(
        "<!DOCTYPE html>\n<html lang=\"en\">\n<head>\n{head}<title>zorambi edit</title>\n<style>\n{STYLE}{drawing}{EDITOR_STYLE}</style>\n</head>\n\
         <body class=\"editor\">\n{EDITOR_HEADER}<main>\n<section class=\"left\" aria-label=\"the tableau\">\n{TOOLS}<div id=\"drawing\">\n{EMPTY}</div>\n\
         </section>\n{EDITOR_PANEL}</main>\n<script>{script}</script>\n</body>\n</html>\n",
        head = head(&script, "; connect-src 'self'"),
        drawing = svg::STYLE,
    )
}

const EMPTY: &str = "<p class=\"empty\">There is no node to draw.</p>\n";

/// What every page says of itself. Its own script alone may run in it, and nothing may be loaded, but what is added here.
pub fn head(script: &str, more: &str) -> String {
    format!(
        "<meta charset=\"utf-8\">\n<meta name=\"viewport\" content=\"width=device-width, initial-scale=1\">\n\
         <meta name=\"color-scheme\" content=\"light dark\">\n\
         <meta http-equiv=\"Content-Security-Policy\" content=\"default-src 'none'; style-src 'unsafe-inline'; img-src data:; \
         script-src 'sha256-{}'{more}\">\n<link rel=\"icon\" href=\"data:,\">\n",
        base64(&sha256(script.as_bytes()))
    )
}

/// Bytes in base 64 (RFC 4648).
fn base64(bytes: &[u8]) -> String {
    const DIGITS: &[u8; 64] = b"ABCDEFGHIJKLMNOPQRSTUVWXYZabcdefghijklmnopqrstuvwxyz0123456789+/";
    let mut digits = String::new();
    for group in bytes.chunks(3) {
        let byte = |at: usize| u32::from(group.get(at).copied().unwrap_or(0));
        let number = byte(0) << 16 | byte(1) << 8 | byte(2);
        for at in 0..4 {
            let digit = DIGITS[(number >> (18 - 6 * at) & 63) as usize];
            digits.push(if at <= group.len() { char::from(digit) } else { '=' });
        }
    }
    digits
}

fn header(picture: &Picture, up: Option<&str>) -> String {
    let sort = if picture.subject.verdict.is_accepted() { "accepted" } else { "refused" };
    let up = up.map_or(String::new(), |up| format!("<a class=\"up\" href=\"{}\">catalogue</a> ", text(up)));
    let schema = picture.schema().map_or(String::new(), |[range, formula]| {
        format!(
            "<p class=\"schema\"><span class=\"least\">{}</span> <span class=\"formula\" id=\"schema\">{}</span></p>\n",
            text(&range),
            text(&formula)
        )
    });
    let mut said = String::new();
    if let Some(explained) = &picture.subject.explained {
        for words in [&explained.why, &explained.mend].into_iter().filter(|words| !words.is_empty()) {
            said += &format!("<p>{}</p>\n", text(words));
        }
        if let Some(line) = &explained.line {
            said += &format!("<p class=\"line\">{}</p>\n", text(line));
        }
    }
    said +=
        &picture.subject.notes.iter().map(|note| format!("<p class=\"line\">{}</p>\n", text(note))).collect::<String>();
    format!(
        "<header>\n{up}<h1>{}</h1>\n<p class=\"verdict {sort}\" id=\"verdict\">{}</p>\n{schema}<div id=\"said\">\n{said}</div>\n</header>\n",
        text(&picture.subject.name),
        text(&picture.words),
    )
}

/// Buttons and the search, which the script brings to life.
const TOOLS: &str = "<div id=\"tools\" hidden>\
<div id=\"search\" role=\"search\"><input id=\"query\" type=\"search\" placeholder=\"Node, row or formula\" \
aria-label=\"search for a node, a row or a formula\" aria-controls=\"found\" autocomplete=\"off\" spellcheck=\"false\"><kbd>/</kbd>\
<ul id=\"found\" hidden></ul></div>\
<div id=\"zoom\" role=\"group\" aria-label=\"zoom\">\
<button type=\"button\" id=\"in\" title=\"larger (+)\" aria-label=\"larger\">+</button>\
<button type=\"button\" id=\"out\" title=\"smaller (-)\" aria-label=\"smaller\">\u{2212}</button>\
<button type=\"button\" id=\"fit\" title=\"the whole (0)\" aria-label=\"the whole\">Fit</button></div></div>\n";

fn panel(picture: &Picture) -> String {
    let mut legend = String::new();
    for (class, glyph) in GLYPHS.iter().enumerate() {
        let count = picture.nodes.iter().filter(|node| node.class() == class).count();
        if count > 0 {
            let rule = RULES.get(class).unwrap_or(&"no such rule");
            legend += &format!(
                "<li><button type=\"button\" class=\"rule tableau\" data-rule=\"{class}\" aria-pressed=\"false\" \
                 aria-label=\"{rule}, {nodes}\"><svg class=\"r{class}\" viewBox=\"0 0 26 26\" aria-hidden=\"true\">\
                 <rect class=\"sign\" width=\"26\" height=\"26\" rx=\"5\"/><text class=\"glyph\" x=\"13\" y=\"18\">{glyph}</text></svg>\
                 {rule} <span class=\"count\">{count}</span></button></li>\n",
                nodes = counted(count, "node"),
            );
        }
    }
    format!(
        "<aside id=\"panel\" aria-label=\"what is selected\">\n<div id=\"selected\" aria-live=\"polite\"></div>\n\
         <section class=\"legend\" aria-label=\"rules\">\n<h2>Rules</h2>\n<ul>\n{legend}</ul>\n</section>\n</aside>\n"
    )
}

#[cfg(test)]
mod tests {
    use super::base64;

    #[test]
    fn base_64_of_the_rfc() {
        for (bytes, digits) in [("", ""), ("f", "Zg=="), ("fo", "Zm8="), ("foo", "Zm9v"), ("foobar", "Zm9vYmFy")] {
            assert_eq!(base64(bytes.as_bytes()), digits);
        }
        assert_eq!(base64(&[0xfb, 0xff]), "+/8=");
    }
}
