//! The record as the page's script reads it: one JSON object with all that is drawn and told, places included.

use crate::escape::string;
use crate::json::{list, numbers, object as json_object, or_null};
use crate::layout::Point;
use crate::picture::{Picture, Place, GLYPHS};
use crate::svg::{arc_path, edge, head_path};
use zorambi::words::RULES;
use zorambi::Verdict;
use zorambi_show::notation::all_rows;

/// The object. It has no `<`, so that it can stand in a script element.
pub fn object(picture: &Picture) -> String {
    let layout = &picture.layout;
    let schema = &picture.subject.record.schema;
    let members = [
        ("name", string(&picture.subject.name)),
        ("accepted", picture.subject.verdict.is_accepted().to_string()),
        ("answer", answer(picture.subject.verdict).to_string()),
        ("words", string(&picture.words)),
        ("why", string(picture.subject.explained.as_ref().map_or("", |explained| &explained.why))),
        ("mend", string(picture.subject.explained.as_ref().map_or("", |explained| &explained.mend))),
        ("line", or_null(picture.subject.explained.as_ref().and_then(|explained| explained.line.as_deref()))),
        ("refused", refused(picture.place())),
        ("notes", list(picture.subject.notes.iter().map(|note| string(note)))),
        ("root", schema.root.to_string()),
        ("least", schema.least.to_string()),
        ("schemaRows", schema.rows.len().to_string()),
        ("rules", list(RULES.iter().map(|rule| string(rule)))),
        ("glyphs", list(GLYPHS.iter().map(|glyph| string(glyph)))),
        ("width", layout.width.to_string()),
        ("height", layout.height.to_string()),
        ("box", format!("[{},{}]", layout.size.width, layout.size.height)),
        ("rows", rows(picture)),
        ("nodes", list((0..picture.nodes.len()).map(|node| node_object(picture, node)))),
        ("links", links(picture)),
        ("note", note(picture)),
    ];
    json_object(&members)
}

fn answer(verdict: Verdict) -> u8 {
    match verdict {
        Verdict::Accepted { .. } => 0,
        Verdict::Refused { refusal, .. } => refusal.number(),
    }
}

fn refused(place: Place) -> String {
    match place {
        Place::Node(node) => format!("{{\"node\":{node}}}"),
        Place::Row(row) => format!("{{\"row\":{row}}}"),
        Place::Elsewhere => "null".to_string(),
    }
}

/// Each row: its four numbers and its text.
fn rows(picture: &Picture) -> String {
    let rows = all_rows(&picture.subject.record);
    let row = |(row, text): (&[i32; 4], &String)| format!("{{\"row\":{},\"text\":{}}}", numbers(row), string(text));
    list(rows.iter().zip(&picture.rows).map(row))
}

fn node_object(picture: &Picture, number: usize) -> String {
    let node = &picture.nodes[number];
    let area = picture.layout.area(number);
    let [up, rule, on, with, other, to, by, ..] = node.row;
    let parent = picture.layout.parents[number].map_or("null".to_string(), |parent| parent.to_string());
    format!(
        "{{\"number\":{number},\"parent\":{parent},\"up\":{up},\"rule\":{rule},\"class\":{},\"on\":{on},\"with\":{with},\"other\":{other},\
         \"to\":{to},\"by\":{by},\"set\":{},\"bound\":{},\"title\":{},\"says\":{},\"detail\":{},\"x\":{},\"y\":{},\"edge\":{}}}",
        node.class(),
        numbers(&node.set),
        string(&node.bound),
        string(&picture.node_title(number)),
        string(&node.says),
        string(&node.detail),
        area.left,
        area.top,
        or_null(edge(&picture.layout, number).as_deref()),
    )
}

fn links(picture: &Picture) -> String {
    let drawn = picture.links.iter().zip(&picture.layout.arcs).zip(picture.link_labels());
    list(drawn.map(|((link, arc), label)| {
        let Point { x, y } = arc.label;
        format!(
            "{{\"from\":{},\"to\":{},\"by\":{},\"arc\":{},\"head\":{},\"label\":{},\"x\":{x},\"y\":{}}}",
            link.from,
            link.to,
            link.by,
            string(&arc_path(arc)),
            string(&head_path(arc)),
            string(&label),
            y + 4,
        )
    }))
}

fn note(picture: &Picture) -> String {
    let Some(note) = &picture.layout.note else { return "null".to_string() };
    let (area, [from, to]) = (note.area, note.leader);
    format!(
        "{{\"x\":{},\"y\":{},\"width\":{},\"height\":{},\"leader\":[{},{},{},{}],\"firsts\":{},\"lines\":{}}}",
        area.left,
        area.top,
        area.right - area.left,
        area.bottom - area.top,
        from.x,
        from.y,
        to.x,
        to.y,
        picture.note_firsts,
        list(picture.note.iter().map(|line| string(line))),
    )
}
