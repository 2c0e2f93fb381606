//! A picture of a tableau as SVG.

use crate::beside::Kind;
use crate::escape::text;
use crate::layout::{Arc, Layout, Note, Point};
use crate::picture::{Picture, GLYPHS};
use std::fmt::Write;

/// What the drawing looks like.
pub const STYLE: &str = include_str!("drawing.css");

/// The drawing as a file of its own.
pub fn file(picture: &Picture) -> String {
    let Layout { width, height, .. } = picture.layout;
    format!(
        "{START}viewBox=\"0 0 {width} {height}\" width=\"{width}\" \
         height=\"{height}\" role=\"img\">\n<!-- drawn by zorambi show -->\n<title>{title}</title>\n<desc>{about}</desc>\n\
         <style>\n{STYLE}</style>\n<rect width=\"100%\" height=\"100%\" fill=\"var(--paper)\"/>\n{inner}</svg>\n",
        title = text(&picture.title()),
        about = text(&picture.words),
        inner = inner(picture),
    )
}

const START: &str = "<svg xmlns=\"http://www.w3.org/2000/svg\" class=\"tableau\" ";
/// A drawing, known again by its start.
pub const KIND: Kind = Kind { start: START, what: "drawing of a record" };

/// The drawing within a page.
pub fn inline(picture: &Picture) -> String {
    let Layout { width, height, .. } = picture.layout;
    format!(
        "<svg class=\"tableau\" id=\"tableau\" viewBox=\"0 0 {width} {height}\" role=\"img\" aria-label=\"{label}\">\
         <g id=\"view\">\n{inner}</g></svg>\n",
        label = text(&picture.title()),
        inner = inner(picture),
    )
}

/// Edges and links below, nodes and the note above them.
fn inner(picture: &Picture) -> String {
    let mut svg = String::new();
    let layout = &picture.layout;
    for node in 0..layout.nodes.len() {
        if let Some(path) = edge(layout, node) {
            let _ = writeln!(svg, "<path class=\"edge\" d=\"{path}\"/>");
        }
    }
    for (arc, label) in layout.arcs.iter().zip(picture.link_labels()) {
        svg += &link(arc, &label);
    }
    for node in 0..layout.nodes.len() {
        svg += &drawn_node(picture, node);
    }
    if let Some(note) = &layout.note {
        svg += &drawn_note(note, &picture.note, picture.note_firsts);
    }
    svg
}

/// From a node's parent down to it.
pub fn edge(layout: &Layout, node: usize) -> Option<String> {
    let parent = layout.parents[node]?;
    if layout.stacked[parent] {
        return Some(stacked_edge(layout, parent, node));
    }
    let (start, end) = (layout.foot(parent), layout.nodes[node]);
    let middle = (start.y + end.y) / 2;
    Some(if start.x == end.x {
        format!("M{} {}V{}", start.x, start.y, end.y)
    } else {
        format!("M{} {}C{} {middle} {} {middle} {} {}", start.x, start.y, start.x, end.x, end.x, end.y)
    })
}

/// Down along the left side, then to the right.
fn stacked_edge(layout: &Layout, parent: usize, node: usize) -> String {
    const ROUND: i32 = 8;
    let (from, to) = (layout.area(parent), layout.area(node));
    let (x, y) = (from.left + 14, (to.top + to.bottom) / 2);
    format!("M{x} {}V{}q0 {ROUND} {ROUND} {ROUND}H{}", from.bottom, y - ROUND, to.left)
}

pub fn arc_path(arc: &Arc) -> String {
    let [one, other] = arc.bends;
    let Arc { start, end, .. } = arc;
    format!("M{} {}C{} {} {} {} {} {}", start.x, start.y, one.x, one.y, other.x, other.y, end.x, end.y)
}

/// The arrow's head at a link's target.
pub fn head_path(arc: &Arc) -> String {
    let Point { x, y } = arc.end;
    let back = if arc.from_right() { 9 } else { -9 };
    format!("M{x} {y}l{back} -4v8z")
}

fn link(arc: &Arc, label: &str) -> String {
    let Point { x, y } = arc.label;
    format!(
        "<g class=\"link\" data-from=\"{}\" data-to=\"{}\"><path class=\"arc\" d=\"{}\"/><path class=\"head\" d=\"{}\"/>\
         <text x=\"{x}\" y=\"{}\">{}</text></g>\n",
        arc.from,
        arc.to,
        arc_path(arc),
        head_path(arc),
        y + 4,
        text(label),
    )
}

fn drawn_node(picture: &Picture, number: usize) -> String {
    let node = &picture.nodes[number];
    let area = picture.layout.area(number);
    let (width, height) = (picture.layout.size.width, picture.layout.size.height);
    let refused = if picture.refused_node() == Some(number) { " refused" } else { "" };
    let mut lines = String::new();
    if !node.detail.is_empty() {
        let _ = write!(lines, "<text class=\"formula\" x=\"38\" y=\"46\">{}</text>", text(&node.detail));
    }
    format!(
        "<g class=\"node r{class}{refused}\" id=\"n{number}\" transform=\"translate({x} {y})\"><title>{title}</title>\
         <rect class=\"box\" width=\"{width}\" height=\"{height}\" rx=\"7\"/>\
         <rect class=\"sign\" x=\"5\" y=\"5\" width=\"26\" height=\"26\" rx=\"5\"/><text class=\"glyph\" x=\"18\" y=\"23\">{glyph}</text>\
         <text class=\"name\" x=\"38\" y=\"16\"><tspan class=\"number\">{number}</tspan><tspan class=\"rule\"> {rule}</tspan></text>\
         <text class=\"bound\" x=\"38\" y=\"30\">{bound}</text>{lines}</g>\n",
        class = node.class(),
        x = area.left,
        y = area.top,
        title = text(&picture.node_title(number)),
        glyph = GLYPHS[node.class()],
        rule = text(&node.rule_words()),
        bound = text(&node.bound),
    )
}

fn drawn_note(note: &Note, lines: &[String], firsts: usize) -> String {
    let [from, to] = note.leader;
    let (x, y) = (note.area.left, note.area.top);
    let (width, height) = (note.area.right - x, note.area.bottom - y);
    let mut svg = format!(
        "<g class=\"note\"><line x1=\"{}\" y1=\"{}\" x2=\"{}\" y2=\"{}\"/>\
         <rect x=\"{x}\" y=\"{y}\" width=\"{width}\" height=\"{height}\" rx=\"7\"/>",
        from.x, from.y, to.x, to.y
    );
    for (at, line) in lines.iter().enumerate() {
        let class = if at < firsts { " class=\"first\"" } else { "" };
        let _ = write!(svg, "<text{class} x=\"{}\" y=\"{}\">{}</text>", x + 12, y + 20 + 16 * at as i32, text(line));
    }
    svg + "</g>\n"
}
