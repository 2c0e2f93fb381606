//! Where the nodes of a tableau stand in a drawing, and how its links run. All numbers are whole: the same record is drawn the same
//! way on every machine.
//!
//! The tree is tidy: children stand below their parent, in their order, the parent over their middle, and subtrees are moved together
//! as far as their outlines allow. Where that would be far too wide for a screen, the children of some nodes are stacked: each with its
//! subtree below the one before, as in an outline.

/// Between two nodes side by side.
const BESIDE: i32 = 16;
/// Between a node and its children.
const BELOW: i32 = 20;
/// Stacked children stand so far to the right of their parent's left side.
const INDENT: i32 = 28;
/// Around the whole.
const MARGIN: i32 = 24;
/// Width to height of the screen or the page that a drawing is for.
const SCREEN: [i64; 2] = [3, 2];
/// What is no wider than this, or as high as such a screen, can be read on one as it is.
const LEGIBLE: i64 = 2400;

/// Width and height of every node's box. Both are even, so that their halves are whole.
#[derive(Clone, Copy, Debug, PartialEq, Eq)]
pub struct Size {
    pub width: i32,
    pub height: i32,
}

/// A place in the drawing, from its top left corner.
#[derive(Clone, Copy, Debug, Default, PartialEq, Eq)]
pub struct Point {
    pub x: i32,
    pub y: i32,
}

/// A rectangle that things take up.
#[derive(Clone, Copy, Debug, PartialEq, Eq)]
pub struct Area {
    pub left: i32,
    pub top: i32,
    pub right: i32,
    pub bottom: i32,
}

impl Area {
    pub fn overlaps(&self, other: &Area) -> bool {
        self.left < other.right && other.left < self.right && self.top < other.bottom && other.top < self.bottom
    }

    fn joined(self, other: Area) -> Area {
        Area {
            left: self.left.min(other.left),
            top: self.top.min(other.top),
            right: self.right.max(other.right),
            bottom: self.bottom.max(other.bottom),
        }
    }

    fn of_points(points: &[Point]) -> Option<Area> {
        points.iter().map(|&Point { x, y }| Area { left: x, top: y, right: x, bottom: y }).reduce(Area::joined)
    }
}

/// A link from a node to its target: a cubic curve from the side of one box to the side of the other.
#[derive(Clone, Debug, PartialEq, Eq)]
pub struct Arc {
    pub from: usize,
    pub to: usize,
    pub start: Point,
    pub bends: [Point; 2],
    pub end: Point,
    /// The middle of its label.
    pub label: Point,
}

impl Arc {
    /// A point of the curve, `at` of `of` parts of the way from its start.
    fn point(&self, at: i64, of: i64) -> Point {
        let [one, other] = self.bends;
        let (left, whole) = (of - at, of * of * of);
        let shares = [left * left * left, 3 * left * left * at, 3 * left * at * at, at * at * at];
        let mean = |ends: [i32; 4]| {
            (ends.iter().zip(shares).map(|(end, share)| i64::from(*end) * share).sum::<i64>() / whole) as i32
        };
        Point {
            x: mean([self.start.x, one.x, other.x, self.end.x]),
            y: mean([self.start.y, one.y, other.y, self.end.y]),
        }
    }

    /// It comes from the right to its target.
    pub fn from_right(&self) -> bool {
        self.bends[1].x > self.end.x
    }
}

/// A note beside a node, which covers no node.
#[derive(Clone, Copy, Debug, PartialEq, Eq)]
pub struct Note {
    pub area: Area,
    /// The line from the node to the note.
    pub leader: [Point; 2],
}

/// A tree with its places.
#[derive(Clone, Debug)]
pub struct Layout {
    pub size: Size,
    /// The middle of each box's upper side.
    pub nodes: Vec<Point>,
    /// A node's parent, if it has one before it.
    pub parents: Vec<Option<usize>>,
    /// The node's children are stacked.
    pub stacked: Vec<bool>,
    pub arcs: Vec<Arc>,
    pub note: Option<Note>,
    pub width: i32,
    pub height: i32,
}

impl Layout {
    /// The places of nodes with these parents and links (from, to). What names no node before the node itself, as a refused record
    /// may have it, is left out: such a node stands at the top. A note of that size stands beside the node that it is for.
    pub fn new(parents: &[Option<usize>], links: &[(usize, usize)], size: Size, note: Option<(usize, Size)>) -> Layout {
        let parents: Vec<Option<usize>> =
            parents.iter().enumerate().map(|(node, parent)| parent.filter(|parent| *parent < node)).collect();
        let Places { nodes, stacked } = best_places(&parents, size);
        let mut layout = Layout { size, nodes, parents, stacked, arcs: Vec::new(), note: None, width: 0, height: 0 };
        let count = layout.nodes.len();
        let drawn = links.iter().filter(|(from, to)| *from < count && *to < count);
        let levels = Levels::of(&layout);
        layout.arcs = drawn.map(|&(from, to)| layout.arc(from, to, &levels)).collect();
        layout.note = note.filter(|(node, _)| *node < count).map(|(node, size)| layout.note_beside(node, size));
        layout.moved_into_its_frame()
    }

    /// The box of a node.
    pub fn area(&self, node: usize) -> Area {
        let Point { x, y } = self.nodes[node];
        let half = self.size.width / 2;
        Area { left: x - half, top: y, right: x + half, bottom: y + self.size.height }
    }

    /// The middle of the lower side of a node's box.
    pub fn foot(&self, node: usize) -> Point {
        let Point { x, y } = self.nodes[node];
        Point { x, y: y + self.size.height }
    }

    /// A link leaves its node by a side or by its foot, and meets its target on the same side. Of a few such curves, on either side and
    /// more or less bent, it is the one that runs behind the fewest nodes, and of these the shortest.
    fn arc(&self, from: usize, to: usize, levels: &Levels) -> Arc {
        const BENT: [i32; 6] = [2, 3, 5, 8, 12, 18];
        let (start, end) = (self.area(from), self.area(to));
        let bend = ((start.top - end.top).abs() / 5 + 36).min(180);
        let away = if start.left >= end.left { 1 } else { -1 };
        let mut curves = Vec::new();
        for side in [away, -away] {
            for times in BENT {
                let bend = bend * times / 2;
                curves.push((self.curve(from, to, side, false, bend), bend));
                curves.push((self.curve(from, to, side, true, bend), bend + 50));
            }
        }
        let cost = |(arc, length): &(Arc, i32)| self.hidden(arc, levels) * 60 + length;
        let best = curves.into_iter().min_by_key(cost).map(|(arc, _)| arc);
        let mut arc = best.unwrap_or_else(|| self.curve(from, to, away, false, bend));
        arc.label = self.label(&arc, levels);
        arc
    }

    /// The curve from a node's side, or its foot, to the same side of another: 1 is the right side, -1 the left.
    fn curve(&self, from: usize, to: usize, side: i32, by_foot: bool, bend: i32) -> Arc {
        let side_of = |node: usize| {
            let (area, half) = (self.area(node), self.size.width / 2);
            Point { x: self.nodes[node].x + side * half, y: (area.top + area.bottom) / 2 }
        };
        let (foot, end) = (self.foot(from), side_of(to));
        let aside = |point: Point| Point { x: point.x + side * bend, y: point.y };
        let (start, first) = if by_foot {
            (foot, Point { x: foot.x + side * bend / 2, y: foot.y + bend / 3 + BELOW })
        } else {
            (side_of(from), aside(side_of(from)))
        };
        Arc { from, to, start, bends: [first, aside(end)], end, label: Point::default() }
    }

    /// How much of a curve runs behind other nodes.
    fn hidden(&self, arc: &Arc, levels: &Levels) -> i32 {
        let steps = i64::from((arc.start.y - arc.end.y).abs() / 20 + 12).min(200);
        let is_end = |node: usize| node == arc.from || node == arc.to;
        let hidden = |at: &i64| {
            let point = arc.point(*at, steps);
            levels.node_at(point, 4).is_some_and(|node| !is_end(node)) || levels.node_at(point, -2).is_some()
        };
        (1..steps).filter(hidden).count() as i32
    }

    /// Where on a curve its label covers no node, as near to the middle as can be.
    fn label(&self, arc: &Arc, levels: &Levels) -> Point {
        const OF: i64 = 40;
        let ways = (0..OF / 2 - 4).flat_map(|off| [OF / 2 + off, OF / 2 - off]);
        let mut points = ways.map(|at| arc.point(at, OF));
        points.find(|point| levels.node_at(*point, 14).is_none()).unwrap_or_else(|| arc.point(1, 2))
    }

    /// The nearest free place on either side of a node.
    fn note_beside(&self, node: usize, size: Size) -> Note {
        const GAP: i32 = 20;
        let own = self.area(node);
        let middle = (own.top + own.bottom) / 2;
        let (top, bottom) = (middle - size.height / 2, middle - size.height / 2 + size.height);
        let on_level = |node: &usize| {
            let area = self.area(*node);
            area.top < bottom && top < area.bottom
        };
        let taken: Vec<Area> = (0..self.nodes.len()).filter(on_level).map(|node| self.area(node)).collect();
        let free = |area: &Area| !taken.iter().any(|box_| area.overlaps(box_));
        let right = |left: i32| Area { left, top, right: left + size.width, bottom };
        let left = |right: i32| Area { left: right - size.width, top, right, bottom };
        let to_the_right = taken.iter().map(|box_| right(box_.right + GAP)).filter(|area| area.left > own.right);
        let to_the_left = taken.iter().map(|box_| left(box_.left - GAP)).filter(|area| area.right < own.left);
        let far = |area: &Area| (area.left - own.right).max(own.left - area.right);
        let nearest = to_the_right.chain(to_the_left).filter(free).min_by_key(far);
        let area = nearest.unwrap_or_else(|| right(own.right + GAP));
        let (own_side, side) = if area.left > own.right { (own.right, area.left) } else { (own.left, area.right) };
        Note { area, leader: [Point { x: own_side, y: middle }, Point { x: side, y: middle }] }
    }

    /// Everything moved so that the drawing starts at 0, with a margin around it.
    fn moved_into_its_frame(mut self) -> Layout {
        let boxes = (0..self.nodes.len()).map(|node| self.area(node));
        let arcs = self.arcs.iter().filter_map(|arc| {
            let [one, other] = arc.bends;
            Area::of_points(&[arc.start, one, other, arc.end])
        });
        let note = self.note.iter().map(|note| note.area);
        let empty = Area { left: 0, top: 0, right: self.size.width, bottom: self.size.height };
        let all = boxes.chain(arcs).chain(note).reduce(Area::joined).unwrap_or(empty);
        let (right, down) = (MARGIN - all.left, MARGIN - all.top);
        let moved = |point: &mut Point| *point = Point { x: point.x + right, y: point.y + down };
        self.nodes.iter_mut().for_each(moved);
        for arc in &mut self.arcs {
            [&mut arc.start, &mut arc.end, &mut arc.label].into_iter().chain(&mut arc.bends).for_each(moved);
        }
        if let Some(Note { area, leader }) = &mut self.note {
            leader.iter_mut().for_each(moved);
            let Area { left, top, right: r, bottom } = *area;
            *area = Area { left: left + right, top: top + down, right: r + right, bottom: bottom + down };
        }
        self.width = all.right - all.left + 2 * MARGIN;
        self.height = all.bottom - all.top + 2 * MARGIN;
        self
    }
}

/// The nodes of each level from left to right, by which the node at a place is found.
struct Levels {
    size: Size,
    levels: Vec<Vec<(i32, usize)>>,
}

impl Levels {
    fn of(layout: &Layout) -> Levels {
        let size = layout.size;
        let mut levels: Vec<Vec<(i32, usize)>> = Vec::new();
        for (node, Point { x, y }) in layout.nodes.iter().enumerate() {
            let level = (y / (size.height + BELOW)) as usize;
            levels.resize_with(levels.len().max(level + 1), Vec::new);
            levels[level].push((*x, node));
        }
        levels.iter_mut().for_each(|level| level.sort_unstable());
        Levels { size, levels }
    }

    /// The node whose box, made larger by so much on each side, has this point in it.
    fn node_at(&self, Point { x, y }: Point, larger: i32) -> Option<usize> {
        let pitch = self.size.height + BELOW;
        let reach = self.size.width / 2 + larger;
        let near = |level: i32| {
            let top = level * pitch;
            let nodes = self.levels.get(usize::try_from(level).ok()?)?;
            if !(top - larger..=top + self.size.height + larger).contains(&y) {
                return None;
            }
            let first = nodes.partition_point(|(middle, _)| *middle < x - reach);
            nodes.get(first).filter(|(middle, _)| *middle <= x + reach).map(|(_, node)| *node)
        };
        let level = y.div_euclid(pitch);
        near(level).or_else(|| near(level + 1))
    }
}

/// The outline of a subtree: how far it reaches to the left and to the right of its root on each level, the deepest level first.
type Outline = Vec<[i32; 2]>;

/// Where the nodes stand, and whose children are stacked.
struct Places {
    nodes: Vec<Point>,
    stacked: Vec<bool>,
}

impl Places {
    /// By how much it has to be made smaller to fit a screen, up to a factor.
    fn shrinking(&self, size: Size) -> i64 {
        let [left, right] = [self.nodes.iter().map(|node| node.x).min(), self.nodes.iter().map(|node| node.x).max()];
        let width = right.unwrap_or(0) - left.unwrap_or(0) + size.width;
        let height = self.nodes.iter().map(|node| node.y).max().unwrap_or(0) + size.height;
        (i64::from(width) * SCREEN[1]).max(i64::from(height) * SCREEN[0])
    }
}

/// The tidy places with no child stacked, unless these cannot be read on a screen and those with subtrees up to some width are much
/// larger there.
fn best_places(parents: &[Option<usize>], size: Size) -> Places {
    let tidy = places(parents, size, i32::MAX);
    if tidy.shrinking(size) <= LEGIBLE * SCREEN[1] {
        return tidy;
    }
    let narrower = |width: &i32| Some(width / 4 * 3).filter(|width| *width > 2 * size.width);
    let widest = (tidy.shrinking(size) / SCREEN[1]).min(i64::from(i32::MAX)) as i32;
    let others = std::iter::successors(narrower(&widest), narrower).map(|width| places(parents, size, width));
    let best = others.min_by_key(|places| places.shrinking(size));
    let much_larger = |places: &Places| places.shrinking(size) * 5 < tidy.shrinking(size) * 3;
    best.filter(much_larger).unwrap_or(tidy)
}

/// Where the nodes stand, the first at the top. Children are stacked if side by side they would be wider than `widest`.
fn places(parents: &[Option<usize>], size: Size, widest: i32) -> Places {
    let count = parents.len();
    // The nodes at the top hang from one more node, which is not drawn.
    let over = |node: usize| parents[node].unwrap_or(count);
    let mut children: Vec<Vec<usize>> = vec![Vec::new(); count + 1];
    (0..count).for_each(|node| children[over(node)].push(node));
    let mut outlines: Vec<Outline> = vec![Outline::new(); count + 1];
    // Of each node: how far it stands to the right of its parent, and how many levels below it.
    let (mut aside, mut below) = (vec![0; count + 1], vec![1; count + 1]);
    let mut stacked = vec![false; count + 1];
    // A child has a larger number than its parent, so that it has its outline already.
    for node in (0..count).rev().chain([count]) {
        let mut outline = Outline::new();
        let parts: Vec<Outline> = children[node].iter().map(|child| std::mem::take(&mut outlines[*child])).collect();
        for (child, part) in children[node].iter().zip(&parts) {
            aside[*child] = joined(&mut outline, part);
        }
        if let [first, .., last] = children[node][..] {
            let middle = (aside[first] + aside[last]) / 2;
            children[node].iter().for_each(|child| aside[*child] -= middle);
            outline.iter_mut().for_each(|[left, right]| (*left -= middle, *right -= middle).0);
            stacked[node] = width(&outline) > widest;
        }
        if stacked[node] {
            outline = Outline::new();
            let mut levels = 1;
            for (child, part) in children[node].iter().zip(&parts) {
                (aside[*child], below[*child]) = (stacked_below(&mut outline, part, size), levels);
                levels += part.len();
            }
        }
        outline.push([-size.width / 2, size.width / 2]);
        outlines[node] = outline;
    }
    let down = |node: usize| below[node] as i32 * (size.height + BELOW);
    let mut nodes: Vec<Point> = Vec::with_capacity(count);
    for (node, parent) in parents.iter().enumerate() {
        let place = match parent {
            Some(parent) => Point { x: nodes[*parent].x + aside[node], y: nodes[*parent].y + down(node) },
            None => Point { x: aside[node], y: down(node) },
        };
        nodes.push(place);
    }
    stacked.truncate(count);
    Places { nodes, stacked }
}

fn width(outline: &Outline) -> i32 {
    let left = outline.iter().map(|level| level[0]).min().unwrap_or(0);
    outline.iter().map(|level| level[1]).max().unwrap_or(0) - left
}

/// Puts a subtree below what is stacked there: how far to the right of its parent its root stands.
fn stacked_below(there: &mut Outline, added: &Outline, size: Size) -> i32 {
    let left = added.iter().map(|level| level[0]).min().unwrap_or(0);
    let aside = INDENT - size.width / 2 - left;
    // What leads down to the children runs along the left side.
    let levels: Outline = added.iter().map(|[_, right]| [-size.width / 2, right + aside]).collect();
    there.splice(0..0, levels);
    aside
}

/// Puts a subtree to the right of what is there, as near as can be: how far to the right its root stands.
fn joined(there: &mut Outline, added: &Outline) -> i32 {
    let common = there.len().min(added.len());
    let (left_part, right_part) = (&there[there.len() - common..], &added[added.len() - common..]);
    let apart = left_part.iter().zip(right_part).map(|(one, other)| one[1] - other[0] + BESIDE);
    let aside = apart.max().unwrap_or(0);
    let mut both: Outline = added.iter().map(|[left, right]| [left + aside, right + aside]).collect();
    if both.len() < there.len() {
        let deeper = there.len() - both.len();
        both.splice(0..0, there[..deeper].iter().copied());
    }
    let start = both.len() - common;
    for (level, old) in both[start..].iter_mut().zip(&there[there.len() - common..]) {
        level[0] = old[0];
    }
    *there = both;
    aside
}

#[cfg(test)]
mod tests {
    use super::*;

    const SIZE: Size = Size { width: 120, height: 36 };

    /// Numbers that look random and are the same each time.
    struct Numbers(u64);

    impl Numbers {
        fn below(&mut self, most: usize) -> usize {
            self.0 = self.0.wrapping_mul(6_364_136_223_846_793_005).wrapping_add(1_442_695_040_888_963_407);
            (self.0 >> 33) as usize % most
        }
    }

    /// Trees of many shapes: a chain, a comb, a full binary tree, a star, and grown ones, some with parents that are none.
    fn trees() -> Vec<Vec<Option<usize>>> {
        let mut trees: Vec<Vec<Option<usize>>> = vec![
            vec![],
            vec![None],
            (0..1024).map(|node: usize| node.checked_sub(1)).collect(),
            (0..1023).map(|node: usize| node.checked_sub(1).map(|before| before / 2)).collect(),
            (0..1024).map(|node: usize| node.checked_sub(1).map(|before| before - before % 2)).collect(),
            (0..300).map(|node: usize| (node > 0).then_some(0)).collect(),
            vec![None; 40],
            vec![Some(5), Some(1), Some(0), Some(9), None],
        ];
        let mut numbers = Numbers(1);
        for count in (2..120).step_by(3) {
            let near = 1 + numbers.below(count);
            let parent = |node: usize, back: usize| (node > 0 && back < 60).then(|| node.saturating_sub(1 + back));
            trees.push((0..count).map(|node| parent(node, numbers.below(near))).collect());
        }
        trees
    }

    #[test]
    fn no_two_nodes_overlap_and_all_are_in_the_frame() {
        for parents in trees() {
            let layout = Layout::new(&parents, &[], SIZE, None);
            let areas: Vec<Area> = (0..parents.len()).map(|node| layout.area(node)).collect();
            for (node, area) in areas.iter().enumerate() {
                assert!(area.left >= 0 && area.top >= 0, "{area:?}");
                assert!(area.right <= layout.width && area.bottom <= layout.height, "{area:?}");
                assert_eq!((area.right - area.left, area.bottom - area.top), (SIZE.width, SIZE.height));
                let over = areas[..node].iter().position(|other| other.overlaps(area));
                assert_eq!(over, None, "{node} of {parents:?}");
            }
        }
    }

    #[test]
    fn children_stand_below_their_parent_in_their_order_and_it_over_their_middle() {
        for parents in trees() {
            let layout = Layout::new(&parents, &[], SIZE, None);
            let parents = layout.parents.clone();
            for node in 0..parents.len() {
                let children: Vec<usize> = (0..parents.len()).filter(|child| parents[*child] == Some(node)).collect();
                let places: Vec<Point> = children.iter().map(|child| layout.nodes[*child]).collect();
                if layout.stacked[node] {
                    assert!(places.iter().all(|place| place.y >= layout.area(node).bottom + BELOW));
                    assert!(places.is_sorted_by(|one, other| one.y < other.y));
                    let left = layout.area(node).left + INDENT;
                    assert!(children.iter().all(|child| layout.area(*child).left >= left), "{node} of {parents:?}");
                    continue;
                }
                assert!(places.iter().all(|place| place.y == layout.area(node).bottom + BELOW));
                assert!(places.is_sorted_by(|one, other| one.x < other.x));
                if let (Some(first), Some(last)) = (places.first(), places.last()) {
                    assert!((first.x + last.x - 2 * layout.nodes[node].x).abs() <= 1, "{node} of {parents:?}");
                }
            }
        }
    }

    #[test]
    fn subtrees_are_as_near_as_can_be() {
        // A leaf beside a subtree that is wide only further down stands right beside it.
        let layout = Layout::new(&[None, Some(0), Some(0), Some(2), Some(2)], &[], SIZE, None);
        let apart = |one: usize, other: usize| layout.area(other).left - layout.area(one).right;
        assert_eq!((apart(1, 2), apart(3, 4)), (BESIDE, BESIDE));
        assert_eq!(layout.width, layout.area(4).right.max(layout.area(2).right) - layout.area(1).left + 2 * MARGIN);
        // Two subtrees that are both wide are apart by what lies between their outlines.
        let layout = Layout::new(&[None, Some(0), Some(0), Some(1), Some(1), Some(2), Some(2)], &[], SIZE, None);
        assert_eq!(layout.area(5).left - layout.area(4).right, BESIDE);
    }

    #[test]
    fn what_would_be_far_too_wide_is_stacked() {
        let binary: Vec<Option<usize>> =
            (0..1023).map(|node: usize| node.checked_sub(1).map(|before| before / 2)).collect();
        let layout = Layout::new(&binary, &[], SIZE, None);
        assert!(
            layout.width < 4 * layout.height && layout.height < 4 * layout.width,
            "{} {}",
            layout.width,
            layout.height
        );
        assert!(layout.stacked.contains(&true));
        let small = Layout::new(&binary[..15], &[], SIZE, None);
        assert!(!small.stacked.contains(&true));
    }

    #[test]
    fn arcs_go_from_a_node_to_the_side_of_its_target() {
        let mut numbers = Numbers(7);
        for parents in trees().into_iter().filter(|parents| parents.len() > 1) {
            let count = parents.len();
            let links: Vec<_> = (0..8).map(|_| (numbers.below(count), numbers.below(count))).collect();
            let layout = Layout::new(&parents, &links, SIZE, None);
            assert_eq!(layout.arcs.len(), links.len());
            for (arc, link) in layout.arcs.iter().zip(links) {
                assert_eq!((arc.from, arc.to), link);
                let at_side = |point: Point, node: usize| {
                    let area = layout.area(node);
                    (point.x == area.left || point.x == area.right) && point.y == area.top + SIZE.height / 2
                };
                assert!(at_side(arc.start, arc.from) || arc.start == layout.foot(arc.from), "{arc:?}");
                assert!(at_side(arc.end, arc.to), "{arc:?}");
                // It comes from outside.
                let area = layout.area(arc.to);
                assert_eq!(arc.from_right(), arc.end.x == area.right);
                for Point { x, y } in [arc.label].into_iter().chain(arc.bends) {
                    assert!((0..=layout.width).contains(&x) && (0..=layout.height).contains(&y));
                }
            }
        }
    }

    #[test]
    fn arcs_run_around_nodes_where_they_can() {
        // The paper's tableau: the link from node 5 to node 1 has node 2 on one side, nodes 3, 4 and 6 on the other.
        let parents = [None, Some(0), Some(1), Some(1), Some(3), Some(4), Some(4)];
        let layout = Layout::new(&parents, &[(5, 1)], SIZE, None);
        let arc = &layout.arcs[0];
        for at in 1..100 {
            let Point { x, y } = arc.point(at, 100);
            let behind = |node: &usize| {
                let area = layout.area(*node);
                area.left < x && x < area.right && area.top < y && y < area.bottom
            };
            assert_eq!((0..parents.len()).find(behind), None, "{at}");
        }
        // Along a chain it stands beside it.
        let chain: Vec<Option<usize>> = (0..40).map(|node: usize| node.checked_sub(1)).collect();
        let layout = Layout::new(&chain, &[(39, 3)], SIZE, None);
        assert!(layout.arcs[0].bends[0].x > layout.area(0).right);
        assert!(layout.arcs[0].label.x > layout.area(0).right);
    }

    #[test]
    fn links_that_name_no_node_are_left_out() {
        let layout = Layout::new(&[None, Some(0)], &[(1, 0), (1, 2), (5, 0)], SIZE, None);
        assert_eq!(layout.arcs.iter().map(|arc| (arc.from, arc.to)).collect::<Vec<_>>(), [(1, 0)]);
    }

    #[test]
    fn a_note_stands_on_the_level_of_its_node_and_covers_none() {
        let size = Size { width: 260, height: 90 };
        for parents in trees().into_iter().filter(|parents| (1..200).contains(&parents.len())) {
            for node in (0..parents.len()).step_by(1 + parents.len() / 6) {
                let layout = Layout::new(&parents, &[], SIZE, Some((node, size)));
                let Note { area, leader } = layout.note.unwrap();
                assert!((0..parents.len()).all(|other| !layout.area(other).overlaps(&area)), "{node} of {parents:?}");
                assert_eq!((area.right - area.left, area.bottom - area.top), (size.width, size.height));
                let own = layout.area(node);
                assert!(leader[0].x == own.left || leader[0].x == own.right);
                assert!(leader[1].x == area.left || leader[1].x == area.right);
                assert_eq!(area.top + area.bottom, own.top + own.bottom);
                assert!(area.left >= 0 && area.right <= layout.width && area.top >= 0 && area.bottom <= layout.height);
            }
        }
    }
}
