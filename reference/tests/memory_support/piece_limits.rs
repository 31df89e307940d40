//! Sound trees in which a leaf grows past long bars of its siblings. The bars cut it into many
//! pieces, and rows between the bars take most of them away again. So the pieces on the way and the
//! common parts lie around the limit of 256 while the refined polygon is small.

use crate::support::build::{entry, rectangle};
use reference::geometry::{Cell, Rectangle};
use reference::random::Random;
use reference::tree::{Branch, Node, Tree};

/// The first column of the growing leaf, and its width. The bars come from the left.
const EDGE: u32 = 30_000;
const WIDTH: u32 = 16;

/// The height of a bar, and of the rows between two bars.
const BAR: u32 = 2;
const STEP: u32 = 4;

/// A tree and the cell to which its leaf grows.
pub struct Ragged {
    pub tree: Tree,
    pub cell: Cell,
}

/// Up to 44 bars, of which up to 14 end before the others; the parent's polygon is the root's
/// rectangle so many times.
pub fn ragged(copies: usize, random: &mut Random) -> Ragged {
    let ends = ends(random);
    let bars = ends
        .iter()
        .zip(1..)
        .map(|(end, i)| row(STEP * i, BAR, *end));
    let fill = (0..ends.len() as u32).map(|i| row(STEP * i + BAR, STEP - BAR, WIDTH - 1));
    let mut branches = leaves(bars.collect(), random);
    let filling = leaves(fill.collect(), random);
    let before = match random.one_in(4) {
        true => random.between(0, branches.len() as u32) as usize,
        false => branches.len(),
    };
    branches.splice(before..before, filling);
    let growing = leaf(vec![rectangle([EDGE, 0, EDGE + WIDTH, 1])]);
    let place = random.between(0, branches.len() as u32) as usize;
    branches.insert(place, growing);
    let top = STEP * (ends.len() as u32 + 2);
    let whole = rectangle([0, 0, EDGE + WIDTH, top + 1]);
    let root = Node::routing(vec![Branch {
        child: Node::routing(branches),
        polygon: vec![whole; copies],
    }]);
    Ragged {
        tree: Tree {
            rectangle: whole,
            root,
        },
        cell: [EDGE + WIDTH - 1, top],
    }
}

/// How far past EDGE the bars end, mostly the shorter ones first.
fn ends(random: &mut Random) -> Vec<u32> {
    let shorter = random.between(4, 14) as usize;
    let mut ends: Vec<u32> = (0..shorter).map(|_| random.between(1, WIDTH - 2)).collect();
    if !random.one_in(4) {
        ends.sort_unstable();
    }
    ends.extend(vec![WIDTH - 1; random.between(6, 30) as usize]);
    ends
}

/// A row of that height from the left to `end` columns past EDGE.
fn row(y: u32, height: u32, end: u32) -> Rectangle {
    Rectangle::new(0, y, EDGE + end, y + height)
}

/// Leaves with the rectangles, fifteen or sixteen each.
fn leaves(rectangles: Vec<Rectangle>, random: &mut Random) -> Vec<Branch> {
    let each = random.pick(&[15, 16]);
    rectangles.chunks(each).map(|c| leaf(c.to_vec())).collect()
}

/// A leaf with an entry in the first cell of its first rectangle.
fn leaf(polygon: Vec<Rectangle>) -> Branch {
    let cell = polygon[0].ll;
    Branch {
        child: Node::leaf(vec![entry(cell)]),
        polygon,
    }
}
