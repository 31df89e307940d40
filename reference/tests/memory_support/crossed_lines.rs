//! Sound trees with a full path, on which the branches of a node lie around its middle like the arms
//! of a wheel. Each arm has entries at both ends, so every line crosses a branch: a split of the
//! node also splits the branches that its line crosses.

use super::trees::cell_of;
use crate::support::build::entry;
use reference::geometry::{Cell, Rectangle};
use reference::random::Random;
use reference::tree::{Branch, Entry, Node, Tree};

/// A tree with that many levels, at most five, on the whole grid.
pub fn wheel_tree(levels: usize, random: &mut Random) -> Tree {
    let rectangle = Rectangle::new(0, 0, 65536, 65536);
    Tree {
        rectangle,
        root: full_node(levels, rectangle, random),
    }
}

/// A node with eight below it, one of which is again full.
fn full_node(levels: usize, within: Rectangle, random: &mut Random) -> Node {
    if levels == 1 {
        return Node::leaf(eight_entries(within, random));
    }
    let full = random.between(0, 7) as usize;
    let branches = wheel(within).into_iter().enumerate().map(|(i, r)| Branch {
        child: match i == full {
            true => full_node(levels - 1, r, random),
            false => thin_node(levels - 1, r),
        },
        polygon: vec![r],
    });
    Node::routing(branches.collect())
}

/// Four arms around the middle, and the middle in four rows.
fn wheel(r: Rectangle) -> Vec<Rectangle> {
    let [x, y] = [0, 1].map(|d| {
        let third = (r.ur[d] - r.ll[d]) / 3;
        [r.ll[d], r.ll[d] + third, r.ll[d] + 2 * third, r.ur[d]]
    });
    let arms = [
        Rectangle::new(x[0], y[0], x[2], y[1]),
        Rectangle::new(x[2], y[0], x[3], y[2]),
        Rectangle::new(x[1], y[2], x[3], y[3]),
        Rectangle::new(x[0], y[1], x[1], y[3]),
    ];
    let line = |i: u32| y[1] + (y[2] - y[1]) / 4 * i;
    let end = |i: u32| if i == 4 { y[2] } else { line(i) };
    let rows = (0..4).map(|i| Rectangle::new(x[1], line(i), x[2], end(i + 1)));
    arms.into_iter().chain(rows).collect()
}

/// A chain of one-branch nodes down to a leaf with entries in the first and the last cell.
fn thin_node(levels: usize, r: Rectangle) -> Node {
    if levels == 1 {
        let last: Cell = r.ur.map(|v| v - 1);
        return Node::leaf(vec![entry(r.ll), entry(last)]);
    }
    Node::routing(vec![Branch {
        child: thin_node(levels - 1, r),
        polygon: vec![r],
    }])
}

/// Eight different cells, at both ends and between.
fn eight_entries(r: Rectangle, random: &mut Random) -> Vec<Entry> {
    let mut cells: Vec<Cell> = vec![r.ll, r.ur.map(|v| v - 1)];
    while cells.len() < 8 {
        let cell = cell_of(&[r], random);
        if !cells.contains(&cell) {
            cells.push(cell);
        }
    }
    cells.into_iter().map(entry).collect()
}
