//! Tall sound trees whose polygons become smaller from level to level, so that a cell just outside
//! of a level's polygon makes it and all below grow.

use super::trees::{cell_of, tree_of};
use reference::geometry::{Cell, Rectangle};
use reference::random::Random;
use reference::tree::{Branch, Node, Tree};

/// How far a level's square lies within that of the level above, on each side, and the root's within
/// the grid.
const STEP: u32 = 3;

/// The square of a level, the root's being level 0.
fn square(level: usize) -> Rectangle {
    let margin = STEP * (level as u32 + 1);
    let end = 65536 - margin;
    Rectangle::new(margin, margin, end, end)
}

/// One-branch nodes with a small tree of three levels and up to `most` nodes below them; so many
/// levels in all.
pub fn tall_tree(levels: usize, most: usize, random: &mut Random) -> Tree {
    let single = levels - 3;
    let mut root = tree_of(3, most, square(single), random).root;
    let mut d = 0;
    for level in (1..=single).rev() {
        d = if random.one_in(30) { 1 - d } else { d };
        root = Node::routing(vec![Branch {
            child: root,
            polygon: strips(square(level), d, random),
        }]);
    }
    Tree {
        rectangle: square(0),
        root,
    }
}

/// The square as one to four strips in the dimension, some of which overlap.
fn strips(square: Rectangle, d: usize, random: &mut Random) -> Vec<Rectangle> {
    let (from, to) = (square.ll[d], square.ur[d]);
    let count = random.between(1, 4);
    let line = |i: u32| from + (to - from) / count * i;
    (0..count)
        .map(|i| {
            let end = if i + 1 == count { to } else { line(i + 1) };
            let start = line(i) - random.pick(&[0, 0, line(i).min(STEP)]);
            square.with_range(d, start.max(from), end)
        })
        .collect()
}

/// A cell outside of a level's square, and in the square of the level above.
pub fn cell_outside(level: usize, random: &mut Random) -> Cell {
    let mut cell = cell_of(&[square(level)], random);
    let d = random.between(0, 1) as usize;
    let outside = square(level).ll[d] - random.between(1, STEP);
    cell[d] = random.pick(&[outside, 65535 - outside]);
    cell
}
