//! Sound trees in which one insertion is as dear as was found: at every level it refines some 265
//! rectangles, which join to 16 or fewer. No history is known that leads to them.
//!
//! A node's polygon is a column, bands on its left that lie one above the other, a block below them
//! and two squares far above. Its siblings are bars side by side on its right, which stand in the
//! parent's block and reach into the lowest band. The column grows past the bars to the cell. Each
//! bar leaves the piece above it, and each piece has a common part with each band of the parent.
//! Any other rectangle is longer, so the column has the least extra area.

use crate::geometry::{Cell, Rectangle};
use crate::tree::{Branch, Entry, Node, Tree, MOST_NODES};

/// The bands of a polygon, and the bars beside it in the polygons of its siblings.
const BANDS: u32 = 9;
const BARS: u32 = 27;
const SIBLINGS: usize = 2;

/// The top of the blocks, the height of the bands but the lowest, and the left end of the bars of
/// the lowest level.
const BLOCK: u32 = 60_000;
const BAND: u32 = 2;
const LEFT: u32 = 50_000;

/// The tree, and the cell whose insertion is dear.
pub struct Dear {
    pub tree: Tree,
    pub cell: Cell,
}

/// The highest such tree of at most n nodes; n is at least 5.
pub fn dear(n: usize) -> Dear {
    let levels = (1..MOST_NODES).rfind(|&levels| nodes(levels) <= n);
    let levels = levels.expect("room for one level") as u32;
    Bands { levels }.dear()
}

/// The nodes of a tree with so many levels at which a column grows: these, two above them, and the
/// siblings with a chain below each.
fn nodes(levels: usize) -> usize {
    2 + levels + SIBLINGS * levels * (levels + 1) / 2
}

struct Bands {
    /// The levels at which a column grows, numbered from 1 downwards.
    levels: u32,
}

impl Bands {
    fn dear(&self) -> Dear {
        let mut whole = self.polygon(0);
        let top = self.top() + 1;
        whole[0].ur[1] = top;
        let branch = Branch {
            child: self.node(1),
            polygon: whole,
        };
        Dear {
            tree: Tree {
                rectangle: Rectangle::new(0, 0, 65536, 65536),
                root: Node::routing(vec![branch]),
            },
            cell: [self.right(0) - 1, top - 1],
        }
    }

    /// The node with the siblings of that level and the branch between them that grows.
    fn node(&self, level: u32) -> Node {
        if level > self.levels {
            return Node::leaf(vec![entry([0, 0])]);
        }
        let growing = Branch {
            child: self.node(level + 1),
            polygon: self.polygon(level),
        };
        let mut branches = self.siblings(level);
        branches.insert(1, growing);
        Node::routing(branches)
    }

    /// Column, bands, block, squares.
    fn polygon(&self, level: u32) -> Vec<Rectangle> {
        let right = self.right(level);
        let mut polygon = vec![Rectangle::new(
            right - 1,
            self.bottom(level),
            right,
            self.top(),
        )];
        for j in 0..BANDS {
            // Bands of different lengths are not joined.
            polygon.push(Rectangle::new(j, self.band(j), right - 1, self.band(j + 1)));
        }
        polygon.push(Rectangle::new(0, 0, right, BLOCK));
        for x in [0, 3] {
            let y = self.top() + 10 + x;
            polygon.push(Rectangle::new(x, y, x + 1, y + 1));
        }
        polygon
    }

    /// Bars that stand side by side, every second one in the same leaf.
    fn siblings(&self, level: u32) -> Vec<Branch> {
        let left = self.right(level);
        let top = self.bottom(level) + 1;
        let bar = |i: u32| Rectangle::new(left + i, 0, left + i + 1, top);
        let own = |first: usize| (0..BARS).map(bar).skip(first).step_by(SIBLINGS);
        let chain = |first: usize| chain(own(first).collect(), self.levels - level);
        (0..SIBLINGS).map(chain).collect()
    }

    /// The end of a level's polygon, where the bars beside it begin. Above the bars is the column of
    /// the level above.
    fn right(&self, level: u32) -> u32 {
        LEFT + (self.levels - level) * (BARS + 1)
    }

    /// A column begins above the bars of the level above it, so that what lies behind its own bars
    /// is one rectangle.
    fn bottom(&self, level: u32) -> u32 {
        BLOCK + 2 * level
    }

    /// The lower end of a band.
    fn band(&self, j: u32) -> u32 {
        match j {
            0 => BLOCK,
            _ => self.bottom(self.levels) + BAND * j,
        }
    }

    /// The end of the bands.
    fn top(&self) -> u32 {
        self.band(BANDS)
    }
}

/// A leaf below so many one-branch nodes, all with this polygon.
fn chain(polygon: Vec<Rectangle>, above: u32) -> Branch {
    let child = match above {
        0 => Node::leaf(vec![entry(polygon[0].ll)]),
        _ => Node::routing(vec![chain(polygon.clone(), above - 1)]),
    };
    Branch { child, polygon }
}

fn entry(cell: Cell) -> Entry {
    Entry { cell, tag: 0 }
}
