//! Sound trees of the whole grid in which one insertion removes very many cells: at every level a
//! strip grows up to the grid's last row, past a sibling above it.
//!
//! A node's polygon is a strip at its bottom and a block above its sibling, up to the rows at the
//! top that no node has. The sibling lies between them over all columns. Its rows are never those
//! of another level's sibling: deeper levels lie in the block. So all levels together remove less
//! than the grid.

use super::build::{leaf, rectangle, routing};
use super::GRID_END;
use reference::geometry::Cell;
use reference::tree::{Branch, Node, Tree};

/// The cell to which every strip grows.
pub const CELL: Cell = [0, GRID_END - 1];

pub struct Stairs {
    /// The levels at which a strip grows.
    pub levels: u32,
    /// The rows at the top that no node has, and those of a level: the strip's one and the
    /// sibling's.
    pub free: u32,
    pub rows: u32,
}

impl Stairs {
    /// So many levels, with so many free rows.
    pub fn new(levels: u32, free: u32) -> Stairs {
        let rows = (GRID_END - free - 1) / levels;
        Stairs { levels, free, rows }
    }

    /// The columns of a strip: as many as it can have without lacking more cells, once it has
    /// grown, than the block does.
    fn columns(&self) -> u32 {
        let lacked = u64::from(self.rows - 1 + self.free);
        (u64::from(GRID_END) * u64::from(self.free) / lacked) as u32
    }

    /// The cells that the siblings have of the grown strips.
    pub fn removed(&self) -> u64 {
        u64::from(self.levels) * u64::from(self.columns()) * u64::from(self.rows - 1)
    }

    pub fn tree(&self) -> Tree {
        Tree {
            rectangle: rectangle([0, 0, GRID_END, GRID_END]),
            root: Node::routing(self.branches(1)),
        }
    }

    /// The branch that grows at that level, counted from the root down, and its sibling.
    fn branches(&self, level: u32) -> Vec<Branch> {
        let bottom = self.rows * (level - 1);
        let above = bottom + self.rows;
        let strip = [0, bottom, self.columns(), bottom + 1];
        let polygon = [strip, [0, above, GRID_END, GRID_END - self.free]];
        let growing = match level == self.levels {
            true => leaf(&polygon, &[[0, bottom]]),
            false => routing(&polygon, self.branches(level + 1)),
        };
        let sibling = [0, bottom + 1, GRID_END, above];
        vec![growing, chain(sibling, self.levels - level)]
    }
}

/// A leaf below so many one-branch nodes, all with this rectangle.
fn chain(rectangle: [u32; 4], above: u32) -> Branch {
    match above {
        0 => leaf(&[rectangle], &[[rectangle[0], rectangle[1]]]),
        _ => routing(&[rectangle], vec![chain(rectangle, above - 1)]),
    }
}
