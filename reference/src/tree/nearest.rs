//! Document 02, request A.1: the entry nearest a cell, by a look at all of them, and the walk that
//! finds it and whose nodes are reported.

use super::{Entry, Node, Tree};
use crate::geometry::{Cell, Rectangle};

/// '(dx)^2 + (dy)^2', at most 2 x 65535^2, which is over 2^32.
pub fn squared_distance(a: Cell, b: Cell) -> u64 {
    let [dx, dy] = [0, 1].map(|d| u64::from(a[d].abs_diff(b[d])));
    dx * dx + dy * dy
}

/// 'The entry nearest a given cell .., ties to the smaller x, then the smaller y.' None of none.
pub fn nearest(entries: &[Entry], cell: Cell) -> Option<Entry> {
    let entries = entries.iter().copied();
    entries.min_by_key(|&entry| rank(entry, cell))
}

/// What decides between entries: the squared distance, then x, then y.
fn rank(entry: Entry, cell: Cell) -> (u64, Cell) {
    (squared_distance(entry.cell, cell), entry.cell)
}

/// 'The least squared distance from the cell to a cell of the .. polygon.'
pub fn least_distance(polygon: &[Rectangle], cell: Cell) -> u64 {
    let distances = polygon
        .iter()
        .map(|&r| squared_distance(nearest_cell_of(r, cell), cell));
    distances.min().expect("a polygon has a rectangle")
}

/// The rectangle's cell nearest the cell. The upper right corner is excluded.
fn nearest_cell_of(r: Rectangle, cell: Cell) -> Cell {
    [0, 1].map(|d| cell[d].clamp(r.ll[d], r.ur[d] - 1))
}

/// What a walk has met.
#[derive(Clone, Copy, Debug, PartialEq, Eq)]
pub struct Walk {
    /// The nearest of the entries met; none if no entry has been met yet.
    pub best: Option<Entry>,
    /// The nodes entered.
    pub visits: usize,
}

/// 'The walk is depth-first with branches in order; it enters the root', and children by `enters`.
pub fn walk(tree: &Tree, cell: Cell) -> Walk {
    let mut walk = Walk {
        best: None,
        visits: 0,
    };
    walk.enter(&tree.root, cell);
    walk
}

impl Walk {
    /// Whether a child is entered is tested when the walk comes to it.
    fn enter(&mut self, node: &Node, cell: Cell) {
        self.visits += 1;
        match node {
            Node::Leaf(leaf) => {
                for &entry in &leaf.entries {
                    self.meet(entry, cell);
                }
            }
            Node::Routing(routing) => {
                for branch in &routing.branches {
                    if self.enters(&branch.polygon, cell) {
                        self.enter(&branch.child, cell);
                    }
                }
            }
        }
    }

    fn meet(&mut self, entry: Entry, cell: Cell) {
        let best = self.best.unwrap_or(entry);
        self.best = nearest(&[best, entry], cell);
    }

    /// 'A child exactly if no entry has been met yet or the least squared distance from the cell to
    /// a cell of the child's polygon is at most the best so far.'
    fn enters(&self, polygon: &[Rectangle], cell: Cell) -> bool {
        let at_most = |best: Entry| {
            let best = squared_distance(best.cell, cell);
            least_distance(polygon, cell) <= best
        };
        self.best.is_none_or(at_most)
    }
}
