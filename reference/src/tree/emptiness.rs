//! Document 02, request A.11: whether a window is empty, by a look at all entries, and the walk that
//! finds it out and whose nodes are reported.

use super::polygon::shares_cell;
use super::{Entry, Node, Tree};
use crate::geometry::Rectangle;

/// 'Yes' where none of the entries is in the window.
pub fn is_empty(entries: &[Entry], window: Rectangle) -> bool {
    !entries.iter().any(|e| window.has(e.cell))
}

/// What a walk has met.
#[derive(Clone, Copy, Debug, PartialEq, Eq)]
pub struct StoppingWalk {
    /// It met an entry in the window, and has stopped there.
    pub has_stopped: bool,
    /// The nodes entered.
    pub visits: usize,
}

/// 'The walk, depth-first as in the window query, stops at the first matching entry.'
pub fn stopping_walk(tree: &Tree, window: Rectangle) -> StoppingWalk {
    let mut walk = StoppingWalk {
        has_stopped: false,
        visits: 0,
    };
    walk.come_to(&[tree.rectangle], &tree.root, window);
    walk
}

impl StoppingWalk {
    /// A node is entered if it shares a cell with the window and the walk has not stopped before.
    fn come_to(&mut self, polygon: &[Rectangle], node: &Node, window: Rectangle) {
        if self.has_stopped || !shares_cell(polygon, window) {
            return;
        }
        self.visits += 1;
        match node {
            Node::Leaf(leaf) => self.has_stopped = !is_empty(&leaf.entries, window),
            Node::Routing(routing) => {
                for branch in &routing.branches {
                    self.come_to(&branch.polygon, &branch.child, window);
                }
            }
        }
    }
}
