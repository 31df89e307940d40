//! Removal: the tree after, from the tree before.

use super::{Node, Tree};
use crate::geometry::Cell;

/// 'Removal takes the entry out, closes the gap, removes an emptied leaf and emptied nodes above.
/// Polygons don't shrink.' The last removal leaves no tree.
pub fn remove(tree: &Tree, cell: Cell) -> Option<Tree> {
    let mut tree = tree.clone();
    remove_below(&mut tree.root, cell);
    if tree.root.count() == 0 {
        None
    } else {
        Some(tree)
    }
}

fn remove_below(node: &mut Node, cell: Cell) {
    match node {
        Node::Leaf(leaf) => leaf.entries.retain(|e| e.cell != cell),
        Node::Routing(routing) => {
            for branch in &mut routing.branches {
                remove_below(&mut branch.child, cell);
            }
            routing.branches.retain(|b| b.child.count() > 0);
        }
    }
}
