//! Splitting a branch at a line, with everything below it.

use super::polygon::common_parts;
use super::{Branch, Line, Node};
use crate::geometry::{refine, Rectangle, GRID_END};

/// The sides of a line: 'left has coordinate below l, right the others.'
#[derive(Clone, Copy, Debug, PartialEq, Eq)]
pub enum Side {
    Left,
    Right,
}

/// The two halves of a branch; a half without entries is none.
pub fn split(branch: &Branch, line: Line) -> (Option<Branch>, Option<Branch>) {
    (
        half_branch(branch, line, Side::Left),
        half_branch(branch, line, Side::Right),
    )
}

/// 'Splitting clips the polygon's rectangles to each side, in order, and refines them.' This is
/// done for every branch below, also for one wholly on one side.
fn half_branch(branch: &Branch, line: Line, side: Side) -> Option<Branch> {
    let child = half_node(&branch.child, line, side)?;
    let polygon = refine(&clip(&branch.polygon, line, side));
    Some(Branch { child, polygon })
}

/// 'Branches are split recursively at the same line, and a half without entries is dropped.
/// Entries and branches keep their order on each side.'
fn half_node(node: &Node, line: Line, side: Side) -> Option<Node> {
    let half = match node {
        Node::Leaf(leaf) => {
            let entries = leaf.entries.iter().copied();
            Node::leaf(entries.filter(|e| line.side(e.cell) == side).collect())
        }
        Node::Routing(routing) => {
            let branches = routing.branches.iter();
            Node::routing(
                branches
                    .filter_map(|b| half_branch(b, line, side))
                    .collect(),
            )
        }
    };
    if half.count() == 0 {
        None
    } else {
        Some(half)
    }
}

/// The parts of the rectangles on the side, in order.
fn clip(polygon: &[Rectangle], line: Line, side: Side) -> Vec<Rectangle> {
    let grid = Rectangle::new(0, 0, GRID_END, GRID_END);
    let half_grid = match side {
        Side::Left => grid.with_range(line.dimension, 0, line.l),
        Side::Right => grid.with_range(line.dimension, line.l, GRID_END),
    };
    common_parts(half_grid, polygon)
}
