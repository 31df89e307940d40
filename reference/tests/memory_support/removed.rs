//! An insertion's total by sets of cells, from the tree before. It uses the count of neither
//! implementation, and no list of pieces.

use crate::support::cell_set::CellSet;
use reference::geometry::{Cell, Rectangle};
use reference::tree::{Branch, Node, Tree};

/// A level at which a rectangle grows.
pub struct Level {
    /// The cells of the grown rectangle that some sibling has.
    pub removed: u64,
    /// The same, a cell counted for each rectangle of the siblings that has it.
    pub with_repeats: u64,
}

/// The levels at which the insertion of the cell makes a rectangle grow, from the root down. All
/// rectangles lie on the grid of the sets.
pub fn levels_by_cells(tree: &Tree, cell: Cell) -> Vec<Level> {
    let mut levels = Vec::new();
    let mut node = &tree.root;
    while let Node::Routing(routing) = node {
        let branches = &routing.branches;
        let has_cell = |b: &Branch| CellSet::of(&b.polygon).has(cell);
        let place = branches.iter().position(has_cell).unwrap_or_else(|| {
            let (place, grown) = least_extra(branches, cell);
            levels.push(level(branches, place, grown));
            place
        });
        node = &branches[place].child;
    }
    levels
}

/// The branch and the grown rectangle of which the branch's polygon lacks fewest cells, 'first
/// branch then first rectangle on ties'.
fn least_extra(branches: &[Branch], cell: Cell) -> (usize, Rectangle) {
    let all = branches.iter().enumerate().flat_map(|(place, b)| {
        let polygon = CellSet::of(&b.polygon);
        b.polygon.iter().map(move |r| {
            let grown = r.grow(cell);
            let lacked = CellSet::of(&[grown]).without(&polygon).count();
            (lacked, place, grown)
        })
    });
    let (_, place, grown) = all.min_by_key(|&(lacked, ..)| lacked).expect("a branch");
    (place, grown)
}

fn level(branches: &[Branch], place: usize, grown: Rectangle) -> Level {
    let grown = CellSet::of(&[grown]);
    let others = branches.iter().enumerate().filter(|&(i, _)| i != place);
    let siblings: Vec<Rectangle> = others.flat_map(|(_, b)| b.polygon.clone()).collect();
    let of_one = |s: &Rectangle| grown.and(&CellSet::of(&[*s])).count();
    Level {
        removed: grown.and(&CellSet::of(&siblings)).count(),
        with_repeats: siblings.iter().map(of_one).sum(),
    }
}
