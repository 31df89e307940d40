//! Small indexes for answers that are written out.

use super::calls::Session;
use super::images::first_parts;
use super::work_areas::Dirt;
use crate::support::build::tag;
use crate::support::checked::Command::Insert;
use reference::geometry::Cell;
use reference::memory::image;
use reference::tree::Tree;

/// An index of n parts with these cells, inserted in this order; the tags follow from the cells.
pub fn index_of(n: usize, cells: &[Cell]) -> Session {
    let mut index = Session::fresh(n, Dirt::Noise, format!("{cells:?}"));
    for &cell in cells {
        index.expect(Insert(cell, tag(cell)), 0);
    }
    index
}

/// The image of a tree that is built by hand.
pub fn image_of(tree: Tree) -> Session {
    let nodes = tree.nodes();
    let image = image(nodes, Some(&tree), &first_parts(nodes));
    Session::of_image(&image, Dirt::Noise, format!("{tree:?}"))
}

/// G10's nine cells in the leaves (0,5)-(5,6) and (5,5)-(9,6).
pub fn g10() -> Session {
    let cells: Vec<Cell> = (0..9).map(|x| [x, 5]).collect();
    index_of(3, &cells)
}
