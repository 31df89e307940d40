//! Point and window queries on a tree. Visits are counted over all nodes, not along a walk.

use super::polygon::{has, shares_cell};
use super::{Entry, Tree};
use crate::geometry::{Cell, Rectangle};

/// The entry of the cell, if it is held.
pub fn entry_of(tree: &Tree, cell: Cell) -> Option<Entry> {
    tree.entries().into_iter().find(|e| e.cell == cell)
}

/// A point query's visits: 'nodes whose polygon has the cell.'
pub fn point_visits(tree: &Tree, cell: Cell) -> usize {
    tree.polygons().iter().filter(|p| has(p, cell)).count()
}

/// The matching entries 'in depth-first order'.
pub fn matches(tree: &Tree, window: Rectangle) -> Vec<Entry> {
    let mut entries = tree.entries();
    entries.retain(|e| window.has(e.cell));
    entries
}

/// A window query's visits: 'nodes whose polygon shares a cell with it.'
pub fn window_visits(tree: &Tree, window: Rectangle) -> usize {
    let polygons = tree.polygons();
    polygons.iter().filter(|p| shares_cell(p, window)).count()
}
