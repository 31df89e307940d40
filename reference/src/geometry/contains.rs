//! The containment test of document 02's request A.3.

use super::{Cell, Rectangle};

/// What the test reports.
#[derive(Clone, Copy, Debug, PartialEq, Eq)]
pub struct Containment {
    /// A rectangle of the polygon has the cell.
    pub has: bool,
    /// 'How many rectangles it compared: up to and with the first that has the cell, or all if none
    /// has it.'
    pub compared: usize,
}

/// Compares the rectangles with the cell in order. 'The loop is to end at the first rectangle that
/// has the cell.'
pub fn contains(polygon: &[Rectangle], cell: Cell) -> Containment {
    match polygon.iter().position(|r| r.has(cell)) {
        Some(before) => Containment {
            has: true,
            compared: before + 1,
        },
        None => Containment {
            has: false,
            compared: polygon.len(),
        },
    }
}
