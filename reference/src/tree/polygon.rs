//! Polygons: lists of rectangles whose 'cells are their union'.

use crate::geometry::{contains, Cell, Rectangle};

/// A rectangle of the polygon has the cell.
pub fn has(polygon: &[Rectangle], cell: Cell) -> bool {
    contains(polygon, cell).has
}

/// A rectangle of the polygon has a cell of the window.
pub fn shares_cell(polygon: &[Rectangle], window: Rectangle) -> bool {
    polygon.iter().any(|r| r.common_part(window).is_some())
}

/// The common parts of the rectangle with the polygon's rectangles, in order.
pub fn common_parts(rectangle: Rectangle, polygon: &[Rectangle]) -> Vec<Rectangle> {
    polygon
        .iter()
        .filter_map(|&r| rectangle.common_part(r))
        .collect()
}
