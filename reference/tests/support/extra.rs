//! Extra area by the tests' own means: for document 02's request A.2, which the second
//! implementation counts over blocks of cells, and as it was before.

use reference::geometry::{cut_list, Cell, Rectangle};

/// The extra area of a polygon's rectangle that is grown to a cell.
pub type Rule = fn(&[Rectangle], Rectangle, Cell) -> u64;

/// The pieces that the polygon's rectangles leave of the grown one, however many. They share no cell.
pub fn pieces(polygon: &[Rectangle], rectangle: Rectangle, cell: Cell) -> Vec<Rectangle> {
    let grown = vec![rectangle.grow(cell)];
    polygon.iter().fold(grown, |list, &s| cut_list(&list, s))
}

/// 'The number of cells of the grown rectangle that the whole polygon lacks', by these pieces.
pub fn by_cuts(polygon: &[Rectangle], rectangle: Rectangle, cell: Cell) -> u64 {
    let pieces = pieces(polygon, rectangle, cell);
    pieces.iter().map(|piece| piece.area()).sum()
}

/// 'New area minus old': step 2 chose by the rectangle alone before request A.2.
pub fn by_area(_: &[Rectangle], rectangle: Rectangle, cell: Cell) -> u64 {
    rectangle.extra_area(cell)
}
