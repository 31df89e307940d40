//! Document 02, request A.2: extra area, counted over blocks of cells.

use super::polygon::has;
use crate::geometry::{Cell, Rectangle};

/// 'Extra area is the number of cells of the grown rectangle that the whole polygon lacks.' The
/// rectangle is one of the polygon's, which is as it was before the growth.
pub fn extra_area(polygon: &[Rectangle], rectangle: Rectangle, cell: Cell) -> u64 {
    lacked(polygon, rectangle.grow(cell))
}

/// The number of cells of the rectangle that no rectangle of the polygon has, up to 2^32. Between
/// two borders that follow each other in x, and two in y, lies a block of which the polygon has all
/// cells or none, so its first cell stands for all.
fn lacked(polygon: &[Rectangle], rectangle: Rectangle) -> u64 {
    let [xs, ys] = [0, 1].map(|d| borders(polygon, rectangle, d));
    let mut cells = 0;
    for x in xs.windows(2) {
        for y in ys.windows(2) {
            let block = Rectangle::new(x[0], y[0], x[1], y[1]);
            if !has(polygon, block.ll) {
                cells += block.area();
            }
        }
    }
    cells
}

/// Where the rectangle begins and ends in a dimension, and where rectangles of the polygon do so
/// within it: the different coordinates, in order.
fn borders(polygon: &[Rectangle], rectangle: Rectangle, d: usize) -> Vec<u32> {
    let range = rectangle.ll[d]..=rectangle.ur[d];
    let mut borders = vec![*range.start(), *range.end()];
    let ends = polygon.iter().flat_map(|r| [r.ll[d], r.ur[d]]);
    borders.extend(ends.filter(|end| range.contains(end)));
    borders.sort_unstable();
    borders.dedup();
    borders
}
