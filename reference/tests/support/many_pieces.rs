//! Accepted cuts by a polygon whose count of removed cells is dear if a rectangle of the polygon is
//! cut by those of the list, one after another, each piece for itself. One that has all nested bars
//! is cut into 257 x 257 pieces, by 5.6 million comparisons of a piece with a bar; one that has all
//! squares takes 0.5 million cuts of a piece. No search found more for 256 rectangles. For the 16
//! rectangles of a polygon it would be 16 times as much. The library cuts a rectangle by the later
//! ones of the polygon first, and what is left of all 16 is about one rectangle: 6.7 million
//! comparisons at most were found, in either order of the polygon. The pieces are up to 271 cuts
//! deep.

use super::GRID_END;

const GRID: [u32; 4] = [0, 0, GRID_END, GRID_END];

/// 256 bars from below to above, each longer than those below it.
pub fn nested_bars() -> Vec<[u32; 4]> {
    let bar = |j: u32| [32_768 - 100 * j, 200 * j, 32_768 + 100 * j, 200 * j + 100];
    (1..=256).map(bar).collect()
}

/// 256 squares around one another, the smallest first.
pub fn squares() -> Vec<[u32; 4]> {
    let square = |reach: u32| {
        let [from, to] = [32_768 - reach, 32_768 + reach];
        [from, from, to, to]
    };
    (1..=256).map(|j| square(100 * j)).collect()
}

/// Polygons of 16 rectangles that leave nothing of both lists: the least rectangle first, and last.
pub fn polygons() -> [Vec<[u32; 4]>; 5] {
    [
        vec![GRID; 16],
        bars_and_grid(),
        reversed(bars_and_grid()),
        widening(),
        reversed(widening()),
    ]
}

fn reversed(mut polygon: Vec<[u32; 4]>) -> Vec<[u32; 4]> {
    polygon.reverse();
    polygon
}

/// 15 small bars, of the shape of the long ones and below them, then the grid.
fn bars_and_grid() -> Vec<[u32; 4]> {
    let bar = |j: u32| [32_768 - 3 * j, 6 * j, 32_768 + 3 * j, 6 * j + 3];
    (1..=15).map(bar).chain([GRID]).collect()
}

/// Each rectangle has one column more than the one before.
fn widening() -> Vec<[u32; 4]> {
    let wide = |j: u32| [0, 0, GRID_END - 15 + j, GRID_END];
    (0..16).map(wide).collect()
}
