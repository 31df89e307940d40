//! Lists of rectangles that a refine joins to few, in many steps.

use super::shapes::{put_in_order, Order};
use reference::random::Random;

/// How the rectangles lie.
#[derive(Clone, Copy, Debug)]
pub enum Joins {
    /// Squares side by side.
    Row,
    /// As a row, but each one overlaps the next two.
    OverlappingRow,
    /// Five bars one above the other, each of many pieces; a piece of each bar in turn.
    Bars,
    /// Columns of rising height, side by side, each in two pieces.
    Staircase,
    /// Squares of a grid of 16 by 16.
    Grid,
    /// Each one contains those before it.
    Nested,
    /// Pairs side by side whose union contains a third one.
    Swallowed,
}

pub const JOINS: [Joins; 7] = [
    Joins::Row,
    Joins::OverlappingRow,
    Joins::Bars,
    Joins::Staircase,
    Joins::Grid,
    Joins::Nested,
    Joins::Swallowed,
];

/// So many rectangles, up to 256.
pub fn rectangles(joins: Joins, count: u32) -> Vec<[u32; 4]> {
    let square = |x: u32, y: u32| [x, y, x + 1, y + 1];
    (0..count)
        .map(|i| match joins {
            Joins::Row => square(i, 0),
            Joins::OverlappingRow => [i, 0, i + 3, 1],
            Joins::Bars => square(i / 5, 2 * (i % 5)),
            Joins::Staircase => stair(i),
            Joins::Grid => square(i % 16, i / 16),
            Joins::Nested => [300 - i, 300 - i, 301 + i, 301 + i],
            Joins::Swallowed => swallowed(i),
        })
        .collect()
}

/// The lower or the upper piece of a column.
fn stair(i: u32) -> [u32; 4] {
    let column = i / 2;
    match i % 2 {
        0 => [column, 0, column + 1, 2],
        _ => [column, 2, column + 1, column + 3],
    }
}

/// One between two, or one of these.
fn swallowed(i: u32) -> [u32; 4] {
    let left = 4 * (i / 3);
    match i % 3 {
        0 => [left + 1, 1, left + 3, 2],
        1 => [left, 0, left + 2, 3],
        _ => [left + 2, 0, left + 4, 3],
    }
}

/// The numbers of the list in this order, with x and y exchanged or not.
pub fn list(
    joins: Joins,
    count: u32,
    order: Order,
    is_turned: bool,
    random: &mut Random,
) -> Vec<u32> {
    let mut all = rectangles(joins, count);
    put_in_order(&mut all, order, random);
    let turned = |[a, b, c, d]: [u32; 4]| match is_turned {
        true => [b, a, d, c],
        false => [a, b, c, d],
    };
    all.into_iter().flat_map(turned).collect()
}
