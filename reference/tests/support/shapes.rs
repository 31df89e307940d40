//! The cells of a stream: how they lie, and in which order they come.

use super::GRID_END;
use reference::geometry::Cell;
use reference::random::Random;

/// How the cells of a stream lie.
#[derive(Clone, Copy, Debug)]
pub enum Shape {
    /// Any cells of a small square.
    Dense,
    /// A small square row by row.
    Rows,
    /// A small square column by column.
    Columns,
    Diagonal,
    OtherDiagonal,
    /// Thin teeth side by side.
    Comb,
    /// Outwards around a cell.
    Spiral,
    /// Near a few cells of the whole grid.
    Clusters,
    /// Anywhere.
    Whole,
    /// At the grid's first, middle and last coordinates.
    Bounds,
    /// Ends of long lines of cells.
    Lines,
}

pub const SHAPES: [Shape; 11] = [
    Shape::Dense,
    Shape::Rows,
    Shape::Columns,
    Shape::Diagonal,
    Shape::OtherDiagonal,
    Shape::Comb,
    Shape::Spiral,
    Shape::Clusters,
    Shape::Whole,
    Shape::Bounds,
    Shape::Lines,
];

/// The order in which a shape's cells are inserted.
#[derive(Clone, Copy, Debug)]
pub enum Order {
    AsMade,
    Reversed,
    Sorted,
    Shuffled,
}

pub const ORDERS: [Order; 4] = [
    Order::AsMade,
    Order::Reversed,
    Order::Sorted,
    Order::Shuffled,
];

/// The least square with room for the cells.
fn side_for(count: u32) -> u32 {
    (1..).find(|side| side * side >= count).unwrap_or(1)
}

/// `count` cells of the shape, some perhaps more than once.
pub fn cells(shape: Shape, count: u32, random: &mut Random) -> Vec<Cell> {
    let side = side_for(count);
    let step = random.pick(&[1, 1, 2, 3, 10, 100]);
    let corner = [0, 1].map(|_| random.between(0, GRID_END - 1));
    let at = |x: u32, y: u32| [corner[0] + step * x, corner[1] + step * y].map(|v| v % GRID_END);
    let near = |centre: u32, random: &mut Random| {
        (centre + GRID_END + random.between(0, 40) - 20) % GRID_END
    };
    let bounds = [0, 1, 2, 32767, 32768, 65533, 65534, 65535];
    let centres: Vec<Cell> = (0..4)
        .map(|_| [0, 1].map(|_| random.between(0, GRID_END - 1)))
        .collect();
    (0..count)
        .map(|i| match shape {
            Shape::Dense => at(random.between(0, side), random.between(0, side)),
            Shape::Rows => at(i % side, i / side),
            Shape::Columns => at(i / side, i % side),
            Shape::Diagonal => at(i, i),
            Shape::OtherDiagonal => at(i, count - i),
            Shape::Comb => at(
                3 * (i / 12),
                if i / 12 % 2 == 0 { i % 12 } else { 11 - i % 12 },
            ),
            Shape::Spiral => spiral(i, corner, step),
            Shape::Clusters => random.pick(&centres).map(|c| near(c, random)),
            Shape::Whole => [0, 1].map(|_| random.between(0, GRID_END - 1)),
            Shape::Bounds => [0, 1].map(|_| random.pick(&bounds)),
            Shape::Lines => line_end(i, side, corner, random),
        })
        .collect()
}

/// The i-th cell of a square spiral.
fn spiral(i: u32, corner: Cell, step: u32) -> Cell {
    let (mut x, mut y, mut left) = (0i64, 0i64, i64::from(i));
    let directions = [(1, 0), (0, 1), (-1, 0), (0, -1)];
    for turn in 0.. {
        let length = turn / 2 + 1;
        let (dx, dy) = directions[turn as usize % 4];
        let walked = length.min(left);
        (x, y, left) = (x + dx * walked, y + dy * walked, left - walked);
        if left == 0 {
            break;
        }
    }
    let wrap = |v: i64, c: u32| (i64::from(c) + v * i64::from(step)).rem_euclid(65536) as u32;
    [wrap(x, corner[0]), wrap(y, corner[1])]
}

/// A cell on one of a few long lines in x or in y.
fn line_end(i: u32, side: u32, corner: Cell, random: &mut Random) -> Cell {
    let across = 2 * random.between(0, side);
    let anywhere = random.between(0, 20 * side);
    let along = random.pick(&[0, 1, side, 10 * side, anywhere]);
    let (dx, dy) = if i % 2 == 0 {
        (along, across)
    } else {
        (across, along)
    };
    [(corner[0] + dx) % GRID_END, (corner[1] + dy) % GRID_END]
}

pub fn put_in_order<T: Ord>(items: &mut [T], order: Order, random: &mut Random) {
    match order {
        Order::AsMade => {}
        Order::Reversed => items.reverse(),
        Order::Sorted => items.sort_unstable(),
        Order::Shuffled => shuffle(items, random),
    }
}

pub fn shuffle<T>(items: &mut [T], random: &mut Random) {
    for i in (1..items.len()).rev() {
        items.swap(i, random.between(0, i as u32) as usize);
    }
}
