//! The other commands of a stream: queries, and calls to be refused.

use super::checked::Command;
use super::GRID_END;
use reference::geometry::{Cell, Rectangle};
use reference::random::Random;
use reference::tree::Entry;

/// A result list for all entries of any index.
pub const LONG: usize = 3 * 2048;

/// A point or window query near a cell or a held one.
pub fn query(cell: Cell, held: &[Entry], random: &mut Random) -> Command {
    let near = |cell: Cell, random: &mut Random| {
        cell.map(|v| {
            (v + random.between(0, 4))
                .saturating_sub(2)
                .min(GRID_END - 1)
        })
    };
    let (a, b) = if held.is_empty() {
        (cell, cell)
    } else {
        (random.pick(held).cell, random.pick(held).cell)
    };
    match random.between(0, 7) {
        0 => Command::Point(a),
        1 => Command::Point(near(a, random)),
        2 => Command::Point(cell),
        3 => Command::Point([a[0], b[1]]),
        4 => Command::Window(Rectangle::new(0, 0, GRID_END, GRID_END), LONG),
        5 => window(near(a, random), near(a, random), random),
        6 => window(cell, a, random),
        _ => window(a, b, random),
    }
}

/// The window between two cells, with a list that is sometimes too short.
fn window(a: Cell, b: Cell, random: &mut Random) -> Command {
    let [llx, lly] = [0, 1].map(|d| a[d].min(b[d]));
    let [urx, ury] = [0, 1].map(|d| a[d].max(b[d]) + 1);
    let length = match random.between(0, 3) {
        0 => random.between(0, 30) as usize,
        _ => LONG,
    };
    Command::Window(Rectangle::new(llx, lly, urx, ury), length)
}

/// A call that is refused on most indexes, or always.
pub fn refused(cell: Cell, random: &mut Random) -> Command {
    let over = random.pick(&[65536, 65537, 1 << 31, u32::MAX]);
    let mut off_grid = cell;
    off_grid[random.between(0, 1) as usize] = over;
    let [x, y] = cell;
    match random.between(0, 9) {
        0 => Command::Insert(cell, 0),
        1 => Command::Insert(off_grid, 1),
        2 => Command::Remove(off_grid),
        3 => Command::Remove([y, x]),
        4 => Command::Point(off_grid),
        5 => Command::Window(Rectangle::new(x, y, x, y + 1), 300),
        6 => Command::Window(Rectangle::new(x, y + 1, x + 1, y), 0),
        7 => Command::Window(Rectangle::new(0, 0, GRID_END, over.max(65537)), 300),
        8 => Command::Window(Rectangle::new(over, 0, u32::MAX, 5), 300),
        _ => Command::Window(Rectangle::new(0, 0, GRID_END, GRID_END), 2),
    }
}
