//! Sets of cells of a 64 by 64 grid: what rectangles have, told cell by cell.

use reference::geometry::{Cell, Rectangle};

/// The side of the grid.
pub const SIDE: u32 = 64;

/// A number for each row, with a bit for each of its cells.
#[derive(Clone, Copy, Debug, PartialEq, Eq)]
pub struct CellSet([u64; SIDE as usize]);

impl CellSet {
    /// The cells that a rectangle of the list has. All of them lie on the grid.
    pub fn of(list: &[Rectangle]) -> CellSet {
        let mut rows = [0; SIDE as usize];
        for r in list {
            assert!(r.ur.iter().all(|&end| end <= SIDE), "{r:?}");
            let row = (r.ll[0]..r.ur[0]).fold(0, |row, x| row | 1 << x);
            for y in r.ll[1]..r.ur[1] {
                rows[y as usize] |= row;
            }
        }
        CellSet(rows)
    }

    pub fn has(&self, [x, y]: Cell) -> bool {
        self.0[y as usize] >> x & 1 == 1
    }

    /// The cells that both have.
    pub fn and(&self, other: &CellSet) -> CellSet {
        CellSet(std::array::from_fn(|y| self.0[y] & other.0[y]))
    }

    /// The cells that the other one lacks.
    pub fn without(&self, other: &CellSet) -> CellSet {
        CellSet(std::array::from_fn(|y| self.0[y] & !other.0[y]))
    }

    pub fn count(&self) -> u64 {
        self.0.iter().map(|row| u64::from(row.count_ones())).sum()
    }
}
