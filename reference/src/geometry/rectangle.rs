//! Cells and single rectangles.

use super::GRID_END;

/// A pair (x, y). Dimension 0 is x, dimension 1 is y.
pub type Cell = [u32; 2];

/// A cell's coordinates are each from 0 to 65535.
pub fn is_cell(cell: Cell) -> bool {
    (0..2).all(|d| cell[d] < GRID_END)
}

/// A rectangle with lower left corner `ll` (included) and upper right corner `ur` (excluded).
#[derive(Clone, Copy, Debug, PartialEq, Eq)]
pub struct Rectangle {
    pub ll: [u32; 2],
    pub ur: [u32; 2],
}

impl Rectangle {
    /// The rectangle (llx,lly)-(urx,ury).
    pub fn new(llx: u32, lly: u32, urx: u32, ury: u32) -> Rectangle {
        Rectangle {
            ll: [llx, lly],
            ur: [urx, ury],
        }
    }

    /// Empty: no cell satisfies ll <= cell < ur in both dimensions.
    pub fn is_empty(self) -> bool {
        (0..2).any(|d| self.ll[d] >= self.ur[d])
    }

    /// 'A rectangle has ll < ur in both dimensions'; 'ur reaches 65536'.
    pub fn is_valid(self) -> bool {
        !self.is_empty() && (0..2).all(|d| self.ur[d] <= GRID_END)
    }

    /// 'Contains a cell exactly if ll <= cell < ur in both dimensions.'
    pub fn has(self, cell: Cell) -> bool {
        (0..2).all(|d| self.ll[d] <= cell[d] && cell[d] < self.ur[d])
    }

    /// Every cell of this rectangle lies in the other one.
    pub fn is_contained_in(self, other: Rectangle) -> bool {
        (0..2).all(|d| other.ll[d] <= self.ll[d] && self.ur[d] <= other.ur[d])
    }

    /// This rectangle with another range in one dimension. The result may be empty.
    pub fn with_range(self, dimension: usize, from: u32, to: u32) -> Rectangle {
        let mut changed = self;
        changed.ll[dimension] = from;
        changed.ur[dimension] = to;
        changed
    }

    /// Common part: 'the larger ll and the smaller ur per dimension; none if empty.'
    pub fn common_part(self, other: Rectangle) -> Option<Rectangle> {
        let common = Rectangle {
            ll: [0, 1].map(|d| self.ll[d].max(other.ll[d])),
            ur: [0, 1].map(|d| self.ur[d].min(other.ur[d])),
        };
        if common.is_empty() {
            None
        } else {
            Some(common)
        }
    }

    /// Grow: 'a rectangle grown to take a cell in is the smallest one with both.'
    pub fn grow(self, cell: Cell) -> Rectangle {
        Rectangle {
            ll: [0, 1].map(|d| self.ll[d].min(cell[d])),
            ur: [0, 1].map(|d| self.ur[d].max(cell[d] + 1)),
        }
    }

    /// The number of cells, up to 2^32.
    pub fn area(self) -> u64 {
        u64::from(self.ur[0] - self.ll[0]) * u64::from(self.ur[1] - self.ll[1])
    }

    /// Grow: 'its extra area is new area minus old.' The drawing exercise's; step 2 chooses by the extra
    /// area of a polygon's rectangle (`tree::extra_area`).
    pub fn extra_area(self, cell: Cell) -> u64 {
        self.grow(cell).area() - self.area()
    }
}
