//! The cells of the streams: how they lie, and in which order they come.

use reference::geometry::Cell;
use reference::random::Random;

#[derive(Clone, Copy)]
pub enum Shape {
    /// Anywhere, in any order.
    Random,
    /// Anywhere, from left to right.
    Sorted,
    /// In a square with room for few more than the index holds.
    Crowded,
    /// Side by side.
    Row,
    Diagonal,
    /// Near one of four cells.
    Clusters,
}

pub const SHAPES: [Shape; 6] = [
    Shape::Random,
    Shape::Sorted,
    Shape::Crowded,
    Shape::Row,
    Shape::Diagonal,
    Shape::Clusters,
];

impl Shape {
    pub fn name(self) -> &'static str {
        match self {
            Shape::Random => "random",
            Shape::Sorted => "sorted",
            Shape::Crowded => "crowded",
            Shape::Row => "row",
            Shape::Diagonal => "diagonal",
            Shape::Clusters => "clusters",
        }
    }

    /// Different cells for an index of n parts, more than it can hold where there is room.
    pub fn cells(self, n: usize, random: &mut Random) -> Vec<Cell> {
        let centres = [0; 4].map(|_| [0; 2].map(|_| random.between(100, 65400)));
        let side = (1..).find(|s| s * s >= 12 * n as u32).unwrap_or(1);
        let count = 12 * n as u32;
        let cells = (0..count).map(|i| match self {
            Shape::Random | Shape::Sorted => [0; 2].map(|_| random.between(0, 65535)),
            Shape::Crowded => [0; 2].map(|_| random.between(0, side - 1)),
            Shape::Row => [i, 0],
            Shape::Diagonal => [i, i],
            Shape::Clusters => random.pick(&centres).map(|v| v + random.between(0, 60)),
        });
        let mut cells = different(cells.collect());
        if let Shape::Sorted = self {
            cells.sort_unstable();
        }
        cells
    }
}

/// The cells without those that came before.
fn different(cells: Vec<Cell>) -> Vec<Cell> {
    let mut seen = std::collections::BTreeSet::new();
    cells
        .into_iter()
        .filter(|&cell| seen.insert(cell))
        .collect()
}
