//! Polygons and no polygons, for the calls that take one.

use super::{GRID_END, LIST_LIMIT, POLYGON_LIMIT};

/// Rectangles of different sizes that share no cell.
pub fn apart(count: usize) -> Vec<[u32; 4]> {
    let at = |k: u32| [100 * k, 10 * k, 100 * k + 20 + k, 10 * k + 1 + k % 7];
    (0..count as u32).map(at).collect()
}

/// Rectangles with ll >= ur or with ur over 65536 in a dimension.
pub const INVALID: [[u32; 4]; 14] = [
    [7, 0, 7, 9],
    [0, 7, 9, 7],
    [8, 0, 7, 9],
    [0, 8, 9, 7],
    [GRID_END, 0, GRID_END, 1],
    [0, GRID_END, 1, GRID_END],
    [0, 0, GRID_END + 1, 1],
    [0, 0, 1, GRID_END + 1],
    [GRID_END, 0, GRID_END + 1, 1],
    [0, GRID_END, 1, GRID_END + 1],
    [0, 0, u32::MAX, 1],
    [0, 0, 1, u32::MAX],
    [u32::MAX, 0, 1, 1],
    [0, u32::MAX, 1, 1],
];

/// Valid rectangles in lists of every length, with whether it is a polygon's: it has one to sixteen
/// rectangles. Among the others are lengths that would look right if only some of their bits were
/// looked at.
pub fn every_length() -> impl Iterator<Item = (Vec<u32>, bool)> {
    let good: Vec<usize> = (1..=POLYGON_LIMIT).map(|count| 4 * count).collect();
    let long = [1 << 16, 1 << 18].map(|more| good.iter().map(move |length| more + length));
    let lengths: Vec<usize> = (0..=5 * LIST_LIMIT)
        .chain(long.into_iter().flatten())
        .collect();
    lengths.into_iter().map(move |length| {
        let mut numbers = [0, 0, 1, 1].repeat(length / 4 + 1);
        numbers.truncate(length);
        (numbers, good.contains(&length))
    })
}
