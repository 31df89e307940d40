//! Lists of entries, and the same entries in another order.

use super::queries::cells_of;
use crate::support::shapes::shuffle;
use reference::geometry::{Cell, Rectangle};
use reference::random::Random;
use reference::tree::Entry;

/// Up to so many entries of the square with any tags, in any order.
pub fn entries_in(square: Rectangle, most: usize, random: &mut Random) -> Vec<Entry> {
    let mut cells: Vec<Cell> = cells_of(square).collect();
    shuffle(&mut cells, random);
    cells.truncate(random.between(0, cells.len().min(most) as u32) as usize);
    let entry = |cell| Entry {
        cell,
        tag: random.number() as u32,
    };
    cells.into_iter().map(entry).collect()
}

/// The list in another order.
pub fn rearranged(list: &[Entry], random: &mut Random) -> Vec<Entry> {
    let mut other = list.to_vec();
    match random.between(0, 3) {
        0 => other.reverse(),
        1 => other.sort_by_key(|e| e.cell),
        _ => shuffle(&mut other, random),
    }
    other
}
