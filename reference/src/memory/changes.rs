//! Insertion and removal on lent numbers.

use super::{image, Reading, Refusal};
use crate::geometry::Cell;

/// Puts the entry in and stores the entries held after, and the total of cells removed by siblings.
/// The work area is zeros after acceptance and after refusals 7 and 8; else a refused call changes
/// nothing. Refusals 1 to 5, 7 and 8.
pub fn insert(
    index: &mut [u32],
    work: &mut [u32],
    cell: Cell,
    tag: u32,
    held: &mut u32,
    removed: &mut u64,
) -> Result<(), Refusal> {
    let mut reading = Reading::of(index);
    let answer = reading.insert(work.len() == index.len(), cell, tag, held, removed);
    match answer {
        Ok(()) => {
            write(index, &reading);
            work.fill(0);
        }
        Err(refusal) if refusal.zeroes_work() => work.fill(0),
        Err(_) => {}
    }
    answer
}

/// Takes the cell's entry out and stores the entries held after. A refused call changes nothing.
/// Refusals 1, 3, 4 and 6.
pub fn remove(index: &mut [u32], cell: Cell, held: &mut u32) -> Result<(), Refusal> {
    let mut reading = Reading::of(index);
    reading.remove(cell, held)?;
    write(index, &reading);
    Ok(())
}

/// Writes the tree at the lowest parts.
fn write(numbers: &mut [u32], reading: &Reading) {
    let index = reading.index().expect("the call was accepted");
    let nodes = index.tree().map_or(0, |tree| tree.nodes());
    let parts: Vec<usize> = (0..nodes).collect();
    numbers.copy_from_slice(&image(index.n(), index.tree(), &parts));
}
