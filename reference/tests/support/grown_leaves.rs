//! Built streams: from a fresh index to leaves whose polygons are many bars, by insertions and
//! removals alone. A cell that is inserted and removed again leaves the polygon grown.

use super::checked::{Checked, Command};
use super::sound::{views, View};
use reference::geometry::{Cell, Rectangle};
use reference::tree::Node;

/// The width of the columns that the rungs lie in.
pub const WIDTH: u32 = 8;

/// How far the bar reaches that a rung grows past.
const CUTTER: u32 = 20_000;

pub fn put(checked: &mut Checked, cell: Cell) {
    assert_eq!(checked.apply(Command::Insert(cell, 0)), Ok(()), "{cell:?}");
}

pub fn take(checked: &mut Checked, cell: Cell) {
    assert_eq!(checked.apply(Command::Remove(cell)), Ok(()), "{cell:?}");
}

pub fn put_all(checked: &mut Checked, cells: &[Cell]) {
    cells.iter().for_each(|&cell| put(checked, cell));
}

pub fn take_all(checked: &mut Checked, cells: &[Cell]) {
    cells.iter().for_each(|&cell| take(checked, cell));
}

/// Inserts a cell and removes it, so that a polygon stays grown to it.
pub fn touch(checked: &mut Checked, cell: Cell) {
    put(checked, cell);
    take(checked, cell);
}

/// The polygon of the leaf that holds the cell.
pub fn polygon_of(checked: &Checked, cell: Cell) -> Vec<Rectangle> {
    let tree = checked.index.tree().expect("a tree");
    let views = views(tree);
    let holds = |view: &&View| match view.node {
        Node::Leaf(leaf) => leaf.entries.iter().any(|e| e.cell == cell),
        Node::Routing(_) => false,
    };
    views.iter().find(holds).expect("held").polygon.to_vec()
}

/// Eight cells side by side.
pub fn eight(left: u32, row: u32) -> Vec<Cell> {
    (left..left + WIDTH).map(|x| [x, row]).collect()
}

/// From the entries eight(0, row) in a leaf of that row alone: three leaves on the row at x = 0,
/// `middle` and `right`, each with the entry of its leftmost cell; the first two are eight cells
/// wide. What the splits leave between them is removed.
pub fn three_leaves(checked: &mut Checked, row: u32, middle: u32, right: u32) {
    // The mean of nine is just below the group's edge: split there, and drop the ninth's leaf.
    put(checked, [middle, row]);
    touch(checked, [40, row]);
    put_all(checked, &eight(middle, row)[1..]);
    touch(checked, [middle - 30, row]);
    put(checked, [right, row]);
    touch(checked, [middle + 40, row]);
    put_all(checked, &eight(right, row)[1..]);
    touch(checked, [right - 30, row]);
    for left in [0, middle, right] {
        take_all(checked, &eight(left, row)[1..]);
    }
    for left in [0, middle] {
        let base = Rectangle::new(left, row, left + WIDTH, row + 1);
        assert_eq!(polygon_of(checked, [left, row]), [base]);
    }
}

/// Splits a rung whose lowest row is `bottom` and which has the leaf's only entry, at
/// (left, bottom): it grows to nine rows, and the ninth becomes a leaf of its own with an entry at
/// (left, row). Returns that row.
pub fn split_rung(checked: &mut Checked, left: u32, bottom: u32) -> u32 {
    let row = bottom + WIDTH;
    put_all(checked, &eight(left, row));
    take_all(checked, &eight(left, row)[1..]);
    row
}

/// Splits a rung as above and makes a long bar of the half above, which is then dear to grow.
/// Returns the row above the bar.
pub fn rung_to_pass(checked: &mut Checked, left: u32, bottom: u32) -> u32 {
    let row = split_rung(checked, left, bottom);
    touch(checked, [left + CUTTER, row]);
    row + 1
}

/// Adds a rung above the top one: the top one grows past a long bar and so is cut in two, and the
/// bar is removed. Returns the new rung's lowest row, which has the leaf's only entry.
pub fn add_rung(checked: &mut Checked, left: u32, bottom: u32) -> u32 {
    let above = rung_to_pass(checked, left, bottom);
    put(checked, [left, above]);
    take(checked, [left, above - 1]);
    take(checked, [left, bottom]);
    above
}

/// `count` rungs above the one at `bottom`; returns the lowest rows of all, the top one first.
pub fn add_rungs(checked: &mut Checked, left: u32, bottom: u32, count: usize) -> Vec<u32> {
    let mut rows = vec![bottom];
    for _ in 0..count {
        rows.insert(0, add_rung(checked, left, rows[0]));
    }
    rows
}
