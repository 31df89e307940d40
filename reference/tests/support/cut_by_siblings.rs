//! A built stream to a leaf that stands before bars with a stair of ends: two leaves of fifteen
//! bars each, perhaps two leaves that fill the rows between the bars, and the leaf that grows past
//! them.

use super::checked::Checked;
use super::grown_leaves::{
    add_rungs, eight, polygon_of, put, put_all, split_rung, take, take_all, three_leaves, touch,
};
use reference::geometry::{Cell, Rectangle};

/// The bars end some columns past this one, where the growing leaf begins.
pub const EDGE: u32 = 30_000;

/// The columns of the leaf that grows.
pub const COLUMNS: u32 = 16;

/// The left ends of the filling leaves, and of the growing one until it is moved.
const FILLING: u32 = 2_000;
const FAR: u32 = 60_000;

/// Builds the leaves from the entries eight(0, row) in a leaf of that row alone. `ends` are the
/// bars' ends past EDGE in the order in which the bars are cut by: thirty, none smaller than the
/// one before. Returns a cell to which the last leaf grows past all bars.
pub fn build(checked: &mut Checked, row: u32, ends: &[u32], filled: bool) -> Cell {
    assert_eq!(ends.len(), 30);
    three_leaves(checked, row, FILLING, FAR);
    let lower = add_rungs(checked, 0, row, 15);
    let base = split_rung(checked, 0, lower[0]);
    let upper = add_rungs(checked, 0, base, 15);
    // The base of each leaf stays as it is; from the top down no other rectangle is cheaper.
    extend(checked, &upper[..15], &ends[15..]);
    extend(checked, &lower[..15], &ends[..15]);
    if filled {
        fill(checked, &lower, &upper, ends);
    } else {
        take(checked, [FILLING, row]);
    }
    move_growing_leaf(checked, row);
    [EDGE + COLUMNS - 1, upper[0] + 4]
}

/// Makes bars of the rungs with these lowest rows.
fn extend(checked: &mut Checked, rows: &[u32], ends: &[u32]) {
    for (row, end) in rows.iter().zip(ends) {
        touch(checked, [EDGE + end - 1, *row]);
    }
}

/// A thin leaf grows past the lower bars and is cut into the rows between them; its top is split
/// off and does the same with the upper bars. Each row is then filled up to the longer bar's end.
fn fill(checked: &mut Checked, lower: &[u32], upper: &[u32], ends: &[u32]) {
    let base = upper[15];
    put(checked, [FILLING, base]);
    take(checked, [FILLING, lower[15]]);
    split_rung(checked, FILLING, base);
    put(checked, [FILLING, upper[0] - 1]);
    for (rows, ends) in [(lower, &ends[..15]), (upper, &ends[15..])] {
        for j in 0..14 {
            touch(checked, [EDGE + ends[j + 1] - 1, rows[j] - 1]);
        }
    }
}

/// The leaf at FAR grows to EDGE on its row, and splits leave it there alone.
fn move_growing_leaf(checked: &mut Checked, row: u32) {
    put_all(checked, &eight(EDGE, row));
    take(checked, [FAR, row]);
    touch(checked, [EDGE + 40, row]);
    take_all(checked, &eight(EDGE, row)[1..]);
    touch(checked, [EDGE + COLUMNS - 1, row]);
    let grown = Rectangle::new(EDGE, row, EDGE + COLUMNS, row + 1);
    assert_eq!(polygon_of(checked, [EDGE, row]), [grown]);
}
