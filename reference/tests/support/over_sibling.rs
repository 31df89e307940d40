//! A built stream, from a fresh index by insertions and removals alone, to a leaf that grows over the
//! bars of its sibling as in `nested`: its arm lies below the bars, its block beside them.

use super::checked::Checked;
use super::grown_leaves::{
    add_rungs, eight, polygon_of, put, put_all, take, take_all, touch, WIDTH,
};
use reference::geometry::{Cell, Rectangle};

/// The first columns of three leaves, each eight wide: the bars' leaf; the post, which parts the arm
/// from the block and is removed then; the leaf that grows.
const BARS: u32 = 100;
const POST: u32 = 140;
const FOOT: u32 = 1_000;

/// The row that they begin on. The leaf that grows is moved down to row 0.
const ROW: u32 = 40;

/// Where the block ends.
const END: u32 = 65_000;

/// Builds the leaves. `reaches` says how far each bar reaches past the leaf's eight columns, on both
/// sides, in the order in which the bars are cut by: from the top down, none less than the one before.
/// Returns the cell to which the arm grows over all bars.
pub fn build(checked: &mut Checked, reaches: &[u32]) -> Cell {
    near_leaves(checked);
    arm_before_the_post(checked);
    let rows = add_rungs(checked, BARS, ROW, reaches.len() - 1);
    touch(checked, [BARS, rows[0] + WIDTH - 1]);
    for (&row, &reach) in rows.iter().zip(reaches).filter(|(_, &reach)| reach > 0) {
        touch(checked, [BARS + WIDTH + reach - 1, row]);
        touch(checked, [BARS - reach, row]);
    }
    let top = rows[0] + WIDTH + 1;
    raise_block(checked, top);
    [20_000, top]
}

/// The three leaves on their row, with an entry each. A ninth entry leaves a line at the edge of the
/// eight beside it; what lies behind the line is removed.
fn near_leaves(checked: &mut Checked) {
    put_all(checked, &eight(BARS, ROW));
    put(checked, [FOOT, ROW]);
    put(checked, [POST, ROW]);
    put_all(checked, &eight(POST, ROW)[1..]);
    touch(checked, [POST + 40, ROW]);
    touch(checked, [POST - 30, ROW]);
    put_all(checked, &eight(FOOT, ROW)[1..]);
    touch(checked, [FOOT - 30, ROW]);
    for left in [BARS, POST, FOOT] {
        take_all(checked, &eight(left, ROW)[1..]);
        let base = Rectangle::new(left, ROW, left + WIDTH, ROW + 1);
        assert_eq!(polygon_of(checked, [left, ROW]), [base]);
    }
}

/// The post reaches down to row 1. The leaf that grows is moved down to row 0 and becomes a long
/// arm there; one row higher, the post cuts it in three. What lies past the post is to be the block.
fn arm_before_the_post(checked: &mut Checked) {
    touch(checked, [POST, 1]);
    put_all(checked, &eight(FOOT, 0));
    take(checked, [FOOT, ROW]);
    touch(checked, [FOOT, 8]);
    take_all(checked, &eight(FOOT, 0)[1..]);
    touch(checked, [0, 0]);
    touch(checked, [FOOT, 1]);
    take(checked, [POST, ROW]);
    touch(checked, [END - 1, 1]);
}

/// The block grows a few rows at a time, so that no bar is cheaper; then the arm reaches to it.
fn raise_block(checked: &mut Checked, top: u32) {
    for y in (2..top).step_by(7).chain([top - 1]) {
        touch(checked, [END - 1, y]);
    }
    touch(checked, [POST + WIDTH - 1, 1]);
    let block = Rectangle::new(POST + WIDTH, 0, END, top);
    let arm = Rectangle::new(0, 0, POST + WIDTH, 2);
    assert_eq!(polygon_of(checked, [FOOT, 0]), [block, arm]);
}
