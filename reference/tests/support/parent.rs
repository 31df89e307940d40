//! A built stream to a routing node whose polygon is two large rectangles that overlap.

use super::checked::Checked;
use super::grown_leaves::{eight, put, put_all, split_rung, take, take_all, touch};
use reference::geometry::{Cell, Rectangle};
use reference::tree::Node;

/// The two rectangles' columns.
const WIDE: u32 = 61_000;
const NARROW: u32 = 30_100;

/// The rows that both have above the lowest of the wide one.
const COMMON_ROWS: u32 = 400;

/// The polygons of the root's branches.
fn polygons(checked: &Checked) -> Vec<Vec<Rectangle>> {
    let tree = checked.index.tree().expect("a tree");
    match &tree.root {
        Node::Leaf(_) => Vec::new(),
        Node::Routing(root) => root.branches.iter().map(|b| b.polygon.clone()).collect(),
    }
}

/// Builds the node from a fresh index. It has one leaf, of one row in both rectangles, with the
/// entries eight(0, row). Returns the row.
pub fn build(checked: &mut Checked) -> u32 {
    let (lower, upper) = two_nodes(checked);
    let top = pass(checked, lower, upper);
    grow_both(checked, top);
    single_row(checked, top)
}

/// A column of cells until the root is split: two routing nodes, one above the other. Returns the
/// lower one's rectangle and the upper one's.
fn two_nodes(checked: &mut Checked) -> (Rectangle, Rectangle) {
    for y in 0.. {
        put(checked, [0, y]);
        if checked.index.height() == 3 {
            break;
        }
    }
    let polygons = polygons(checked);
    assert_eq!(polygons.len(), 2);
    (polygons[0][0], polygons[1][0])
}

/// The upper node becomes a long bar, the lower one grows past it, the upper one is removed.
/// Returns the row of the lower one's new rectangle, with its only entry.
fn pass(checked: &mut Checked, lower: Rectangle, upper: Rectangle) -> u32 {
    let top = upper.ur[1];
    let column = |from: u32, to: u32| -> Vec<Cell> { (from..to).map(|y| [0, y]).collect() };
    take_all(checked, &column(upper.ll[1] + 1, top));
    touch(checked, [WIDE - 1, top - 1]);
    put(checked, [0, top]);
    take(checked, [0, upper.ll[1]]);
    take_all(checked, &column(0, lower.ur[1]));
    top
}

/// The upper rectangle becomes wide, the lower one high, each where it is the cheaper one.
fn grow_both(checked: &mut Checked, top: u32) {
    touch(checked, [0, top + COMMON_ROWS - 1]);
    touch(checked, [WIDE - 1, top + COMMON_ROWS - 1]);
    let high = 2 * COMMON_ROWS + top + 100;
    touch(checked, [NARROW - 1, high - 1]);
    let wide = Rectangle::new(0, top, WIDE, top + COMMON_ROWS);
    let narrow = Rectangle::new(0, 0, NARROW, high);
    assert_eq!(polygons(checked), [[wide, narrow]]);
}

/// Splits below and above a row leave a leaf of that row alone.
fn single_row(checked: &mut Checked, top: u32) -> u32 {
    let row = split_rung(checked, 0, top);
    take(checked, [0, top]);
    put_all(checked, &eight(0, row)[1..]);
    touch(checked, [0, row + 8]);
    row
}
