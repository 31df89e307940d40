//! Trees built by hand in which siblings remove cells of a grown rectangle (document 02's request
//! A.6), with the number of these cells.

use super::build::{leaf, routing, tree};
use reference::geometry::Cell;
use reference::tree::{Branch, Tree};

/// The insertion of the cell removes so many cells.
pub struct Crowded {
    pub name: &'static str,
    pub tree: Tree,
    pub cell: Cell,
    pub removed: u64,
}

/// The strip below all others that grows upwards to the cell. The grown one is (0,0)-(10,20): 190
/// cells that the strip lacks. Each rectangle of the siblings below is wider and lacks 200 or more.
const STRIP: [u32; 4] = [0, 0, 10, 1];
const CELL: Cell = [0, 19];
const ROOT: [u32; 4] = [0, 0, 20, 20];

fn strip() -> Branch {
    leaf(&[STRIP], &[[0, 0]])
}

pub fn crowded() -> Vec<Crowded> {
    vec![
        one_sibling(),
        overlaps_of_a_sibling(),
        two_siblings(),
        own_cells(),
        cells_outside_the_parent(),
        growth_of_the_root(),
        nothing_grows(),
    ]
}

fn with_siblings(name: &'static str, siblings: Vec<Branch>, removed: u64) -> Crowded {
    Crowded {
        name,
        tree: tree(ROOT, [vec![strip()], siblings].concat()),
        cell: CELL,
        removed,
    }
}

/// The sibling reaches 10 columns past the grown strip, and these do not count.
fn one_sibling() -> Crowded {
    let sibling = leaf(&[[0, 1, 20, 10]], &[[5, 5]]);
    with_siblings("a sibling", vec![sibling], 90)
}

/// Rows 4 and 5 are in three rectangles of the sibling, rows 1 to 3 in two.
fn overlaps_of_a_sibling() -> Crowded {
    let (lower, upper) = ([0, 1, 20, 6], [0, 4, 20, 10]);
    let sibling = leaf(&[lower, upper, lower], &[[5, 5]]);
    with_siblings("overlaps of a sibling", vec![sibling], 90)
}

/// Two rows between the siblings are free. One stands before the strip.
fn two_siblings() -> Crowded {
    let lower = leaf(&[[0, 1, 20, 4]], &[[5, 2]]);
    let upper = leaf(&[[0, 6, 20, 10]], &[[5, 8]]);
    Crowded {
        name: "two siblings",
        tree: tree(ROOT, vec![upper, strip(), lower]),
        cell: CELL,
        removed: 70,
    }
}

/// The strip's own leaf has two rows of the grown strip, which are not removed.
fn own_cells() -> Crowded {
    let own = leaf(&[[0, 0, 8, 1], [0, 10, 20, 12]], &[[0, 0]]);
    let sibling = leaf(&[[0, 1, 20, 10]], &[[5, 5]]);
    Crowded {
        name: "own cells",
        tree: tree(ROOT, vec![own, sibling]),
        cell: CELL,
        removed: 72,
    }
}

/// The node above has the cell, so nothing grows there. Of the grown strip 56 cells are lost
/// because the parent lacks them.
fn cells_outside_the_parent() -> Crowded {
    let sibling = leaf(&[[0, 1, 20, 10]], &[[5, 5]]);
    let parent = routing(&[[0, 0, 20, 12], [0, 12, 3, 20]], vec![strip(), sibling]);
    Crowded {
        name: "cells outside of the parent",
        tree: tree(ROOT, vec![parent]),
        cell: CELL,
        removed: 90,
    }
}

/// The root's rectangle grows by 200 cells.
fn growth_of_the_root() -> Crowded {
    let mut crowded = one_sibling();
    crowded.name = "growth of the root";
    crowded.tree.rectangle.ur[1] = 10;
    crowded
}

/// A branch has the cell.
fn nothing_grows() -> Crowded {
    let sibling = leaf(&[[0, 1, 20, 20]], &[[5, 5]]);
    with_siblings("nothing grows", vec![sibling], 0)
}
