//! Trees worked out by hand in which document 02's request A.2 decides: extra area is the number of
//! cells of the grown rectangle that the whole polygon lacks.

use super::build::{leaf, routing, tree};
use reference::geometry::Cell;
use reference::tree::{Branch, Tree};

/// The request's worked stream: before the last cell, whose insertion it speaks of, the polygons of
/// the two leaves.
pub const WORKED_CELLS: [Cell; 12] = [
    [3, 5],
    [6, 3],
    [2, 4],
    [2, 6],
    [2, 3],
    [5, 4],
    [6, 5],
    [4, 4],
    [5, 5],
    [1, 1],
    [4, 1],
    [0, 3],
];
pub const WORKED_FIRST: [[u32; 4]; 2] = [[1, 1, 4, 7], [4, 1, 5, 3]];
pub const WORKED_SECOND: [[u32; 4]; 1] = [[4, 3, 7, 7]];

/// The first leaf's polygon after, and what it would be by area alone.
pub const WORKED_AFTER: [[u32; 4]; 3] = [[1, 1, 4, 7], [0, 1, 4, 4], [4, 1, 5, 3]];
pub const WORKED_BY_AREA: [[u32; 4]; 2] = [[0, 1, 4, 7], [4, 1, 5, 3]];

/// The insertion of the cell, with the tag of `build`, turns the one tree into the other.
pub struct Choice {
    pub name: &'static str,
    pub before: Tree,
    pub cell: Cell,
    pub after: Tree,
}

pub fn choices() -> Vec<Choice> {
    vec![
        own_cells(),
        overlap_once(),
        siblings_cells(),
        cells_outside_the_parent(),
        tie_of_lacking_cells(),
        first_rectangle(),
        branch_before_rectangle(),
        many_pieces(),
        whole_grid(),
    ]
}

/// The first rectangle grows by 8 cells, of which the second has 4; the second grows by 6.
fn own_cells() -> Choice {
    let root = [0, 0, 7, 4];
    let (a, b) = ([0, 0, 4, 4], [4, 0, 7, 2]);
    Choice {
        name: "cells of another rectangle",
        before: tree(root, vec![leaf(&[a, b], &[[0, 0]])]),
        cell: [5, 3],
        after: tree(root, vec![leaf(&[[0, 0, 6, 4], b], &[[0, 0], [5, 3]])]),
    }
}

/// The first branch's first rectangle grows to 8 cells, of which the polygon has 5, three of them
/// twice. The second branch lacks 2.
fn overlap_once() -> Choice {
    let root = [0, 0, 2, 6];
    let a = || leaf(&[[0, 0, 2, 1], [0, 1, 1, 4], [0, 1, 1, 4]], &[[0, 0]]);
    let b = |bottom: u32, cells: &[Cell]| leaf(&[[1, bottom, 2, 6]], cells);
    Choice {
        name: "overlaps count once",
        before: tree(root, vec![a(), b(5, &[[1, 5]])]),
        cell: [1, 3],
        after: tree(root, vec![a(), b(3, &[[1, 5], [1, 3]])]),
    }
}

/// The first branch lacks 8 cells, of which the second has 4; the third lacks 6.
fn siblings_cells() -> Choice {
    let root = [0, 0, 7, 20];
    let first = || leaf(&[[0, 0, 2, 2]], &[[0, 0]]);
    let second = || leaf(&[[2, 0, 4, 20]], &[[2, 0]]);
    let third = |bottom: u32, cells: &[Cell]| leaf(&[[5, bottom, 7, 6]], cells);
    Choice {
        name: "cells of a sibling",
        before: tree(root, vec![first(), second(), third(4, &[[5, 5]])]),
        cell: [5, 1],
        after: tree(root, vec![first(), second(), third(1, &[[5, 5], [5, 1]])]),
    }
}

/// The first branch lacks 10 cells, of which 6 lie outside of the parent; the second lacks 6.
fn cells_outside_the_parent() -> Choice {
    let root = [0, 0, 10, 10];
    let parent = |branches: Vec<Branch>| {
        let polygon = [[0, 0, 10, 2], [0, 2, 2, 10]];
        tree(root, vec![routing(&polygon, branches)])
    };
    let first = || leaf(&[[0, 2, 2, 5]], &[[0, 2]]);
    let second = |left: u32, cells: &[Cell]| leaf(&[[left, 0, 7, 2]], cells);
    Choice {
        name: "cells outside of the parent",
        before: parent(vec![first(), second(6, &[[6, 0]])]),
        cell: [3, 1],
        after: parent(vec![first(), second(3, &[[6, 0], [3, 1]])]),
    }
}

/// Both branches lack 4 cells; by area alone it is 8 and 4.
fn tie_of_lacking_cells() -> Choice {
    let root = [0, 0, 10, 4];
    let (a, b) = ([0, 0, 4, 4], [4, 0, 6, 2]);
    let other = || leaf(&[[7, 2, 9, 4]], &[[8, 2]]);
    Choice {
        name: "first branch on ties",
        before: tree(root, vec![leaf(&[a, b], &[[0, 0]]), other()]),
        cell: [5, 3],
        after: tree(
            root,
            vec![leaf(&[[0, 0, 6, 4]], &[[0, 0], [5, 3]]), other()],
        ),
    }
}

/// Both rectangles of the branch lack 4 cells.
fn first_rectangle() -> Choice {
    let root = [0, 0, 7, 2];
    let (a, b) = ([5, 0, 7, 2], [0, 0, 2, 2]);
    Choice {
        name: "first rectangle on ties",
        before: tree(root, vec![leaf(&[a, b], &[[5, 0]])]),
        cell: [3, 0],
        after: tree(root, vec![leaf(&[[3, 0, 7, 2], b], &[[5, 0], [3, 0]])]),
    }
}

/// The second rectangle of the first branch and the first one of the second branch lack 4 cells.
fn branch_before_rectangle() -> Choice {
    let root = [0, 0, 11, 22];
    let far = [0, 20, 2, 22];
    let other = || leaf(&[[5, 0, 7, 2]], &[[5, 0]]);
    Choice {
        name: "first branch before first rectangle",
        before: tree(root, vec![leaf(&[far, [0, 0, 2, 2]], &[[0, 0]]), other()]),
        cell: [3, 0],
        after: tree(
            root,
            vec![leaf(&[far, [0, 0, 4, 2]], &[[0, 0], [3, 0]]), other()],
        ),
    }
}

/// An arm, and bars above its end, each a little longer than the one below it. With 0 more to each end
/// of each bar it is the worked polygon A2.5.
pub fn arm_and_bars(more: u32) -> Vec<[u32; 4]> {
    let bar = |j: u32| {
        let (reach, y) = (more + 100 * j, 90 + 10 * j);
        [30_000 - reach, y, 30_000 + reach, y + 5]
    };
    let arm = [0, 0, 30_000, 1];
    [arm].into_iter().chain((1..=15).map(bar)).collect()
}

/// The polygon cuts the grown arm into 272 pieces, which no limit forbids; the last 16 of them have a
/// third of the cells. The lowest bar lacks fewer than the arm, but more than the first 256 pieces have.
fn many_pieces() -> Choice {
    let cell = [60_000, 60_000];
    let with = |polygon: &[[u32; 4]], cells: &[Cell]| {
        let other = leaf(&[[0, 1, 1, 2]], &[[0, 1]]);
        tree([0, 0, 60_001, 60_001], vec![leaf(polygon, cells), other])
    };
    let before = arm_and_bars(20_000);
    let mut after = before.clone();
    after[1] = [9_900, 100, 60_001, 60_001];
    Choice {
        name: "more than 256 pieces",
        before: with(&before, &[[0, 0]]),
        cell,
        after: with(&after, &[[0, 0], cell]),
    }
}

/// The first branch lacks 2^32 - 1 cells, the second 2^32 - 65537.
fn whole_grid() -> Choice {
    let root = |end: u32, second: Branch| {
        let first = leaf(&[[0, 0, 1, 1]], &[[0, 0]]);
        tree([0, 0, end, end], vec![first, second])
    };
    let last = [65535, 65535];
    Choice {
        name: "the whole grid",
        before: root(2, leaf(&[[1, 0, 2, 1]], &[[1, 0]])),
        cell: last,
        after: root(65536, leaf(&[[1, 0, 65536, 65536]], &[[1, 0], last])),
    }
}
