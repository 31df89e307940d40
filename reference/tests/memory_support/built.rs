//! Sound trees built by hand for one purpose each.

use super::trees::entries;
use crate::support::build::{entry, leaf, polygon, rectangle, routing, tree};
use reference::geometry::Rectangle;
use reference::random::Random;
use reference::tree::{Branch, Node, Tree};

/// All trees of this file, with names.
pub fn built_trees() -> Vec<(&'static str, Tree)> {
    vec![
        ("one entry", one_leaf([10, 10, 11, 11], &[[10, 10]])),
        ("last cell of the grid", last_cell()),
        ("unrefined and overlapping", unrefined()),
        ("over four of the parent's", over_four()),
        ("over sixteen of the parent's", over_sixteen()),
        ("covered by the last of sixteen", covered_by_the_last()),
        ("eight leaves of eight", eight_of_eight()),
        ("siblings side by side", side_by_side()),
        ("chain of 3", chain(3)),
        ("chain of 8", chain(8)),
    ]
}

fn one_leaf(root: [u32; 4], cells: &[[u32; 2]]) -> Tree {
    Tree {
        rectangle: rectangle(root),
        root: Node::leaf(cells.iter().map(|&c| entry(c)).collect()),
    }
}

fn last_cell() -> Tree {
    let last = [65535, 65535, 65536, 65536];
    let others = [[0, 0, 65535, 65536], [65535, 0, 65536, 65535]];
    let branches = vec![
        leaf(&[last], &[[65535, 65535]]),
        leaf(&others, &[[0, 0], [65534, 65535], [65535, 65534]]),
    ];
    tree([0, 0, 65536, 65536], branches)
}

/// Equal, contained, joinable and overlapping rectangles in one polygon.
fn unrefined() -> Tree {
    let left = [[0, 0, 2, 4], [0, 0, 2, 4], [1, 1, 2, 2], [2, 0, 4, 4]];
    let right = [[4, 0, 7, 5], [6, 3, 9, 9], [5, 1, 8, 4]];
    let branches = vec![
        leaf(&left, &[[0, 0], [3, 3], [1, 1]]),
        leaf(&right, &[[6, 3], [8, 8]]),
    ];
    tree([0, 0, 9, 9], branches)
}

/// The child's rectangle has cells of all four rectangles of its parent, which leave no hole.
fn over_four() -> Tree {
    let parent = [[0, 0, 4, 6], [4, 0, 9, 3], [3, 6, 9, 9], [4, 3, 9, 6]];
    let children = vec![
        leaf(&[[3, 2, 8, 6], [3, 6, 9, 8]], &[[3, 2], [7, 5], [8, 7]]),
        leaf(&[[0, 0, 3, 6], [3, 0, 9, 2]], &[[0, 5], [8, 1]]),
    ];
    tree([0, 0, 9, 9], vec![routing(&parent, children)])
}

/// The parent is a square of four by four tiles; the child is one rectangle over all of them.
fn over_sixteen() -> Tree {
    let tiles: Vec<[u32; 4]> = (0..16)
        .map(|i| [i % 4 * 5, i / 4 * 5])
        .map(|[x, y]| [x, y, x + 5, y + 5])
        .collect();
    let child = leaf(&[[0, 0, 20, 20]], &[[0, 0], [19, 19], [5, 5]]);
    tree([0, 0, 20, 20], vec![routing(&tiles, vec![child])])
}

/// Fifteen scattered squares cut the child into many pieces; the sixteenth rectangle has all.
fn covered_by_the_last() -> Tree {
    let mut rectangles: Vec<[u32; 4]> = scattered(15);
    rectangles.push([0, 0, 64, 64]);
    let child = leaf(&[[0, 0, 64, 64]], &[[1, 1], [63, 63]]);
    tree([0, 0, 64, 64], vec![routing(&rectangles, vec![child])])
}

/// Squares with no row and no column in common.
pub fn scattered(count: u32) -> Vec<[u32; 4]> {
    let square = |i: u32| [4 * i + 1, 4 * i + 1, 4 * i + 3, 4 * i + 3];
    (0..count).map(square).collect()
}

/// Sixteen scattered squares and a child that they do not cover: not sound. Cut by them, the
/// child's rectangle falls into 289 pieces.
pub fn not_covered() -> Tree {
    let child = leaf(&[[0, 0, 65, 65]], &[[1, 1]]);
    tree([0, 0, 65, 65], vec![routing(&scattered(16), vec![child])])
}

/// Eight leaves of eight entries each.
pub fn eight_of_eight() -> Tree {
    let column = |i: u32| {
        let cells: Vec<[u32; 2]> = (0..8).map(|y| [10 * i + y, y]).collect();
        leaf(&[[10 * i, 0, 10 * i + 10, 8]], &cells)
    };
    tree([0, 0, 80, 8], (0..8).map(column).collect())
}

/// Siblings with shared edges and corners, and entries at all of them.
fn side_by_side() -> Tree {
    let square = |i: u32| {
        let [x, y] = [i % 2 * 3, i / 2 * 3];
        let cells = [[x, y], [x + 2, y], [x, y + 2], [x + 2, y + 2]];
        leaf(&[[x, y, x + 3, y + 3]], &cells)
    };
    let right = vec![square(1), square(3)];
    let left = vec![square(0), square(2)];
    let branches = vec![
        routing(&[[3, 0, 6, 3], [3, 3, 6, 6]], right),
        routing(&[[0, 0, 3, 6]], left),
    ];
    tree([0, 0, 6, 6], branches)
}

/// A chain of one-branch nodes with that many levels.
pub fn chain(levels: usize) -> Tree {
    let root = rectangle([7, 9, 1007, 1009]);
    let cells = [[7, 9], [1006, 1008], [500, 500]];
    let mut node = Node::leaf(cells.iter().map(|&c| entry(c)).collect());
    for _ in 1..levels {
        let polygon = vec![root];
        node = Node::routing(vec![Branch {
            child: node,
            polygon,
        }]);
    }
    Tree {
        rectangle: root,
        root: node,
    }
}

/// The tree below so many one-branch nodes, which all have the root's rectangle.
pub fn below(tree: &Tree, levels: usize) -> Tree {
    let mut root = tree.root.clone();
    for _ in 0..levels {
        root = Node::routing(vec![Branch {
            child: root,
            polygon: vec![tree.rectangle],
        }]);
    }
    Tree {
        rectangle: tree.rectangle,
        root,
    }
}

/// A chain whose polygons have sixteen rectangles, others at each level, and equal cells.
pub fn chain_of_sixteens(levels: usize, random: &mut Random) -> Tree {
    let root = rectangle([0, 0, 65536, 65536]);
    let mut node = Node::leaf(entries(&[root], random));
    for _ in 1..levels {
        let polygon = sixteen_strips(random);
        node = Node::routing(vec![Branch {
            child: node,
            polygon,
        }]);
    }
    Tree {
        rectangle: root,
        root: node,
    }
}

/// The whole grid as strips in one dimension, some of which overlap.
fn sixteen_strips(random: &mut Random) -> Vec<Rectangle> {
    let grid = polygon(&[[0, 0, 65536, 65536]])[0];
    let d = random.between(0, 1) as usize;
    (0..16)
        .map(|i| (4096 * i, 4096 * (i + 1)))
        .map(|(from, to)| grid.with_range(d, from, to + from / 16 * random.between(0, 1)))
        .map(|r| r.common_part(grid).expect("a strip"))
        .collect()
}
