//! Built trees in which a leaf grows over the bars of its sibling. The leaf's polygon is a thin arm
//! and a block above it. To take the cell in, the arm lacks fewer cells than the block, since the
//! block has most of the grown arm's cells; so request A.2 grows the arm, and the bars lie wholly
//! inside. By area alone the block would grow, past no bar.

use super::build::{entry, leaf, polygon, tree};
use super::LIST_LIMIT;
use reference::geometry::{Cell, Rectangle};
use reference::tree::{Branch, Entry, Limit, Node, Tree};

/// The cell to which the arm grows.
pub const CELL: Cell = [30_000, 60];

const ARM: [u32; 4] = [30_000, 10, 50_400, 11];
pub const BLOCK: [u32; 4] = [0, 11, 50_000, 60];
pub const ROOT: [u32; 4] = [0, 0, 60_000, 100];

/// The middle of the bars.
pub const MIDDLE: u32 = 50_200;

/// Where the j-th bar ends. Each is longer than the one below it.
pub fn left(j: u32) -> u32 {
    MIDDLE - 10 * j
}

pub fn right(j: u32) -> u32 {
    MIDDLE + 10 * j
}

/// A bar is one row high, and there is one row between two bars.
pub fn row(j: u32) -> u32 {
    11 + 2 * j
}

pub fn bars(n: u32) -> Vec<[u32; 4]> {
    (1..=n)
        .map(|j| [left(j), row(j), right(j), row(j) + 1])
        .collect()
}

/// The leaf that grows, with these rectangles behind the arm and the block.
pub fn growing(others: &[[u32; 4]]) -> Branch {
    leaf(&[&[ARM, BLOCK], others].concat(), &[[ARM[0], ARM[1]]])
}

/// The sibling has n bars, 1 to 16; the leaf that grows has these rectangles more.
pub fn nested(n: u32, others: &[[u32; 4]]) -> Tree {
    let bars = leaf(&bars(n), &[[MIDDLE, row(1)]]);
    tree(ROOT, vec![growing(others), bars])
}

/// The insertion of a cell, by which a leaf grows over the bars of its sibling.
pub struct Inside {
    pub name: String,
    pub tree: Tree,
    pub cell: Cell,
    /// The pieces after the last cut, and the rectangles of the refined polygon; none where the
    /// pieces are too many.
    pub pieces: usize,
    pub refined: usize,
    /// The polygon of the leaf after, or the limit that is passed.
    pub expected: Result<Vec<Rectangle>, Limit>,
}

/// Each number of bars, also with x and y exchanged.
pub fn bars_inside() -> Vec<Inside> {
    let both = |n: u32| [upright(n), on_their_side(n)];
    (1..=16).flat_map(both).collect()
}

/// Each bar crosses all pieces above the bars before, so n bars leave (n + 1)^2 pieces.
fn upright(n: u32) -> Inside {
    let pieces = (n as usize + 1).pow(2);
    let is_over = pieces > LIST_LIMIT;
    Inside {
        name: format!("{n} bars inside"),
        tree: nested(n, &[]),
        cell: CELL,
        pieces,
        refined: if is_over { 0 } else { 3 * n as usize + 2 },
        expected: match n {
            1..=4 => Ok(polygon_over(n)),
            _ if is_over => Err(Limit::AfterCut),
            _ => Err(Limit::Refined),
        },
    }
}

/// With x and y exchanged the bars stand one behind the other in the dimension that is cut first, so
/// each leaves three pieces more.
fn on_their_side(n: u32) -> Inside {
    Inside {
        name: format!("{n} bars inside, turned"),
        tree: turned(&nested(n, &[])),
        cell: [CELL[1], CELL[0]],
        pieces: 3 * n as usize + 1,
        refined: 3 * n as usize + 2,
        expected: match n {
            1..=4 => Ok(turned_polygon_over(n)),
            _ => Err(Limit::Refined),
        },
    }
}

/// The polygon of the leaf that grew over n bars, at most four.
fn polygon_over(n: u32) -> Vec<Rectangle> {
    let above = |j: u32| {
        let next = if j == n { 61 } else { row(j + 1) };
        [left(j), row(j) + 1, right(j), next]
    };
    let mut after = vec![[right(n), 10, 50_400, 61]];
    for j in (2..=n).rev() {
        after.extend([above(j), [right(j - 1), 10, right(j), row(j)]]);
    }
    after.push([30_000, 10, left(n), 61]);
    after.extend((2..=n).rev().map(|j| [left(j), 10, left(j - 1), row(j)]));
    after.extend([above(1), [left(1), 10, right(1), row(1)], BLOCK]);
    polygon(&after)
}

fn turned_polygon_over(n: u32) -> Vec<Rectangle> {
    let mut after = vec![[row(n) + 1, 30_000, 61, 50_400]];
    for j in (1..=n).rev() {
        let before = if j > 1 { row(j) - 1 } else { 10 };
        after.push([before, 30_000, row(j), 50_400]);
        after.push([row(j), right(j), row(j) + 1, 50_400]);
        after.push([row(j), 30_000, row(j) + 1, left(j)]);
    }
    after.push([11, 0, 60, 50_000]);
    polygon(&after)
}

/// The tree with x and y exchanged.
fn turned(tree: &Tree) -> Tree {
    Tree {
        rectangle: turned_rectangle(tree.rectangle),
        root: turned_node(&tree.root),
    }
}

fn turned_rectangle(r: Rectangle) -> Rectangle {
    Rectangle::new(r.ll[1], r.ll[0], r.ur[1], r.ur[0])
}

fn turned_node(node: &Node) -> Node {
    match node {
        Node::Leaf(leaf) => {
            let turned = |e: &Entry| entry([e.cell[1], e.cell[0]]);
            Node::leaf(leaf.entries.iter().map(turned).collect())
        }
        Node::Routing(routing) => {
            let turned = |b: &Branch| Branch {
                child: turned_node(&b.child),
                polygon: b.polygon.iter().map(|&r| turned_rectangle(r)).collect(),
            };
            Node::routing(routing.branches.iter().map(turned).collect())
        }
    }
}
