//! Built trees for refusal 7 in which the bars of a sibling lie inside the grown rectangle, as in
//! `nested`: each of step 2's three limits, just below and just above it.

use super::build::{leaf, routing, tree};
use super::nested::{bars, growing, left, nested, right, row, BLOCK, MIDDLE, ROOT};
use reference::tree::Limit::{self, AfterCommonParts, AfterCut, Refined};
use reference::tree::Tree;

/// A tree into which the cell of `nested` is inserted.
pub struct Limited {
    pub name: &'static str,
    pub tree: Tree,
    /// The sizes of step 2's lists: pieces after a cut by one rectangle, at the most; common parts;
    /// rectangles of the refined polygon. 0 where a limit is passed before.
    pub sizes: [usize; 3],
    /// The limit that is passed.
    pub limit: Option<Limit>,
}

/// Just below and just above each limit; and the longest list that is ever refined, of 256 common
/// parts and 15 others.
pub fn limits_inside() -> Vec<Limited> {
    let limited = |name, tree, sizes, limit| Limited {
        name,
        tree,
        sizes,
        limit,
    };
    let pieces = |last| filled(&[], last, &[ROOT]);
    let common = |more| filled(&[], APART, &parts(more));
    let refined = |count| nested(4, &squares(count));
    let others = filled(&[BLOCK; 14], APART, &parts(16));
    let (cut, parts, over) = (Some(AfterCut), Some(AfterCommonParts), Some(Refined));
    vec![
        limited("256 pieces", pieces(APART), [256, 60, 5], None),
        limited("257 pieces", pieces(BELOW), [257, 0, 0], cut),
        limited("256 parts", common(16), [256, 256, 5], None),
        limited("257 parts", common(17), [256, 257, 0], parts),
        limited("256 parts, 15 others", others, [256, 256, 5], None),
        limited("16 rectangles", refined(2), [25, 25, 16], None),
        limited("17 rectangles", refined(3), [25, 25, 17], over),
    ]
}

/// Fifteen bars leave 256 pieces. Leaves that fill the rows between the bars, and the rows beside
/// them, take most of these away again: 60 are left, and the refined polygon is small. The leaf that
/// grows has the others, too, the leaf of the bars the last rectangle; all leaves lie below a node
/// with the parent's polygon.
fn filled(others: &[[u32; 4]], last: [u32; 4], parent: &[[u32; 4]]) -> Tree {
    let bars = [bars(15), vec![last]].concat();
    let mut branches = vec![growing(others), leaf(&bars, &[[MIDDLE, row(1)]])];
    for rows in filling().chunks(14) {
        branches.push(leaf(rows, &[[rows[0][0], rows[0][1]]]));
    }
    tree(ROOT, vec![routing(parent, branches)])
}

/// What the bars leave free of the smallest rectangle around them, from the top down, so that no cut
/// gives more pieces than there were.
fn filling() -> Vec<[u32; 4]> {
    let (from, to) = (left(15), right(15));
    let beside = |j: u32| {
        let y = row(j);
        let between = [from, y + 1, to, y + 2];
        [between, [right(j), y, to, y + 1], [from, y, left(j), y + 1]]
    };
    (1..15).rev().flat_map(beside).collect()
}

/// A rectangle that the grown arm does not reach.
const APART: [u32; 4] = [50_600, 11, 50_620, 12];

/// One that cuts the piece below the shortest bar in two.
const BELOW: [u32; 4] = [50_190, 11, 50_210, 12];

/// A parent that has four common parts with each of the 60 pieces, and one more with so many of them,
/// 16 or more.
fn parts(more: u32) -> Vec<[u32; 4]> {
    let strip = [left(15), 50, right(more - 14), 55];
    [vec![ROOT; 4], vec![strip]].concat()
}

/// Squares that no rule of refine applies to.
fn squares(count: u32) -> Vec<[u32; 4]> {
    let square = |i: u32| [59_000 + 3 * i, 90 + 3 * i, 59_001 + 3 * i, 91 + 3 * i];
    (0..count).map(square).collect()
}
