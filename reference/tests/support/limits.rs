//! Built cases for refusal 7: indexes where the insertion of one cell meets a limit of step 2, just
//! below and just above it.

use super::build::{leaf, routing, tree};
use super::checked::Checked;
use super::trace::{trace, Sizes};
use super::{cut_by_siblings, grown_leaves, over_sibling, parent};
use reference::geometry::Cell;
use reference::tree::{Branch, Entry, Node, Tree};

/// The sizes of step 2's lists where the cell is inserted next.
pub fn sizes(checked: &Checked, cell: [u32; 2]) -> Sizes {
    let tree = checked.index.tree().expect("a tree");
    trace(tree, Entry { cell, tag: 0 }).sizes
}

/// Thirty ends: so many bars end one column past EDGE, so many two columns past it, and so on.
fn ends(counts: &[usize]) -> Vec<u32> {
    let groups = counts.iter().zip(1..);
    groups.flat_map(|(&count, end)| vec![end; count]).collect()
}

/// Each column that bars end in has one piece more than bars that reach it, and there is one
/// column more.
pub fn pieces(counts: &[usize]) -> usize {
    let reaching = |column: usize| counts[column..].iter().sum::<usize>();
    let columns = (0..counts.len()).map(|column| reaching(column) + 1);
    columns.sum::<usize>() + 1
}

/// The bars in a fresh index, the rows between them filled, and the cell to grow to.
pub fn filled_bars(counts: &[usize]) -> (Checked, [u32; 2]) {
    let mut checked = Checked::new(7, format!("bars {counts:?}"));
    grown_leaves::put_all(&mut checked, &grown_leaves::eight(0, 0));
    let cell = cut_by_siblings::build(&mut checked, 0, &ends(counts), true);
    assert_eq!(sizes(&checked, cell).after_cut, pieces(counts));
    (checked, cell)
}

/// Bars that leave 256 pieces in the middle of the cuts, and 257.
pub const PIECES_256: [usize; 10] = [1, 1, 1, 1, 2, 2, 1, 1, 2, 18];
pub const PIECES_257: [usize; 10] = [1, 1, 1, 1, 2, 2, 1, 1, 1, 19];

/// Bars with about 256 pieces.
pub fn around_the_limit() -> Vec<Vec<usize>> {
    let middles = [[2, 2, 1], [2, 1, 2], [1, 2, 2], [1, 1, 3]];
    let with_last =
        |middle: &[usize], last: usize| [&[1, 1, 1, 1], middle, &[1, 20 - last, last]].concat();
    let all = middles
        .iter()
        .flat_map(|middle| (15..=19).map(|last| with_last(middle, last)));
    all.collect()
}

/// Bars that have 256 common parts with the parent's two rectangles, and 258.
pub const PARTS_256: [usize; 5] = [2, 3, 4, 3, 18];
pub const PARTS_258: [usize; 5] = [2, 3, 4, 2, 19];

/// Bars below a parent whose polygon has two rectangles over all of them, and the cell to grow to.
pub fn below_a_parent(counts: &[usize]) -> (Checked, Cell) {
    let mut checked = Checked::new(12, format!("bars {counts:?} below a parent"));
    let row = parent::build(&mut checked);
    let cell = cut_by_siblings::build(&mut checked, row, &ends(counts), false);
    (checked, cell)
}

/// Moves one of the filled rows from the last leaf but one to the end of the upper bars' list,
/// where it takes the place of their base. The tree stays sound.
pub fn row_after_the_bars(mut tree: Tree) -> Tree {
    let Node::Routing(root) = &mut tree.root else {
        panic!("the root is a leaf");
    };
    let [_, upper, _, filling, _] = &mut root.branches[..] else {
        panic!("not five leaves");
    };
    let full = cut_by_siblings::EDGE + PIECES_256.len() as u32;
    let row = filling.polygon.iter().rposition(|r| r.ur[0] == full);
    upper.polygon.pop();
    upper
        .polygon
        .push(filling.polygon.remove(row.expect("a row")));
    tree
}

/// A leaf below a parent with a block and fifteen rectangles across it. The leaf grows over bars
/// that stand side by side and have these tops; each leaves one piece above it.
pub fn across(tops: &[u32]) -> Tree {
    let block = [0, 0, 2000, 22_000];
    let rungs = (0..15).map(|j| [0, 20_100 + 100 * j, 3000, 20_110 + 100 * j]);
    let parent: Vec<[u32; 4]> = [block].into_iter().chain(rungs).collect();
    let bars: Vec<[u32; 4]> = tops
        .iter()
        .zip(0..)
        .map(|(&top, i)| [20 + 10 * i, 0, 30 + 10 * i, top])
        .collect();
    let every_second = |first: usize| -> Branch {
        let own: Vec<[u32; 4]> = bars.iter().skip(first).step_by(2).copied().collect();
        leaf(&own, &[[own[0][0], 0]])
    };
    let growing = leaf(&[[0, 20_000, 10, 21_900]], &[[0, 20_000]]);
    let branches = vec![every_second(0), every_second(1), growing];
    tree([0, 0, 3000, 22_000], vec![routing(&parent, branches)])
}

/// The cell to which the leaf grows over the bars.
pub const ACROSS_CELL: Cell = [199, 21_899];

/// A leaf's polygon of 16 rectangles in a fresh index, and the cell that makes them 17.
pub fn rungs() -> (Checked, Cell) {
    let mut checked = Checked::new(6, "rungs".to_string());
    grown_leaves::put_all(&mut checked, &grown_leaves::eight(0, 0));
    grown_leaves::three_leaves(&mut checked, 0, 2000, 60_000);
    let rows = grown_leaves::add_rungs(&mut checked, 0, 0, 15);
    assert_eq!(grown_leaves::polygon_of(&checked, [0, rows[0]]).len(), 16);
    let above = grown_leaves::rung_to_pass(&mut checked, 0, rows[0]);
    (checked, [0, above])
}

/// How far bars reach that lie inside the grown rectangle: the refined polygon has 16 rectangles, or
/// 17; there are 256 pieces after the cuts, or 257.
pub const REFINED_16: [u32; 6] = [0, 0, 0, 1, 2, 3];
pub const REFINED_17: [u32; 5] = [0, 1, 2, 3, 4];
pub const INSIDE_256: [u32; 15] = [0, 1, 2, 3, 4, 5, 6, 7, 8, 9, 10, 11, 12, 13, 14];
pub const INSIDE_257: [u32; 16] = [0, 0, 1, 2, 3, 4, 5, 6, 7, 8, 9, 10, 11, 12, 13, 14];

/// The bars in a fresh index, and the cell to which a leaf grows over all of them. By area alone
/// another of its rectangles would grow, past no bar.
pub fn over_bars(reaches: &[u32]) -> (Checked, Cell) {
    let mut checked = Checked::new(5, format!("over bars {reaches:?}"));
    let cell = over_sibling::build(&mut checked, reaches);
    (checked, cell)
}
