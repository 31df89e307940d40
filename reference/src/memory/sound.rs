//! Document 01, 'Sound means', clause by clause.

use crate::geometry::{contains, is_cell, Rectangle, POLYGON_LIMIT};
use crate::tree::{Branch, Entry, Node, Tree, F};

pub fn is_sound(tree: &Tree) -> bool {
    let root = [tree.rectangle];
    is_polygon(&root)
        && is_sound_node(&tree.root, &root)
        && are_equally_deep(&tree.root, tree.height())
        && are_of_different_cells(&tree.entries())
}

/// '1 to 16 rectangles', each with 'll < ur in both dimensions' and on the grid.
fn is_polygon(rectangles: &[Rectangle]) -> bool {
    (1..=POLYGON_LIMIT).contains(&rectangles.len()) && rectangles.iter().all(|r| r.is_valid())
}

/// A node with its polygon, and all below it.
fn is_sound_node(node: &Node, polygon: &[Rectangle]) -> bool {
    let fits = (1..=F).contains(&node.count());
    fits && match node {
        Node::Leaf(leaf) => leaf.entries.iter().all(|e| is_inside(e, polygon)),
        Node::Routing(routing) => {
            let fits = |b: &Branch| is_sound_branch(b, polygon);
            routing.branches.iter().all(fits) && share_no_cell(&routing.branches)
        }
    }
}

/// 'A leaf's polygon contains its entries.'
fn is_inside(entry: &Entry, polygon: &[Rectangle]) -> bool {
    is_cell(entry.cell) && contains(polygon, entry.cell).has
}

/// 'A child's cells lie among its parent's.'
fn is_sound_branch(branch: &Branch, parent: &[Rectangle]) -> bool {
    is_polygon(&branch.polygon)
        && branch.polygon.iter().all(|&r| is_covered(r, parent))
        && is_sound_node(&branch.child, &branch.polygon)
}

/// Every cell of the rectangle is in one of the others. The others' sides cut the rectangle into
/// boxes; all cells of a box are in the same ones, so its first cell stands for them.
pub fn is_covered(rectangle: Rectangle, others: &[Rectangle]) -> bool {
    let [xs, ys] = [0, 1].map(|d| first_coordinates(rectangle, others, d));
    let is_in_one = |x: u32, y: u32| others.iter().any(|r| r.has([x, y]));
    xs.iter().all(|&x| ys.iter().all(|&y| is_in_one(x, y)))
}

/// The first coordinates of the boxes in one dimension.
fn first_coordinates(rectangle: Rectangle, others: &[Rectangle], d: usize) -> Vec<u32> {
    let sides = others.iter().flat_map(|r| [r.ll[d], r.ur[d]]);
    let mut coordinates: Vec<u32> = sides
        .filter(|&v| rectangle.ll[d] < v && v < rectangle.ur[d])
        .collect();
    coordinates.push(rectangle.ll[d]);
    coordinates.sort_unstable();
    coordinates.dedup();
    coordinates
}

/// 'Siblings share no cell.'
fn share_no_cell(siblings: &[Branch]) -> bool {
    siblings.iter().enumerate().all(|(i, a)| {
        let share = |b: &Branch| {
            let in_b = |r: &Rectangle| b.polygon.iter().any(|&s| r.common_part(s).is_some());
            a.polygon.iter().any(in_b)
        };
        !siblings[i + 1..].iter().any(share)
    })
}

/// 'Leaves are equally deep.'
fn are_equally_deep(node: &Node, levels: usize) -> bool {
    match node {
        Node::Leaf(_) => levels == 1,
        Node::Routing(routing) => {
            let branches = &routing.branches;
            levels > 1
                && branches
                    .iter()
                    .all(|b| are_equally_deep(&b.child, levels - 1))
        }
    }
}

/// 'No cell has two entries.'
fn are_of_different_cells(entries: &[Entry]) -> bool {
    let mut cells: Vec<_> = entries.iter().map(|e| e.cell).collect();
    cells.sort_unstable();
    cells.windows(2).all(|pair| pair[0] != pair[1])
}
