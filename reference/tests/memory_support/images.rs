//! Images of trees at parts that the layout admits.

use super::crossed_lines::wheel_tree;
use super::histories::random_history;
use super::trees::{random_tree, tree_of};
use reference::geometry::Rectangle;
use reference::memory::image;
use reference::random::Random;
use reference::tree::Tree;

/// The whole grid.
pub const GRID: Rectangle = Rectangle {
    ll: [0, 0],
    ur: [65536, 65536],
};

/// The number of nodes; none is the empty index.
pub fn nodes(tree: Option<&Tree>) -> usize {
    tree.map_or(0, Tree::nodes)
}

/// The lowest parts, without a gap.
pub fn first_parts(count: usize) -> Vec<usize> {
    (0..count).collect()
}

/// The highest parts, without a gap.
pub fn last_parts(n: usize, count: usize) -> Vec<usize> {
    (n - count..n).collect()
}

/// Any `count` of n parts, in rising order: all choices are equally likely.
pub fn any_parts(n: usize, count: usize, random: &mut Random) -> Vec<usize> {
    let mut parts = Vec::new();
    for k in 0..n {
        let (left, missing) = ((n - k) as u32, (count - parts.len()) as u32);
        if random.between(1, left) <= missing {
            parts.push(k);
        }
    }
    parts
}

/// The tree's image at any parts.
pub fn any_image(n: usize, tree: Option<&Tree>, random: &mut Random) -> Vec<u32> {
    image(n, tree, &any_parts(n, nodes(tree), random))
}

/// A sound tree of at most n nodes, by a history or made directly.
pub fn any_tree(n: usize, random: &mut Random) -> Option<Tree> {
    if random.one_in(3) {
        random_history(n, random)
    } else {
        Some(random_tree(n, random))
    }
}

/// A tree of any kind for the case: a history, one with arms around the middle of each node, or one
/// made directly. Most have at most n nodes.
pub fn tree_of_case(case: u64, n: usize, random: &mut Random) -> Option<Tree> {
    match case % 4 {
        0 => random_history(n, random),
        1 => Some(wheel_tree(1 + case as usize / 4 % 3, random)),
        _ => any_tree(n, random),
    }
}

/// The image of a large tree for the case, full or with gaps.
pub fn large_image(case: u64, random: &mut Random) -> Vec<u32> {
    let n = random.pick(&[64, 200, 255, 256]);
    let tree = match case % 2 {
        0 => random_history(n, random),
        _ => Some(tree_of(5, n, GRID, random)),
    };
    any_image(n, tree.as_ref(), random)
}

/// A small rectangle at an end of the grid or between, and the image of a random tree that has it as
/// the root's. At most so many parts; sides of these lengths.
pub fn small_grid(
    most_parts: u32,
    [shortest, longest]: [u32; 2],
    random: &mut Random,
) -> (Rectangle, Vec<u32>) {
    let n = random.between(1, most_parts) as usize;
    let [width, height] = [0, 1].map(|_| random.between(shortest, longest));
    let [x, y] = random.pick(&[[0, 0], [65536 - width, 65536 - height], [40, 3]]);
    let square = Rectangle::new(x, y, x + width, y + height);
    let levels = random.between(1, n.min(4) as u32) as usize;
    let tree = tree_of(levels, n, square, random);
    (square, any_image(n, Some(&tree), random))
}
