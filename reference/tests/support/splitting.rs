//! Step 4 by the tests' own means: from the tree with nine entries in a leaf to the tree after,
//! with the routing node's line taken from all whole l.

use reference::geometry::{refine, Rectangle};
use reference::tree::{leaf_line, Branch, Entry, Line, Node, Tree};

/// The most entries or branches of a node.
const F: usize = 8;

/// The tree with every node of nine split, from the leaves up.
pub fn settle(unsplit: &Tree) -> Tree {
    let whole = Branch {
        child: unsplit.root.clone(),
        polygon: vec![unsplit.rectangle],
    };
    let mut halves = settle_branch(whole);
    let root = match halves.len() {
        1 => halves.remove(0).child,
        _ => Node::routing(halves),
    };
    Tree {
        rectangle: unsplit.rectangle,
        root,
    }
}

fn settle_branch(branch: Branch) -> Vec<Branch> {
    let Branch { child, polygon } = branch;
    let child = match child {
        Node::Leaf(leaf) => Node::Leaf(leaf),
        Node::Routing(node) => {
            Node::routing(node.branches.into_iter().flat_map(settle_branch).collect())
        }
    };
    let line = match &child {
        _ if child.count() <= F => return vec![Branch { child, polygon }],
        Node::Leaf(leaf) => leaf_line(&leaf.entries),
        Node::Routing(node) => line_of_all(&node.branches),
    };
    let whole = Branch { child, polygon };
    let sides = [(0, line.l), (line.l, 65536)];
    let half = |&(from, to): &(u32, u32)| between(&whole, line.dimension, from, to);
    sides.iter().filter_map(half).collect()
}

/// What lies in from <= coordinate < to; none if no entry does.
fn between(branch: &Branch, d: usize, from: u32, to: u32) -> Option<Branch> {
    let inside = |e: &&Entry| from <= e.cell[d] && e.cell[d] < to;
    let child = match &branch.child {
        Node::Leaf(leaf) => Node::leaf(leaf.entries.iter().filter(inside).copied().collect()),
        Node::Routing(node) => {
            let parts = node.branches.iter().filter_map(|b| between(b, d, from, to));
            Node::routing(parts.collect())
        }
    };
    let clip = |r: &Rectangle| r.with_range(d, r.ll[d].max(from), r.ur[d].min(to));
    let mut polygon: Vec<Rectangle> = branch.polygon.iter().map(clip).collect();
    polygon.retain(|r| r.ll[d] < r.ur[d]);
    (child.count() > 0).then(|| Branch {
        child,
        polygon: refine(&polygon),
    })
}

/// The best of (on both sides, dimension, l) over all l for which each side gets 1 to 8.
fn line_of_all(branches: &[Branch]) -> Line {
    let mut best: Option<(usize, usize, u32)> = None;
    for dimension in 0..2 {
        // How many branches begin to be on the left at l, and cease to be on the right.
        let (mut begin, mut cease) = (vec![0; 65537], vec![0; 65537]);
        for (first, last) in branches.iter().map(|b| ends(b, dimension)) {
            begin[first as usize + 1] += 1;
            cease[last as usize + 1] += 1;
        }
        let (mut lefts, mut rights) = (0, branches.len());
        for l in 1..=65535 {
            lefts += begin[l];
            rights -= cease[l];
            // Every branch is on a side, so those on both are counted twice.
            let line = (lefts + rights - branches.len(), dimension, l as u32);
            let fits = (1..=F).contains(&lefts) && (1..=F).contains(&rights);
            if fits && best.is_none_or(|b| line < b) {
                best = Some(line);
            }
        }
    }
    let (_, dimension, l) = best.expect("a fitting line");
    Line { dimension, l }
}

/// The first and last coordinate of a branch's entries.
fn ends(branch: &Branch, d: usize) -> (u32, u32) {
    let entries = branch.child.entries();
    let mut coordinates: Vec<u32> = entries.iter().map(|e| e.cell[d]).collect();
    coordinates.sort_unstable();
    (coordinates[0], coordinates[coordinates.len() - 1])
}
