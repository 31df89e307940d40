//! Sound trees with a full path: each node on one path from the root down to a leaf has eight
//! entries or branches, so that an insertion there splits nodes at every level.

use super::trees::{cell_of, divide_in, entries, varied};
use reference::geometry::{Cell, Rectangle};
use reference::random::Random;
use reference::tree::{Branch, Entry, Node, Tree};

/// A tree with that many levels and a full path. A path of eight levels has 204 nodes.
pub fn steep_tree(levels: usize, rectangle: Rectangle, random: &mut Random) -> Tree {
    Tree {
        rectangle,
        root: full_node(levels, &[rectangle], random),
    }
}

/// A node with eight below it, one of which is again full.
fn full_node(levels: usize, polygon: &[Rectangle], random: &mut Random) -> Node {
    if levels == 1 {
        return Node::leaf(eight_entries(polygon, random));
    }
    let polygons = loop {
        let polygons = divide_in(polygon, 8, random);
        if polygons.len() == 8 {
            break polygons;
        }
    };
    let largest = (0..8).max_by_key(|&i| area(&polygons[i]));
    let branches = polygons.into_iter().enumerate().map(|(i, polygon)| {
        if Some(i) == largest {
            let polygon = varied_but_large(polygon, random);
            let child = full_node(levels - 1, &polygon, random);
            return Branch { child, polygon };
        }
        let polygon = varied(polygon, random);
        let child = thin_node(levels - 1, &polygon, random);
        Branch { child, polygon }
    });
    Node::routing(branches.collect())
}

/// The sum of the rectangles' areas.
fn area(polygon: &[Rectangle]) -> u64 {
    polygon.iter().map(|r| r.area()).sum()
}

/// A varied polygon of no less than half of the area.
fn varied_but_large(polygon: Vec<Rectangle>, random: &mut Random) -> Vec<Rectangle> {
    loop {
        let changed = varied(polygon.clone(), random);
        if 2 * area(&changed) >= area(&polygon) {
            return changed;
        }
    }
}

/// A chain of one-branch nodes down to a leaf.
fn thin_node(levels: usize, polygon: &[Rectangle], random: &mut Random) -> Node {
    if levels == 1 {
        return Node::leaf(entries(polygon, random));
    }
    let below = varied(polygon.to_vec(), random);
    let child = thin_node(levels - 1, &below, random);
    Node::routing(vec![Branch {
        child,
        polygon: below,
    }])
}

/// Eight different cells of a polygon that has at least eight.
fn eight_entries(polygon: &[Rectangle], random: &mut Random) -> Vec<Entry> {
    let mut entries: Vec<Entry> = Vec::new();
    while entries.len() < 8 {
        let cell = cell_of(polygon, random);
        if entries.iter().all(|e| e.cell != cell) {
            let tag = random.number() as u32;
            entries.push(Entry { cell, tag });
        }
    }
    entries
}

/// The cells of the entries of all full leaves.
pub fn full_leaf_cells(tree: &Tree) -> Vec<Cell> {
    fn collect(node: &Node, cells: &mut Vec<Cell>) {
        match node {
            Node::Leaf(leaf) if leaf.entries.len() == 8 => {
                cells.extend(leaf.entries.iter().map(|e| e.cell));
            }
            Node::Leaf(_) => {}
            Node::Routing(routing) => {
                let below = routing.branches.iter();
                below.for_each(|b| collect(&b.child, cells));
            }
        }
    }
    let mut cells = Vec::new();
    collect(&tree.root, &mut cells);
    cells
}
