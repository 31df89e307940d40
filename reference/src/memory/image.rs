//! Writing the image of a tree.

use super::layout::{
    length_of, start_of, HEIGHT, ITEMS, ITEM_COUNT, PER_ENTRY, PER_RECTANGLE, RECTANGLES,
    RECTANGLE_COUNT, ROOT,
};
use crate::geometry::{Rectangle, POLYGON_LIMIT};
use crate::tree::{Node, Tree, F};

/// The image of a tree in a memory of N parts. `parts` names each node's part, in depth-first
/// order, a node after its children; the image reads as the tree if these numbers rise.
pub fn image(n: usize, tree: Option<&Tree>, parts: &[usize]) -> Vec<u32> {
    let mut writer = Writer {
        memory: vec![0; length_of(n)],
        parts,
    };
    if let Some(tree) = tree {
        let root = writer.node(&[tree.rectangle], &tree.root);
        writer.memory[HEIGHT] = tree.height() as u32;
        writer.memory[ROOT] = root as u32;
    }
    assert!(writer.parts.is_empty(), "one part for each node");
    writer.memory
}

struct Writer<'a> {
    memory: Vec<u32>,
    /// The parts of the nodes still to be written.
    parts: &'a [usize],
}

impl Writer<'_> {
    /// Writes a node after all below it, and returns its part.
    fn node(&mut self, polygon: &[Rectangle], node: &Node) -> usize {
        assert!(polygon.len() <= POLYGON_LIMIT && node.count() <= F);
        let items: Vec<u32> = match node {
            Node::Leaf(leaf) => {
                let entries = leaf.entries.iter();
                entries
                    .flat_map(|e| -> [u32; PER_ENTRY] { [e.cell[0], e.cell[1], e.tag] })
                    .collect()
            }
            Node::Routing(routing) => {
                let branches = routing.branches.iter();
                branches
                    .map(|b| self.node(&b.polygon, &b.child) as u32)
                    .collect()
            }
        };
        let (&k, others) = self.parts.split_first().expect("one part for each node");
        self.parts = others;
        self.memory[k / 32] |= 1 << (k % 32);
        let part = &mut self.memory[start_of(k)..];
        part[RECTANGLE_COUNT] = polygon.len() as u32;
        part[ITEM_COUNT] = node.count() as u32;
        for (i, r) in polygon.iter().enumerate() {
            let place = RECTANGLES + PER_RECTANGLE * i;
            let numbers = [r.ll[0], r.ll[1], r.ur[0], r.ur[1]];
            part[place..place + PER_RECTANGLE].copy_from_slice(&numbers);
        }
        part[ITEMS..ITEMS + items.len()].copy_from_slice(&items);
        k
    }
}
