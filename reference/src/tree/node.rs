//! Entries, nodes, branches and the tree.

use crate::geometry::{Cell, Rectangle};

/// 'An entry being a cell and a tag (32 bits, any value).'
#[derive(Clone, Copy, Debug, PartialEq, Eq)]
pub struct Entry {
    pub cell: Cell,
    pub tag: u32,
}

/// A leaf and its entries, in order.
#[derive(Clone, Debug, PartialEq, Eq)]
pub struct Leaf {
    pub entries: Vec<Entry>,
}

/// A routing node and its branches, in order.
#[derive(Clone, Debug, PartialEq, Eq)]
pub struct Routing {
    pub branches: Vec<Branch>,
}

/// A branch: 'a child and its polygon'. The polygon is a list of 1 to 16 rectangles.
#[derive(Clone, Debug, PartialEq, Eq)]
pub struct Branch {
    pub child: Node,
    pub polygon: Vec<Rectangle>,
}

#[derive(Clone, Debug, PartialEq, Eq)]
pub enum Node {
    Leaf(Leaf),
    Routing(Routing),
}

/// A tree that is not empty. 'The root's polygon is one rectangle.'
#[derive(Clone, Debug, PartialEq, Eq)]
pub struct Tree {
    pub rectangle: Rectangle,
    pub root: Node,
}

impl Node {
    pub fn leaf(entries: Vec<Entry>) -> Node {
        Node::Leaf(Leaf { entries })
    }

    pub fn routing(branches: Vec<Branch>) -> Node {
        Node::Routing(Routing { branches })
    }

    /// The number of a leaf's entries or of a routing node's branches.
    pub fn count(&self) -> usize {
        match self {
            Node::Leaf(leaf) => leaf.entries.len(),
            Node::Routing(routing) => routing.branches.len(),
        }
    }

    /// The entries below, in depth-first order.
    pub fn entries(&self) -> Vec<Entry> {
        match self {
            Node::Leaf(leaf) => leaf.entries.clone(),
            Node::Routing(routing) => {
                let below = routing.branches.iter().map(|b| b.child.entries());
                below.collect::<Vec<_>>().concat()
            }
        }
    }

    /// The polygons that the branches here and below give, in depth-first order.
    fn polygons_below(&self) -> Vec<&[Rectangle]> {
        let mut polygons = Vec::new();
        if let Node::Routing(routing) = self {
            for branch in &routing.branches {
                polygons.push(branch.polygon.as_slice());
                polygons.extend(branch.child.polygons_below());
            }
        }
        polygons
    }

    fn height(&self) -> usize {
        match self {
            Node::Leaf(_) => 1,
            Node::Routing(routing) => {
                let below = routing.branches.iter().map(|b| b.child.height());
                1 + below.max().unwrap_or(0)
            }
        }
    }
}

impl Tree {
    /// The polygon of each node: 'the one its branch gives, and the root's is its one rectangle.'
    pub fn polygons(&self) -> Vec<&[Rectangle]> {
        let mut polygons = vec![std::slice::from_ref(&self.rectangle)];
        polygons.extend(self.root.polygons_below());
        polygons
    }

    /// The number of nodes; each has one polygon.
    pub fn nodes(&self) -> usize {
        self.polygons().len()
    }

    /// 'Height is the number of levels.'
    pub fn height(&self) -> usize {
        self.root.height()
    }

    /// The entries held, in depth-first order.
    pub fn entries(&self) -> Vec<Entry> {
        self.root.entries()
    }
}
