//! Trees built by hand.

use reference::geometry::Rectangle;
use reference::tree::{Branch, Entry, Node, Tree};

/// The rectangle (llx,lly)-(urx,ury).
pub fn rectangle([llx, lly, urx, ury]: [u32; 4]) -> Rectangle {
    Rectangle::new(llx, lly, urx, ury)
}

pub fn polygon(rectangles: &[[u32; 4]]) -> Vec<Rectangle> {
    rectangles.iter().map(|&r| rectangle(r)).collect()
}

/// An entry whose tag follows from its cell.
pub fn entry([x, y]: [u32; 2]) -> Entry {
    Entry {
        cell: [x, y],
        tag: tag([x, y]),
    }
}

pub fn tag([x, y]: [u32; 2]) -> u32 {
    (x << 16) + y
}

/// A branch with a leaf.
pub fn leaf(rectangles: &[[u32; 4]], cells: &[[u32; 2]]) -> Branch {
    Branch {
        child: Node::leaf(cells.iter().map(|&c| entry(c)).collect()),
        polygon: polygon(rectangles),
    }
}

/// A branch with a routing node.
pub fn routing(rectangles: &[[u32; 4]], branches: Vec<Branch>) -> Branch {
    Branch {
        child: Node::routing(branches),
        polygon: polygon(rectangles),
    }
}

/// A tree whose root is a routing node.
pub fn tree(root: [u32; 4], branches: Vec<Branch>) -> Tree {
    Tree {
        rectangle: rectangle(root),
        root: Node::routing(branches),
    }
}
