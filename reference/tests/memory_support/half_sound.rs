//! Small trees on a small grid that are made without care, so that about half of them are sound.

use reference::geometry::Rectangle;
use reference::random::Random;
use reference::tree::{Branch, Entry, Node, Tree};

/// A tree with up to three levels; the root has the whole square of `side` cells a side.
pub fn loose_tree(side: u32, random: &mut Random) -> Tree {
    let root = Rectangle::new(0, 0, side, side);
    let polygon = loose_polygon(root, 16, random);
    let child = if random.one_in(3) {
        loose_leaf(&polygon, random)
    } else {
        let branches = (0..random.between(1, 3)).map(|_| {
            let polygon = loose_polygon(random.pick(&polygon), 3, random);
            let polygon = stretched(polygon, side, random);
            Branch {
                child: loose_leaf(&polygon, random),
                polygon,
            }
        });
        Node::routing(branches.collect())
    };
    Tree {
        rectangle: root,
        root: Node::routing(vec![Branch { child, polygon }]),
    }
}

/// Up to `most` rectangles in the rectangle.
fn loose_polygon(within: Rectangle, most: u32, random: &mut Random) -> Vec<Rectangle> {
    let range = |d: usize, random: &mut Random| {
        let from = random.between(within.ll[d], within.ur[d] - 1);
        (from, random.between(from + 1, within.ur[d]))
    };
    (0..random.between(1, most))
        .map(|_| {
            let ((llx, urx), (lly, ury)) = (range(0, random), range(1, random));
            Rectangle::new(llx, lly, urx, ury)
        })
        .collect()
}

/// One rectangle reaches further on one side, perhaps over others of the parent or out of them.
fn stretched(mut polygon: Vec<Rectangle>, side: u32, random: &mut Random) -> Vec<Rectangle> {
    let place = random.between(0, polygon.len() as u32 - 1) as usize;
    let (r, d) = (&mut polygon[place], random.between(0, 1) as usize);
    let further = random.between(0, 2);
    if random.one_in(2) {
        r.ll[d] = r.ll[d].saturating_sub(further);
    } else {
        r.ur[d] = (r.ur[d] + further).min(side);
    }
    polygon
}

/// One or two entries, most of them inside.
fn loose_leaf(polygon: &[Rectangle], random: &mut Random) -> Node {
    let count = random.pick(&[1, 1, 2]);
    let entries = (0..count).map(|_| {
        let r = random.pick(polygon);
        let out = u32::from(random.one_in(12));
        let cell = [0, 1].map(|d| random.between(r.ll[d], r.ur[d] - 1 + out));
        let tag = random.number() as u32;
        Entry { cell, tag }
    });
    Node::leaf(entries.collect())
}
