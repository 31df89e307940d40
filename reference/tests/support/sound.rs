//! Demand 3's clauses about one tree, tested on sets of cells: the corners of all rectangles are
//! compressed to small numbers, and each depth's polygons are painted on a grid of its own.

use super::{GRID_END, POLYGON_LIMIT};
use reference::geometry::{Cell, Rectangle};
use reference::tree::{Entry, Node, Tree};

/// The most entries of a leaf and branches of a routing node.
const F: usize = 8;

/// A node as the tests look at it.
pub struct View<'a> {
    pub depth: usize,
    /// The place of the parent in the list of views; the root's own for the root.
    pub parent: usize,
    pub polygon: &'a [Rectangle],
    pub node: &'a Node,
}

/// All nodes in depth-first order, the root first.
pub fn views(tree: &Tree) -> Vec<View<'_>> {
    let mut views = Vec::new();
    let polygon = std::slice::from_ref(&tree.rectangle);
    add_views(&mut views, 0, 0, polygon, &tree.root);
    views
}

fn add_views<'a>(
    views: &mut Vec<View<'a>>,
    depth: usize,
    parent: usize,
    polygon: &'a [Rectangle],
    node: &'a Node,
) {
    let place = views.len();
    views.push(View {
        depth,
        parent,
        polygon,
        node,
    });
    if let Node::Routing(routing) = node {
        for branch in &routing.branches {
            add_views(views, depth + 1, place, &branch.polygon, &branch.child);
        }
    }
}

/// 'll <= cell < ur in both dimensions', for a rectangle of the polygon.
pub fn polygon_has(polygon: &[Rectangle], [x, y]: Cell) -> bool {
    let has = |r: &Rectangle| r.ll[0] <= x && x < r.ur[0] && r.ll[1] <= y && y < r.ur[1];
    polygon.iter().any(has)
}

/// A cell lies in the window and in a rectangle of the polygon.
pub fn polygon_meets(polygon: &[Rectangle], w: Rectangle) -> bool {
    let meets = |r: &Rectangle| {
        r.ll[0].max(w.ll[0]) < r.ur[0].min(w.ur[0]) && r.ll[1].max(w.ll[1]) < r.ur[1].min(w.ur[1])
    };
    polygon.iter().any(meets)
}

/// The entries of all leaves in depth-first order.
pub fn held_entries(views: &[View]) -> Vec<Entry> {
    let mut entries = Vec::new();
    for view in views {
        if let Node::Leaf(leaf) = view.node {
            entries.extend(&leaf.entries);
        }
    }
    entries
}

/// Fails with the clause that the tree breaks.
pub fn check_sound(tree: &Tree, n: usize, record: &[Entry]) -> Result<(), String> {
    let views = views(tree);
    if views.len() > n {
        return Err(format!("{} nodes, N = {n}", views.len()));
    }
    check_shape(&views)?;
    check_entries(&views, record)?;
    check_cells(&views)
}

/// Counts, rectangles and the depth of the leaves.
fn check_shape(views: &[View]) -> Result<(), String> {
    let leaf_depth = views.iter().map(|v| v.depth).max();
    if views[0].polygon.len() != 1 {
        return Err("the root's polygon is not one rectangle".to_string());
    }
    for (place, view) in views.iter().enumerate() {
        let count = match view.node {
            Node::Leaf(leaf) => leaf.entries.len(),
            Node::Routing(routing) => routing.branches.len(),
        };
        if !(1..=F).contains(&count) {
            return Err(format!("node {place} holds {count}"));
        }
        if !(1..=POLYGON_LIMIT).contains(&view.polygon.len()) {
            return Err(format!("polygon {place} has {}", view.polygon.len()));
        }
        let valid = |r: &Rectangle| (0..2).all(|d| r.ll[d] < r.ur[d] && r.ur[d] <= GRID_END);
        if !view.polygon.iter().all(valid) {
            return Err(format!("polygon {place} has an invalid rectangle"));
        }
        if matches!(view.node, Node::Leaf(_)) && Some(view.depth) != leaf_depth {
            return Err(format!("leaf {place} is at depth {}", view.depth));
        }
    }
    Ok(())
}

/// The entries held are the record's, each in exactly one leaf, whose polygon has its cell.
fn check_entries(views: &[View], record: &[Entry]) -> Result<(), String> {
    let sorted = |mut entries: Vec<Entry>| {
        entries.sort_by_key(|e| (e.cell, e.tag));
        entries
    };
    let (held, recorded) = (sorted(held_entries(views)), sorted(record.to_vec()));
    if held != recorded {
        return Err(format!("holds {held:?}, the record is {recorded:?}"));
    }
    if held.windows(2).any(|pair| pair[0].cell == pair[1].cell) {
        return Err("a cell has two entries".to_string());
    }
    for view in views {
        if let Node::Leaf(leaf) = view.node {
            let outside = |e: &&Entry| !polygon_has(view.polygon, e.cell);
            if let Some(entry) = leaf.entries.iter().find(outside) {
                return Err(format!("{entry:?} is outside its leaf's polygon"));
            }
        }
    }
    Ok(())
}

/// The different coordinates of all corners, in order, per dimension.
struct Grid([Vec<u32>; 2]);

impl Grid {
    fn new(views: &[View]) -> Grid {
        Grid([0, 1].map(|d| {
            let rectangles = views.iter().flat_map(|v| v.polygon);
            let mut corners: Vec<u32> = rectangles.flat_map(|r| [r.ll[d], r.ur[d]]).collect();
            corners.sort_unstable();
            corners.dedup();
            corners
        }))
    }

    fn at(&self, d: usize, corner: u32) -> usize {
        self.0[d].binary_search(&corner).expect("a corner")
    }

    /// The places of a rectangle's cells, one range for each row.
    fn rows(&self, r: &Rectangle) -> Vec<std::ops::Range<usize>> {
        let (left, right) = (self.at(0, r.ll[0]), self.at(0, r.ur[0]));
        let width = self.0[0].len();
        (self.at(1, r.ll[1])..self.at(1, r.ur[1]))
            .map(|row| row * width + left..row * width + right)
            .collect()
    }

    fn size(&self) -> usize {
        self.0[0].len() * self.0[1].len()
    }
}

/// No node has painted this cell.
const NOBODY: u16 = u16::MAX;

/// No cell lies in the polygons of two different nodes of equal depth, and every child's cells are
/// among its parent's.
fn check_cells(views: &[View]) -> Result<(), String> {
    let grid = Grid::new(views);
    let depths = views.iter().map(|v| v.depth).max().map_or(0, |d| d + 1);
    let mut above = vec![0; grid.size()];
    for depth in 0..depths {
        let mut painted = vec![NOBODY; grid.size()];
        for (place, view) in views.iter().enumerate().filter(|(_, v)| v.depth == depth) {
            for range in view.polygon.iter().flat_map(|r| grid.rows(r)) {
                for cell in &painted[range.clone()] {
                    if *cell != NOBODY && *cell != place as u16 {
                        return Err(format!("nodes {cell} and {place} share a cell"));
                    }
                }
                if above[range.clone()]
                    .iter()
                    .any(|&p| p != view.parent as u16)
                {
                    return Err(format!("node {place} has a cell outside its parent"));
                }
                painted[range].fill(place as u16);
            }
        }
        above = painted;
    }
    Ok(())
}
