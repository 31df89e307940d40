//! Random sound trees, made directly: polygons need not be refined, their rectangles may overlap
//! and straddle those of the parent.

use reference::geometry::{refine, Cell, Rectangle};
use reference::random::Random;
use reference::tree::{Branch, Entry, Node, Tree};

/// The most rectangles of a polygon, and the most entries of a leaf or branches of a node.
const POLYGON: usize = 16;
const FULL: usize = 8;

/// A sound tree of at most `most_nodes` nodes.
pub fn random_tree(most_nodes: usize, random: &mut Random) -> Tree {
    let levels = random.between(1, most_nodes.min(5) as u32) as usize;
    let rectangle = root_rectangle(random);
    tree_of(levels, most_nodes, rectangle, random)
}

/// A sound tree with that many levels, at most `most_nodes` nodes, and the root's rectangle.
pub fn tree_of(
    levels: usize,
    most_nodes: usize,
    rectangle: Rectangle,
    random: &mut Random,
) -> Tree {
    Tree {
        rectangle,
        root: node(levels, most_nodes, &[rectangle], random),
    }
}

/// Small and large ones, some at the end of the grid.
fn root_rectangle(random: &mut Random) -> Rectangle {
    let side: u32 = random.pick(&[1, 2, 3, 5, 9, 14, 40, 300, 65536]);
    let [width, height] = [0, 1].map(|_| random.between(side.div_ceil(2), side));
    let [llx, lly] = [width, height].map(|size| {
        let last = 65536 - size;
        let any = random.between(0, last);
        random.pick(&[0, last, last.min(1), any])
    });
    Rectangle::new(llx, lly, llx + width, lly + height)
}

fn node(levels: usize, most_nodes: usize, polygon: &[Rectangle], random: &mut Random) -> Node {
    if levels == 1 {
        return Node::leaf(entries(polygon, random));
    }
    let most_branches = ((most_nodes - 1) / (levels - 1)).min(FULL);
    let polygons = divide(polygon, most_branches, random);
    let mut spare = most_nodes - 1 - (levels - 1) * polygons.len();
    let branches = polygons.into_iter().map(|polygon| {
        let more = random.between(0, spare as u32) as usize;
        spare -= more;
        let polygon = varied(polygon, random);
        let child = node(levels - 1, levels - 1 + more, &polygon, random);
        Branch { child, polygon }
    });
    Node::routing(branches.collect())
}

/// One to eight different cells of the polygon with any tags.
pub fn entries(polygon: &[Rectangle], random: &mut Random) -> Vec<Entry> {
    let count = random.pick(&[1, 2, 3, 5, 8]);
    let mut entries: Vec<Entry> = Vec::new();
    for _ in 0..count {
        let cell = cell_of(polygon, random);
        if entries.iter().all(|e| e.cell != cell) {
            let any = random.number() as u32;
            let tag = random.pick(&[0, 1, u32::MAX, any, any]);
            entries.push(Entry { cell, tag });
        }
    }
    entries
}

/// A cell of the polygon, often at a corner of a rectangle.
pub fn cell_of(polygon: &[Rectangle], random: &mut Random) -> Cell {
    let r = random.pick(polygon);
    [0, 1].map(|d| {
        let any = random.between(r.ll[d], r.ur[d] - 1);
        random.pick(&[r.ll[d], r.ur[d] - 1, any, any])
    })
}

/// One to `most` polygons that share no cell, of the polygon's cells.
fn divide(polygon: &[Rectangle], most: usize, random: &mut Random) -> Vec<Vec<Rectangle>> {
    let count = random.between(1, most as u32);
    divide_in(polygon, count, random)
}

/// Up to `count` polygons: the common parts with the pieces of the bounding rectangle, which is cut
/// at lines again and again.
pub fn divide_in(polygon: &[Rectangle], count: u32, random: &mut Random) -> Vec<Vec<Rectangle>> {
    let mut regions = vec![bounds(polygon)];
    for _ in 1..count {
        let place = random.between(0, regions.len() as u32 - 1) as usize;
        let (region, d) = (regions[place], random.between(0, 1) as usize);
        if region.ur[d] - region.ll[d] > 1 {
            let line = random.between(region.ll[d] + 1, region.ur[d] - 1);
            regions[place] = region.with_range(d, region.ll[d], line);
            regions.push(region.with_range(d, line, region.ur[d]));
        }
    }
    let parts = |region: &Rectangle| -> Vec<Rectangle> {
        let parts = polygon.iter().filter_map(|r| r.common_part(*region));
        parts.collect()
    };
    let mut polygons: Vec<Vec<Rectangle>> = regions.iter().map(parts).collect();
    polygons.retain(|p| !p.is_empty());
    polygons
}

fn bounds(polygon: &[Rectangle]) -> Rectangle {
    let corner = |r: &Rectangle| [r.ur[0] - 1, r.ur[1] - 1];
    let grown = |all: Rectangle, r: &Rectangle| all.grow(r.ll).grow(corner(r));
    polygon.iter().fold(polygon[0], grown)
}

/// A polygon of the same cells or some of them, with other rectangles.
pub fn varied(mut polygon: Vec<Rectangle>, random: &mut Random) -> Vec<Rectangle> {
    for _ in 0..random.pick(&[0, 1, 1, 2, 4, 16]) {
        let place = random.between(0, polygon.len() as u32 - 1) as usize;
        let is_full = polygon.len() == POLYGON;
        match random.between(0, 5) {
            0 => polygon = refine(&polygon),
            1 if polygon.len() > 1 => drop(polygon.remove(place)),
            2 => polygon[place] = inside(polygon[place], random),
            3 if !is_full => polygon.push(inside(polygon[place], random)),
            4 if !is_full => polygon.insert(place, polygon[place]),
            _ if !is_full => cut_in_two(&mut polygon, place, random),
            _ => {}
        }
    }
    polygon
}

/// A rectangle inside, often the whole.
fn inside(mut r: Rectangle, random: &mut Random) -> Rectangle {
    let d = random.between(0, 1) as usize;
    if r.ur[d] - r.ll[d] > 1 && random.one_in(2) {
        r.ll[d] += 1;
    }
    if r.ur[d] - r.ll[d] > 1 && random.one_in(2) {
        r.ur[d] -= 1;
    }
    r
}

/// Puts two rectangles, which touch or overlap, for one.
fn cut_in_two(polygon: &mut Vec<Rectangle>, place: usize, random: &mut Random) {
    let (r, d) = (polygon[place], random.between(0, 1) as usize);
    if r.ur[d] - r.ll[d] > 1 {
        let line = random.between(r.ll[d] + 1, r.ur[d] - 1);
        let earlier = random.between(r.ll[d], line);
        let start = random.pick(&[line, line, earlier]);
        polygon[place] = r.with_range(d, r.ll[d], line);
        polygon.push(r.with_range(d, start, r.ur[d]));
    }
}
