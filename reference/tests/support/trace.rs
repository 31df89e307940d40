//! Step 2 of an insertion, followed by the tests: the sizes of its lists at each level, the limit
//! that is passed first, and the tree before any split.

use super::extra::{by_area, by_cuts, Rule};
use super::sound::polygon_has;
use super::{LIST_LIMIT, POLYGON_LIMIT};
use reference::geometry::{cut_list, refine, Cell, Rectangle};
use reference::tree::{Branch, Entry, Limit, Node, Tree};

/// The largest lists of step 2, over all levels up to the one that passes a limit.
#[derive(Clone, Copy, Debug, Default, PartialEq, Eq)]
pub struct Sizes {
    /// Pieces after a cut by one rectangle.
    pub after_cut: usize,
    pub after_common_parts: usize,
    pub refined: usize,
    /// Rectangles of siblings that lie wholly in the grown one.
    pub inside: usize,
    /// Levels at which a polygon grew.
    pub levels: usize,
}

impl Sizes {
    /// The larger of each.
    pub fn max(self, other: Sizes) -> Sizes {
        Sizes {
            after_cut: self.after_cut.max(other.after_cut),
            after_common_parts: self.after_common_parts.max(other.after_common_parts),
            refined: self.refined.max(other.refined),
            inside: self.inside.max(other.inside),
            levels: self.levels.max(other.levels),
        }
    }
}

/// What steps 1 to 3 do.
#[derive(Clone, Debug)]
pub struct Trace {
    pub sizes: Sizes,
    pub limit: Option<Limit>,
    /// The tree after steps 1 to 3: a leaf may have nine entries. Not complete where a limit was
    /// passed.
    pub unsplit: Tree,
    /// The cells that siblings removed at each level where a rectangle grew, from the root down.
    pub removed: Vec<u64>,
}

/// Follows the insertion of an entry whose cell is not held.
pub fn trace(tree: &Tree, entry: Entry) -> Trace {
    trace_by(by_cuts, tree, entry)
}

/// Step 2 by area alone, as before request A.2, would pass another limit or give another tree.
pub fn differs_by_area(trace: &Trace, tree: &Tree, entry: Entry) -> bool {
    let by_area = trace_by(by_area, tree, entry);
    match (trace.limit, by_area.limit) {
        (None, None) => trace.unsplit != by_area.unsplit,
        (limit, other) => limit != other,
    }
}

/// Follows it with this extra area.
pub fn trace_by(rule: Rule, tree: &Tree, entry: Entry) -> Trace {
    let mut unsplit = tree.clone();
    unsplit.rectangle = unsplit.rectangle.grow(entry.cell);
    let mut polygon = vec![unsplit.rectangle];
    let mut sizes = Sizes::default();
    let mut removed = Vec::new();
    let mut limit = None;
    let mut node = &mut unsplit.root;
    loop {
        match node {
            Node::Leaf(leaf) => {
                leaf.entries.push(entry);
                break;
            }
            Node::Routing(routing) => {
                let level = follow(rule, &routing.branches, &polygon, entry, &mut sizes);
                let level = match level {
                    Ok(level) => level,
                    Err(passed) => {
                        limit = Some(passed);
                        break;
                    }
                };
                let branch = &mut routing.branches[level.place];
                branch.polygon = level.polygon;
                removed.extend(level.removed);
                polygon = branch.polygon.clone();
                node = &mut branch.child;
            }
        }
    }
    Trace {
        sizes,
        limit,
        unsplit,
        removed,
    }
}

/// What one level does.
struct Level {
    place: usize,
    /// The branch's polygon after.
    polygon: Vec<Rectangle>,
    /// The cells that siblings removed; none where nothing grew.
    removed: Option<u64>,
}

fn follow(
    rule: Rule,
    branches: &[Branch],
    parent: &[Rectangle],
    entry: Entry,
    sizes: &mut Sizes,
) -> Result<Level, Limit> {
    for (place, branch) in branches.iter().enumerate() {
        if polygon_has(&branch.polygon, entry.cell) {
            return Ok(Level {
                place,
                polygon: branch.polygon.clone(),
                removed: None,
            });
        }
    }
    sizes.levels += 1;
    let (place, at) = cheapest(rule, branches, entry.cell);
    let mut list = branches[place].polygon.clone();
    let grown = list[at].grow(entry.cell);
    let siblings = (0..branches.len()).filter(|&other| other != place);
    let siblings = siblings.flat_map(|other| branches[other].polygon.iter());
    let inside = siblings.clone().filter(|s| s.is_contained_in(grown));
    sizes.inside = sizes.inside.max(inside.count());
    let mut pieces = vec![grown];
    for &s in siblings {
        pieces = cut_list(&pieces, s);
        sizes.after_cut = sizes.after_cut.max(pieces.len());
        within(pieces.len(), LIST_LIMIT, Limit::AfterCut)?;
    }
    // The pieces of one rectangle share no cell.
    let left: u64 = pieces.iter().map(|piece| piece.area()).sum();
    let parts: Vec<Rectangle> = pieces
        .iter()
        .flat_map(|piece| parent.iter().filter_map(|&p| piece.common_part(p)))
        .collect();
    sizes.after_common_parts = sizes.after_common_parts.max(parts.len());
    within(parts.len(), LIST_LIMIT, Limit::AfterCommonParts)?;
    list.splice(at..=at, parts);
    let refined = refine(&list);
    sizes.refined = sizes.refined.max(refined.len());
    within(refined.len(), POLYGON_LIMIT, Limit::Refined)?;
    Ok(Level {
        place,
        polygon: refined,
        removed: Some(grown.area() - left),
    })
}

/// The branch and the rectangle of least extra area: the smallest of (extra area, branch,
/// rectangle).
fn cheapest(rule: Rule, branches: &[Branch], cell: Cell) -> (usize, usize) {
    let all = branches.iter().enumerate().flat_map(|(b, branch)| {
        let polygon = &branch.polygon;
        let extras = polygon.iter().map(move |&r| rule(polygon, r, cell));
        extras.enumerate().map(move |(r, extra)| (extra, b, r))
    });
    let (_, branch, rectangle) = all.min().expect("a branch");
    (branch, rectangle)
}

fn within(length: usize, most: usize, limit: Limit) -> Result<(), Limit> {
    if length > most {
        Err(limit)
    } else {
        Ok(())
    }
}
