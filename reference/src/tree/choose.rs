//! Insertion, step 2 at one routing node: the branch to go on in.

use super::extra_area::extra_area;
use super::polygon::{common_parts, has};
use super::{Branch, Limit};
use crate::geometry::{
    cut_list_by_polygon, refine, shared_cells, Cell, Rectangle, LIST_LIMIT, POLYGON_LIMIT,
};

/// Step 2 at one routing node.
pub struct Step {
    /// The place of the branch to go on in, whose polygon now has the cell.
    pub place: usize,
    /// 'The cells of each grown rectangle that some sibling has', of request A.6: their number,
    /// 'and 0 where nothing grew'.
    pub removed: u64,
}

/// 'Go to the branch that has the cell.' If none has it, one is grown. `parent` is the node's own
/// polygon, as grown in this insertion.
pub fn choose_branch(
    branches: &mut [Branch],
    parent: &[Rectangle],
    cell: Cell,
) -> Result<Step, Limit> {
    if let Some(place) = branches.iter().position(|b| has(&b.polygon, cell)) {
        return Ok(Step { place, removed: 0 });
    }
    let chosen = least_extra_area(branches, cell);
    let grown = branches[chosen.branch].polygon[chosen.rectangle].grow(cell);
    let siblings = siblings_of(branches, chosen.branch);
    let pieces = cut_by_siblings(grown, &siblings)?;
    let pieces = common_parts_with_parent(&pieces, parent)?;
    let polygon = &mut branches[chosen.branch].polygon;
    *polygon = with_pieces(polygon, chosen.rectangle, &pieces)?;
    Ok(Step {
        place: chosen.branch,
        removed: shared_cells(&[grown], &siblings),
    })
}

/// The place of a rectangle in the polygons of a routing node's branches.
#[derive(Clone, Copy)]
struct Chosen {
    branch: usize,
    rectangle: usize,
}

/// 'The rectangle of least extra area, first branch then first rectangle on ties.' Extra area is that
/// of request A.2: against the whole polygon of the branch.
fn least_extra_area(branches: &[Branch], cell: Cell) -> Chosen {
    let mut least: Option<(u64, Chosen)> = None;
    for (branch, b) in branches.iter().enumerate() {
        for (rectangle, r) in b.polygon.iter().enumerate() {
            let extra = extra_area(&b.polygon, *r, cell);
            if least.is_none_or(|(least_extra, _)| extra < least_extra) {
                least = Some((extra, Chosen { branch, rectangle }));
            }
        }
    }
    least.expect("a routing node has a branch").1
}

/// The rectangles of the other branches' polygons, in order.
fn siblings_of(branches: &[Branch], chosen: usize) -> Vec<Rectangle> {
    let (before, after) = (&branches[..chosen], &branches[chosen + 1..]);
    let polygons = before.iter().chain(after).map(|b| b.polygon.as_slice());
    polygons.collect::<Vec<_>>().concat()
}

/// 'Cut the grown one by every sibling's polygon in order.' The limit of 256 is tested after the
/// cut by each rectangle of each sibling.
fn cut_by_siblings(grown: Rectangle, siblings: &[Rectangle]) -> Result<Vec<Rectangle>, Limit> {
    cut_list_by_polygon(&[grown], siblings).map_err(|_| Limit::AfterCut)
}

/// 'Replace each piece by its common parts with the parent's rectangles': each piece in order, and
/// for each piece the parent's rectangles in order.
fn common_parts_with_parent(
    pieces: &[Rectangle],
    parent: &[Rectangle],
) -> Result<Vec<Rectangle>, Limit> {
    let parts: Vec<Rectangle> = pieces
        .iter()
        .flat_map(|&piece| common_parts(piece, parent))
        .collect();
    if parts.len() > LIST_LIMIT {
        return Err(Limit::AfterCommonParts);
    }
    Ok(parts)
}

/// 'Put the pieces where the chosen rectangle stood; refine.'
fn with_pieces(
    polygon: &[Rectangle],
    chosen: usize,
    pieces: &[Rectangle],
) -> Result<Vec<Rectangle>, Limit> {
    let (before, after) = (&polygon[..chosen], &polygon[chosen + 1..]);
    let refined = refine(&[before, pieces, after].concat());
    if refined.len() > POLYGON_LIMIT {
        return Err(Limit::Refined);
    }
    Ok(refined)
}
