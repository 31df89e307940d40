//! The line that a node with nine is split at.

use super::{Branch, Entry, Node, Side, F};
use crate::geometry::{Cell, GRID_END};

/// The line at coordinate `l` of a dimension.
#[derive(Clone, Copy, Debug, PartialEq, Eq)]
pub struct Line {
    pub dimension: usize,
    pub l: u32,
}

impl Line {
    /// 'Left has coordinate below l, right the others.'
    pub fn side(self, cell: Cell) -> Side {
        if cell[self.dimension] < self.l {
            Side::Left
        } else {
            Side::Right
        }
    }
}

/// The line of a node with nine.
pub fn line(node: &Node) -> Line {
    match node {
        Node::Leaf(leaf) => leaf_line(&leaf.entries),
        Node::Routing(routing) => routing_line(&routing.branches),
    }
}

/// Leaf: 'the dimension with the larger n x Sum(v^2) - (Sum v)^2, x on a tie;
/// l = floor(Sum v / n) + 1.'
pub fn leaf_line(entries: &[Entry]) -> Line {
    let n = entries.len() as u64;
    let sum = |d: usize| -> u64 { entries.iter().map(|e| u64::from(e.cell[d])).sum() };
    let squares = |d: usize| -> u64 { entries.iter().map(|e| u64::from(e.cell[d]).pow(2)).sum() };
    let spread = |d: usize| n * squares(d) - sum(d) * sum(d);
    let dimension = if spread(1) > spread(0) { 1 } else { 0 };
    Line {
        dimension,
        l: (sum(dimension) / n + 1) as u32,
    }
}

/// Routing node: 'among all whole l from 1 to 65535 in both dimensions, each side must receive 1 to
/// 8 branches that hold entries there. Take the line with fewest branches holding entries on both
/// sides; ties to x, then smaller l.'
///
/// The counts change only from l = v to l = v + 1, where v is the first or last coordinate of a
/// branch's entries. So of the lines with equal counts the smallest l is 1 or one of these v + 1,
/// and no other line is tried.
pub fn routing_line(branches: &[Branch]) -> Line {
    let mut best: Option<(usize, Line)> = None;
    for dimension in 0..2 {
        let ranges: Vec<Range> = branches.iter().map(|b| range(b, dimension)).collect();
        for l in lines_to_try(&ranges) {
            let both = branches_on_both_sides(&ranges, l);
            if fits(&ranges, l) && best.is_none_or(|(fewest, _)| both < fewest) {
                best = Some((both, Line { dimension, l }));
            }
        }
    }
    best.expect("the ninth branch came from a split just below")
        .1
}

/// The first and the last coordinate, in one dimension, of the entries below a branch.
struct Range {
    first: u32,
    last: u32,
}

fn range(branch: &Branch, dimension: usize) -> Range {
    let entries = branch.child.entries();
    let coordinates = || entries.iter().map(|e| e.cell[dimension]);
    Range {
        first: coordinates().min().expect("a node has entries"),
        last: coordinates().max().expect("a node has entries"),
    }
}

/// In rising order, within 1 to 65535.
fn lines_to_try(ranges: &[Range]) -> Vec<u32> {
    let mut lines = vec![1];
    for range in ranges {
        lines.extend([range.first + 1, range.last + 1]);
    }
    lines.retain(|&l| l < GRID_END);
    lines.sort_unstable();
    lines.dedup();
    lines
}

fn branches_left(ranges: &[Range], l: u32) -> usize {
    ranges.iter().filter(|r| r.first < l).count()
}

fn branches_right(ranges: &[Range], l: u32) -> usize {
    ranges.iter().filter(|r| r.last >= l).count()
}

fn branches_on_both_sides(ranges: &[Range], l: u32) -> usize {
    let both = |r: &&Range| r.first < l && r.last >= l;
    ranges.iter().filter(both).count()
}

/// 'Each side must receive 1 to 8 branches that hold entries there.'
fn fits(ranges: &[Range], l: u32) -> bool {
    let allowed = 1..=F;
    allowed.contains(&branches_left(ranges, l)) && allowed.contains(&branches_right(ranges, l))
}
