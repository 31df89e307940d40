//! Insertions into indexes with gaps between the parts: no history of insertions alone leads to
//! them. The work area holds other numbers each time, and the whole index is tested after each call.

mod memory_support;
mod support;

use memory_support::full_path::steep_tree;
use memory_support::grown_path::{cell_outside, tall_tree};
use memory_support::histories::random_history;
use memory_support::images::{any_image, any_tree};
use memory_support::part_gaps::Gaps;
use memory_support::trees::random_tree;
use memory_support::MOST_PARTS;
use reference::geometry::Rectangle;
use reference::random::Random;
use reference::tree::{Entry, Tree};
use support::counts::Tally;
use support::trace::trace;
use support::{say, seed};

const GRID: Rectangle = Rectangle {
    ll: [0, 0],
    ur: [65536, 65536],
};

/// Removals and insertions in turn.
fn change(
    tree: Option<&Tree>,
    n: usize,
    turns: [usize; 2],
    random: &mut Random,
    tally: &mut Tally,
) {
    let image = any_image(n, tree, random);
    let label = format!("LINTZOGER_SEED={}, N = {n}", seed());
    let mut gaps = Gaps::new(&image, label);
    for _ in 0..turns[0] {
        gaps.remove_run(random);
        gaps.insert_some(turns[1], random);
    }
    tally.add_all(&gaps.tally());
}

const AMONG_GAPS: [&str; 3] = [
    "among gaps, no split",
    "among gaps, one node more",
    "among gaps, more nodes",
];

/// Histories, trees made directly, and full paths.
#[test]
fn small_indexes() {
    let seed = seed();
    let mut tally = Tally::default();
    for case in 0..600 {
        let mut random = Random::for_case(seed, 1700, case);
        let n = random.between(2, 48) as usize;
        let tree = match case % 4 {
            0 => random_history(n, &mut random),
            1 => Some(random_tree(n, &mut random)),
            2 => any_tree(n, &mut random),
            _ => Some(steep_tree(1 + case as usize / 4 % 4, GRID, &mut random)),
        };
        let nodes = tree.as_ref().map_or(0, Tree::nodes);
        change(
            tree.as_ref(),
            n.max(nodes + 4),
            [3, 15],
            &mut random,
            &mut tally,
        );
    }
    say(&format!("gaps, small indexes: {tally}"));
    tally.require(50, &AMONG_GAPS);
    tally.require(10, &["insert refused 8"]);
}

/// Indexes of up to 256 parts.
#[test]
fn large_indexes() {
    let seed = seed();
    let mut tally = Tally::default();
    for case in 0..20 {
        let mut random = Random::for_case(seed, 1701, case);
        let n = random.between(100, 256) as usize;
        let tree = match case % 2 {
            0 => random_history(n, &mut random),
            _ => Some(steep_tree(3 + case as usize / 2 % 5, GRID, &mut random)),
        };
        let nodes = tree.as_ref().map_or(0, Tree::nodes);
        change(
            tree.as_ref(),
            n.max(nodes),
            [3, 60],
            &mut random,
            &mut tally,
        );
    }
    say(&format!("gaps, large indexes: {tally}"));
    tally.require(100, &["among gaps, no split"]);
    tally.require(10, &["among gaps, one node more"]);
}

/// Tall trees with several rectangles in each polygon: cells outside of a level, so that its
/// polygon and all below grow, and cells in the leaves.
#[test]
fn tall_trees() {
    let seed = seed();
    let mut tally = Tally::default();
    for case in 0..60 {
        let mut random = Random::for_case(seed, 1702, case);
        let levels = random.pick(&[12, 60, 120, 200, 230, 246, 253]);
        let most = (MOST_PARTS - levels).clamp(3, 12);
        let tree = tall_tree(levels, most, &mut random);
        let n = random
            .pick(&[tree.nodes(), tree.nodes() + 3, MOST_PARTS])
            .min(MOST_PARTS);
        let image = any_image(n, Some(&tree), &mut random);
        let label = format!("LINTZOGER_SEED={seed}, tall tree {case}, N = {n}");
        let mut gaps = Gaps::new(&image, label);
        for _ in 0..8 {
            let last = random.pick(&[0, 5, levels as u32 - 3]);
            let level = random.between(0, last) as usize;
            let cell = cell_outside(level, &mut random);
            let kind = grown_kind(gaps.tree().expect("a tree"), cell);
            gaps.scatter(&mut random);
            if gaps.insert(cell, &mut random) == 0 {
                tally.count(kind);
            }
        }
        gaps.insert_some(6, &mut random);
        tally.add_all(&gaps.tally());
    }
    say(&format!("gaps, tall trees: {tally}"));
    tally.require(20, &["among gaps, no split"]);
    tally.require(5, &["accepted, 100 or more levels grown"]);
}

/// How many levels the insertion makes grow.
fn grown_kind(tree: &Tree, cell: [u32; 2]) -> &'static str {
    match trace(tree, Entry { cell, tag: 0 }).sizes.levels {
        0..=9 => "accepted, under 10 levels grown",
        10..=99 => "accepted, 10 to 99 levels grown",
        _ => "accepted, 100 or more levels grown",
    }
}
