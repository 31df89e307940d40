//! Nearest queries of sound images to which no history need lead: unrefined and notched polygons,
//! overlapping rectangles, gaps between the parts, chains of up to 256 levels.

mod memory_support;
mod support;

use memory_support::built::{chain, chain_of_sixteens};
use memory_support::cases;
use memory_support::changes::any_cell;
use memory_support::grown_path::cell_outside;
use memory_support::images::{any_image, GRID};
use memory_support::lent::Lent;
use memory_support::nearest::{NearestOutput, FOUND, TIES};
use memory_support::queries::{cells_of, corner_cells, with_margin, Queried};
use memory_support::MOST_PARTS;
use reference::geometry::Rectangle;
use reference::random::Random;
use reference::tree::Tree;
use std::fmt::Arguments;

/// The cells of the entries, and at the corners of all rectangles and of the grid.
fn ask_at_corners(queried: &mut Queried, tree: &Tree, place: Arguments) {
    for entry in tree.entries() {
        queried.nearest(entry.cell, place);
    }
    let rectangles = tree.polygons().concat().into_iter().chain([GRID]);
    for cell in rectangles.flat_map(corner_cells) {
        queried.nearest(cell, place);
    }
}

/// So many cells in the polygons, beside them and anywhere.
fn ask_nearby(queried: &mut Queried, count: usize, random: &mut Random, place: Arguments) {
    let tree = queried.tree();
    for _ in 0..count {
        queried.nearest(any_cell(tree.as_ref(), random), place);
    }
}

fn ask_all(queried: &mut Queried, square: Rectangle, place: Arguments) {
    for cell in cells_of(square) {
        queried.nearest(cell, place);
    }
}

#[test]
fn built() {
    let tally = cases::built(2300, |queried, tree, random, place| {
        ask_at_corners(queried, tree, place);
        ask_nearby(queried, 300, random, place);
    });
    tally.require(10, &FOUND);
    tally.require(10, &TIES[..1]);
}

/// Every cell of the root's rectangle and of a margin.
#[test]
fn every_cell_of_small_grids() {
    let tally = cases::small_grids(2301, 1500, 9, |queried, square, place| {
        ask_all(queried, with_margin(square), place);
    });
    tally.require(500, &FOUND);
    tally.require(100, &TIES[..2]);
}

/// A sound tree has the right answer for every cell, another is refused.
#[test]
fn loose_trees() {
    let refuse = |lent: &Lent, place: Arguments| {
        let output = lent.nearest(&lent.reading(), [1, 2], place);
        assert_eq!(output, NearestOutput::refused(4), "{place}");
        output.kind()
    };
    let tally = cases::loose_trees(2302, 3000, 8, ask_all, refuse);
    tally.require(100, &FOUND);
    tally.require(100, &["nearest refused 4"]);
}

#[test]
fn ragged_trees() {
    let ask = |queried: &mut Queried, random: &mut Random, place: Arguments| {
        ask_nearby(queried, 40, random, place);
    };
    cases::ragged_trees(2303, ask).require(500, &FOUND[1..]);
}

#[test]
fn random_images() {
    let ask = |queried: &mut Queried, random: &mut Random, place: Arguments| {
        ask_nearby(queried, 60, random, place);
    };
    let tally = cases::random_images(2304, ask);
    tally.require(500, &FOUND);
    tally.require(50, &TIES[..1]);
}

/// One-branch nodes: each is entered.
#[test]
fn chains() {
    let cases = MOST_PARTS as u64;
    cases::run("chain", 2305, cases, |case, random, tally, place| {
        let levels = case as usize + 1;
        for tree in [chain(levels), chain_of_sixteens(levels, random)] {
            let lent = Lent::new(&any_image(MOST_PARTS, Some(&tree), random));
            let cell = any_cell(Some(&tree), random);
            let output = lent.nearest(&lent.reading(), cell, place);
            let expected = (0, levels as u32);
            assert_eq!((output.answer, output.visits), expected, "{place}");
            tally.count(output.kind());
        }
    });
}

#[test]
fn tall_trees() {
    let tally = cases::tall_trees(2306, |queried, levels, random, place| {
        ask_nearby(queried, 20, random, place);
        for _ in 0..20 {
            let level = random.between(0, levels as u32 - 3) as usize;
            queried.nearest(cell_outside(level, random), place);
        }
    });
    tally.require(100, &["nearest queries", "nearest, nodes passed over"]);
}

#[test]
fn large_images() {
    let ask = |queried: &mut Queried, random: &mut Random, place: Arguments| {
        ask_nearby(queried, 400, random, place);
    };
    let tally = cases::large_images(2307, ask);
    tally.require(100, &["nearest queries", "nearest, nodes passed over"]);
}
