//! Emptiness queries of images to which no history need lead: unrefined and notched polygons,
//! overlapping rectangles, gaps between the parts, chains of up to 256 levels; and damaged ones.

mod memory_support;
mod support;

use memory_support::built::{chain, chain_of_sixteens};
use memory_support::cases;
use memory_support::damage::random_changes;
use memory_support::emptiness::{EmptinessOutput, ANSWERED};
use memory_support::grown_path::cell_outside;
use memory_support::images::{any_image, any_tree, GRID};
use memory_support::lent::Lent;
use memory_support::queries::{
    edge_windows, invalid_windows, numbers_of, window_at, windows_of, with_margin, Queried,
};
use memory_support::MOST_PARTS;
use reference::geometry::Rectangle;
use reference::random::Random;
use std::fmt::Arguments;

/// So many windows at cells in the polygons, beside them and anywhere, and the whole grid.
fn ask_nearby(queried: &mut Queried, count: usize, random: &mut Random, place: Arguments) {
    let tree = queried.tree();
    queried.is_empty(numbers_of(GRID), place);
    for _ in 0..count {
        queried.is_empty(window_at(tree.as_ref(), random), place);
    }
}

fn ask_all(queried: &mut Queried, square: Rectangle, place: Arguments) {
    for window in windows_of(square) {
        queried.is_empty(window, place);
    }
}

/// Windows along all sides of all rectangles, and others.
#[test]
fn built() {
    let tally = cases::built(2600, |queried, tree, random, place| {
        for window in tree.polygons().concat().into_iter().flat_map(edge_windows) {
            queried.is_empty(window, place);
        }
        ask_nearby(queried, 300, random, place);
    });
    tally.require(10, &ANSWERED);
}

/// Every window of the root's rectangle and of a margin.
#[test]
fn every_window_of_small_grids() {
    let tally = cases::small_grids(2601, 400, 6, |queried, square, place| {
        ask_all(queried, with_margin(square), place);
    });
    tally.require(2_000, &ANSWERED);
}

/// A sound tree has the right answer for every window, another is refused.
#[test]
fn loose_trees() {
    let refuse = |lent: &Lent, place: Arguments| {
        let output = lent.is_empty(&lent.reading(), [1, 2, 3, 4], place);
        assert_eq!(output, EmptinessOutput::refused(4), "{place}");
        output.kind()
    };
    let tally = cases::loose_trees(2602, 1000, 6, ask_all, refuse);
    tally.require(1_000, &ANSWERED);
    tally.require(100, &["emptiness refused 4"]);
}

#[test]
fn ragged_trees() {
    let ask = |queried: &mut Queried, random: &mut Random, place: Arguments| {
        ask_nearby(queried, 40, random, place);
    };
    cases::ragged_trees(2603, ask).require(50, &ANSWERED);
}

#[test]
fn random_images() {
    let ask = |queried: &mut Queried, random: &mut Random, place: Arguments| {
        ask_nearby(queried, 60, random, place);
    };
    cases::random_images(2604, ask).require(500, &ANSWERED);
}

/// One-branch nodes: all are entered or none is. A chain has the cells (7,9), (1006,1008) and
/// (500,500) in the rectangle (7,9)-(1007,1009).
#[test]
fn chains() {
    let cases = MOST_PARTS as u64;
    cases::run("chain", 2605, cases, |case, random, tally, place| {
        let levels = case as usize + 1;
        let lent = Lent::new(&any_image(MOST_PARTS, Some(&chain(levels)), random));
        let reading = lent.reading();
        for (window, stored) in [
            (numbers_of(GRID), [0, levels as u32]),
            ([8, 0, 500, 65536], [1, levels as u32]),
            ([0, 0, 7, 65536], [1, 0]),
        ] {
            let output = lent.is_empty(&reading, window, place);
            let given = (output.answer, [output.empty, output.visits]);
            assert_eq!(given, (0, stored), "{place}: {window:?}");
            tally.count(output.kind());
        }
        let tree = chain_of_sixteens(levels, random);
        let mut queried = cases::queried(MOST_PARTS, &tree, random, tally);
        ask_nearby(&mut queried, 2, random, place);
    });
}

/// Also cells just outside of the polygon of a level.
#[test]
fn tall_trees() {
    let tally = cases::tall_trees(2606, |queried, levels, random, place| {
        ask_nearby(queried, 20, random, place);
        for _ in 0..20 {
            let level = random.between(0, levels as u32 - 3) as usize;
            let [x, y] = cell_outside(level, random);
            queried.is_empty([x, y, x + 1, y + 1], place);
        }
    });
    tally.require(100, &["emptiness yes, visits"]);
    tally.require(10, &["emptiness no, nodes not entered"]);
}

#[test]
fn large_images() {
    let ask = |queried: &mut Queried, random: &mut Random, place: Arguments| {
        ask_nearby(queried, 400, random, place);
    };
    cases::large_images(2607, ask).require(20, &ANSWERED[1..]);
}

/// A damaged image is refused with 4 for every window, also one that shares no cell with the root's
/// rectangle, and with 3 before it for what is no window.
#[test]
fn damaged_images() {
    let tally = cases::run("damaged image", 2608, 3000, |_, random, tally, place| {
        let n = random.between(1, 12) as usize;
        let tree = any_tree(n, random);
        let mut lent = Lent::new(&any_image(n, tree.as_ref(), random));
        for (i, number) in random_changes(lent.index(), random) {
            lent.set(i, number);
        }
        let reading = lent.reading();
        let windows = [(); 4].map(|()| window_at(tree.as_ref(), random));
        let invalid = random.pick(&invalid_windows(GRID));
        for window in windows.into_iter().chain([invalid]) {
            let output = lent.is_empty(&reading, window, place);
            let refusal = if window == invalid { 3 } else { 4 };
            if reading.index().is_none() || window == invalid {
                assert_eq!(output, EmptinessOutput::refused(refusal), "{place}");
            }
            tally.count(output.kind());
        }
    });
    tally.require(5_000, &["emptiness refused 4"]);
    tally.require(3_000, &["emptiness refused 3"]);
}
