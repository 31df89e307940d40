//! Queries of sound images.

mod memory_support;
mod support;

use memory_support::built::{built_trees, chain, chain_of_sixteens};
use memory_support::emptiness::ANSWERED;
use memory_support::histories::{history, random_history, WHOLE};
use memory_support::images::{any_image, any_tree, first_parts, last_parts, nodes, small_grid};
use memory_support::outcome::ACCEPTED;
use memory_support::queries::{
    any_window, corner_cells, edge_windows, windows_of, with_margin, Queried, LONG,
};
use memory_support::trees::tree_of;
use reference::geometry::Rectangle;
use reference::memory::image;
use reference::random::Random;
use reference::tree::Tree;
use std::fmt::Arguments;
use support::counts::Tally;
use support::{say, seed};

/// The cells of the entries and at the corners of all rectangles and of the grid; windows along
/// all their sides.
fn query_all(queried: &mut Queried, place: Arguments) {
    let Some(tree) = queried.tree() else {
        queried.point([0, 0], place);
        queried.point([65535, 65535], place);
        queried.window_with_lists([0, 0, 65536, 65536], place);
        return;
    };
    for entry in tree.entries() {
        queried.point(entry.cell, place);
        let [x, y] = entry.cell;
        queried.window_with_lists([x, y, x + 1, y + 1], place);
    }
    let grid = Rectangle::new(0, 0, 65536, 65536);
    for &r in tree.polygons().into_iter().flatten().chain([&grid]) {
        for cell in corner_cells(r) {
            queried.point(cell, place);
        }
        for window in edge_windows(r) {
            queried.window(window, LONG, place);
        }
    }
    queried.window_with_lists([0, 0, 65536, 65536], place);
}

/// The tree at the first parts, at the last ones, and at any.
fn images(n: usize, tree: Option<&Tree>, random: &mut Random) -> [Vec<u32>; 3] {
    let count = nodes(tree);
    [
        image(n, tree, &first_parts(count)),
        image(n, tree, &last_parts(n, count)),
        any_image(n, tree, random),
    ]
}

#[test]
fn built() {
    let mut random = Random::new(seed());
    let mut tally = Tally::default();
    for (name, tree) in built_trees() {
        let n = tree.nodes() + 2;
        for image in images(n, Some(&tree), &mut random) {
            let mut queried = Queried::new(&image, &mut tally);
            query_all(&mut queried, format_args!("{name}"));
        }
    }
    say(&format!("built images: {tally}"));
    tally.require(10, &ACCEPTED);
    tally.require(10, &ANSWERED);
    tally.require(10, &["window refused 9"]);
}

/// Random small trees: every cell of the root's rectangle and its margin, windows and lists.
#[test]
fn every_cell_of_small_grids() {
    let seed = seed();
    let mut tally = Tally::default();
    for case in 0..400 {
        let mut random = Random::for_case(seed, 660, case);
        let (square, image) = small_grid(12, [1, 9], &mut random);
        let mut queried = Queried::new(&image, &mut tally);
        let place = format_args!("LINTZOGER_SEED={seed}, case {case}");
        queried.all_cells(with_margin(square), place);
        for _ in 0..20 {
            queried.window_with_lists(any_window(square, &mut random), place);
        }
    }
    say(&format!("small grids: {tally}"));
    tally.require(100, &ACCEPTED);
    tally.require(100, &ANSWERED[1..]);
    tally.require(100, &["window refused 9"]);
}

/// Every window of tiny grids.
#[test]
fn every_window_of_tiny_grids() {
    let seed = seed();
    let mut tally = Tally::default();
    for case in 0..25 {
        let mut random = Random::for_case(seed, 661, case);
        let tree = tree_of(2, 5, Rectangle::new(1, 1, 6, 6), &mut random);
        let image = any_image(6, Some(&tree), &mut random);
        let mut queried = Queried::new(&image, &mut tally);
        let place = format_args!("LINTZOGER_SEED={seed}, case {case}");
        for window in windows_of(Rectangle::new(0, 0, 7, 7)) {
            let matches = queried.window(window, 3 * 40, place);
            queried.window(window, 3 * matches, place);
        }
    }
    say(&format!("tiny grids: {tally}"));
    tally.require(
        100,
        &[
            "window without match, no visit",
            "window without match, visits",
            "window with one match",
            "window with more matches",
        ],
    );
    tally.require(100, &ANSWERED);
}

/// All entries of a full index and about half of them, with lists of every length from 0 to enough
/// plus one. The trees are the same for every seed, so that they are known to use all parts.
#[test]
fn every_list_of_full_indexes() {
    let mut tally = Tally::default();
    for n in [64, 256] {
        let tree = history(n, 12 * n, WHOLE, &mut Random::new(n as u64)).expect("not empty");
        assert_eq!(tree.nodes(), n);
        let image = image(n, Some(&tree), &first_parts(n));
        let mut queried = Queried::new(&image, &mut tally);
        let place = format_args!("full index, N = {n}");
        let mut columns: Vec<u32> = tree.entries().iter().map(|e| e.cell[0]).collect();
        columns.sort_unstable();
        let (all, middle) = (columns.len(), columns[columns.len() / 2]);
        let matches = queried.window_with_lists([0, 0, 65536, 65536], place);
        assert_eq!(matches, all, "{place}");
        let matches = queried.window_with_lists([0, 0, middle, 65536], place);
        assert!(2 * matches > all - 9 && 2 * matches <= all, "{place}");
    }
    say(&format!("lists of full indexes: {tally}"));
}

/// Every N: a random tree and a chain that uses all parts.
#[test]
fn every_n() {
    let seed = seed();
    let mut tally = Tally::default();
    for n in 1..=256 {
        let mut random = Random::for_case(seed, 662, n as u64);
        let most = n.min(40);
        for tree in [any_tree(most, &mut random), Some(chain(n)), None] {
            let image = any_image(n, tree.as_ref(), &mut random);
            let mut queried = Queried::new(&image, &mut tally);
            let place = format_args!("LINTZOGER_SEED={seed}, N = {n}");
            let near = tree.map_or(Rectangle::new(0, 0, 9, 9), |t| t.rectangle);
            for cell in corner_cells(near) {
                queried.point(cell, place);
                queried.nearest(cell, place);
            }
            queried.window_with_lists([0, 0, 65536, 65536], place);
            queried.window_with_lists(any_window(near, &mut random), place);
        }
    }
    say(&format!("every N: {tally}"));
    tally.require(100, &["point held, more visits", "window refused 9"]);
    tally.require(100, &["nearest queries", "nearest refused 10"]);
}

/// Histories and random trees of up to 24 nodes.
#[test]
fn random_images() {
    let seed = seed();
    let mut tally = Tally::default();
    for case in 0..150 {
        let mut random = Random::for_case(seed, 663, case);
        let n = random.between(1, 24) as usize;
        let tree = match case % 3 {
            0 => random_history(n, &mut random),
            _ => any_tree(n, &mut random),
        };
        let image = any_image(n, tree.as_ref(), &mut random);
        let mut queried = Queried::new(&image, &mut tally);
        query_all(
            &mut queried,
            format_args!("LINTZOGER_SEED={seed}, case {case}"),
        );
    }
    say(&format!("random images: {tally}"));
    tally.require(10, &ACCEPTED);
    tally.require(10, &ANSWERED);
}

/// Full and tall indexes: a history of N = 256, and chains with polygons of sixteen.
#[test]
fn large_images() {
    let seed = seed();
    let mut random = Random::for_case(seed, 664, 0);
    let trees = [
        history(256, 2500, WHOLE, &mut random),
        Some(chain(256)),
        Some(chain_of_sixteens(256, &mut random)),
        Some(tree_of(
            6,
            256,
            Rectangle::new(0, 0, 65536, 65536),
            &mut random,
        )),
    ];
    let mut tally = Tally::default();
    for (case, tree) in trees.into_iter().enumerate() {
        let image = any_image(256, tree.as_ref(), &mut random);
        let mut queried = Queried::new(&image, &mut tally);
        let place = format_args!("LINTZOGER_SEED={seed}, large image {case}");
        let tree = tree.expect("the index is not empty");
        let entries = tree.entries();
        for _ in 0..150 {
            queried.point(random.pick(&entries).cell, place);
            let cell = [0, 1].map(|_| random.between(0, 65535));
            queried.point(cell, place);
            let window = any_window(tree.rectangle, &mut random);
            queried.window(window, LONG, place);
        }
        queried.window_with_lists([0, 0, 65536, 65536], place);
    }
    say(&format!("large images: {tally}"));
    tally.require(
        100,
        &["point held, more visits", "window with more matches"],
    );
}
