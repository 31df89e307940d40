//! Images to which no history need lead, of several kinds, so many of each. The kinds are asked for
//! with a group, by which they differ from test to test.

use super::built::built_trees;
use super::grown_path::tall_tree;
use super::half_sound::loose_tree;
use super::images::{any_image, large_image, nodes, small_grid, tree_of_case};
use super::lent::Lent;
use super::piece_limits::ragged;
use super::queries::Queried;
use super::MOST_PARTS;
use crate::support::counts::Tally;
use crate::support::{say, seed};
use reference::geometry::Rectangle;
use reference::memory::is_sound;
use reference::random::Random;
use reference::tree::Tree;
use std::fmt::Arguments;

/// So many cases of that name, each with a generator of its own. Says what they reached.
pub fn run(
    name: &str,
    group: u64,
    cases: u64,
    ask: impl Fn(u64, &mut Random, &mut Tally, Arguments),
) -> Tally {
    let seed = seed();
    let mut tally = Tally::default();
    for case in 0..cases {
        let mut random = Random::for_case(seed, group, case);
        let place = format_args!("LINTZOGER_SEED={seed}, {name} {case}");
        ask(case, &mut random, &mut tally, place);
    }
    say(&format!("{name}s: {tally}"));
    tally
}

/// The tree's image at any parts.
pub fn queried<'a>(
    n: usize,
    tree: &Tree,
    random: &mut Random,
    tally: &'a mut Tally,
) -> Queried<'a> {
    Queried::new(&any_image(n, Some(tree), random), tally)
}

/// The trees that are built by hand, with room for two nodes more.
pub fn built(group: u64, ask: impl Fn(&mut Queried, &Tree, &mut Random, Arguments)) -> Tally {
    let trees = built_trees();
    let cases = trees.len() as u64;
    run("built tree", group, cases, |case, random, tally, place| {
        let (name, tree) = &trees[case as usize];
        let mut queried = queried(tree.nodes() + 2, tree, random, tally);
        ask(&mut queried, tree, random, format_args!("{place}, {name}"));
    })
}

/// Random trees on rectangles whose sides are at most so long.
pub fn small_grids(
    group: u64,
    cases: u64,
    longest: u32,
    ask: impl Fn(&mut Queried, Rectangle, Arguments),
) -> Tally {
    run("small grid", group, cases, |_, random, tally, place| {
        let (square, image) = small_grid(12, [1, longest], random);
        ask(&mut Queried::new(&image, tally), square, place);
    })
}

/// Trees made without care on squares whose sides are at most so long: `ask` gets the sound ones,
/// with a margin on two sides of the square; `refuse` the others, whose answer it gives back.
pub fn loose_trees(
    group: u64,
    cases: u64,
    longest: u32,
    ask: impl Fn(&mut Queried, Rectangle, Arguments),
    refuse: impl Fn(&Lent, Arguments) -> &'static str,
) -> Tally {
    run("loose tree", group, cases, |_, random, tally, place| {
        let side = random.between(3, longest);
        let tree = loose_tree(side, random);
        let image = any_image(tree.nodes(), Some(&tree), random);
        if is_sound(&tree) {
            let square = Rectangle::new(0, 0, side + 1, side + 1);
            ask(&mut Queried::new(&image, tally), square, place);
        } else {
            tally.count(refuse(&Lent::new(&image), place));
        }
    })
}

/// Leaves whose polygons are up to sixteen bars, with rows of other leaves between them.
pub fn ragged_trees(group: u64, ask: impl Fn(&mut Queried, &mut Random, Arguments)) -> Tally {
    run("ragged tree", group, 400, |case, random, tally, place| {
        let tree = ragged(1 + case as usize % 3, random).tree;
        let mut queried = queried(tree.nodes(), &tree, random, tally);
        ask(&mut queried, random, place);
    })
}

/// Histories, and trees made directly: of any kind, and with arms around the middle of each node.
pub fn random_images(group: u64, ask: impl Fn(&mut Queried, &mut Random, Arguments)) -> Tally {
    run("random image", group, 600, |case, random, tally, place| {
        let n = random.between(1, 40) as usize;
        let tree = tree_of_case(case, n, random);
        let n = n.max(nodes(tree.as_ref()));
        let image = any_image(n, tree.as_ref(), random);
        ask(&mut Queried::new(&image, tally), random, place);
    })
}

/// Polygons that become smaller over so many levels; a small tree below them.
pub fn tall_trees(group: u64, ask: impl Fn(&mut Queried, usize, &mut Random, Arguments)) -> Tally {
    run("tall tree", group, 24, |_, random, tally, place| {
        let levels = random.pick(&[10, 100, 200, 230, 236]);
        let tree = tall_tree(levels, 20, random);
        let mut queried = queried(MOST_PARTS, &tree, random, tally);
        ask(&mut queried, levels, random, place);
    })
}

/// Many parts, full and with gaps.
pub fn large_images(group: u64, ask: impl Fn(&mut Queried, &mut Random, Arguments)) -> Tally {
    run("large image", group, 8, |case, random, tally, place| {
        let image = large_image(case, random);
        ask(&mut Queried::new(&image, tally), random, place);
    })
}
