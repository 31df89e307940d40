//! Insertions that refine some 265 rectangles, which join to few, at every level that they go
//! through: step 2's longest lists.

mod memory_support;
mod support;

use memory_support::images::any_image;
use memory_support::part_gaps::Gaps;
use reference::bands::{dear, Dear};
use reference::memory::is_sound;
use reference::random::Random;
use reference::tree::{Entry, Node, Tree};
use support::counts::Tally;
use support::shapes::shuffle;
use support::trace::trace;
use support::{say, seed};

/// The tree with the rectangles of each polygon in another order, which changes the order of the
/// pieces, too.
fn shuffled(tree: &Tree, random: &mut Random) -> Tree {
    let mut tree = tree.clone();
    shuffle_polygons(&mut tree.root, random);
    tree
}

fn shuffle_polygons(node: &mut Node, random: &mut Random) {
    if let Node::Routing(routing) = node {
        for branch in &mut routing.branches {
            shuffle(&mut branch.polygon, random);
            shuffle_polygons(&mut branch.child, random);
        }
    }
}

/// Inserts the cell, then others. Returns the first answer.
fn insert(tree: &Tree, n: usize, cell: [u32; 2], label: String, random: &mut Random) -> u32 {
    let mut gaps = Gaps::new(&any_image(n, Some(tree), random), label);
    let answer = gaps.insert(cell, random);
    gaps.insert_some(3, random);
    answer
}

/// As made, with up to fourteen levels.
#[test]
fn every_level() {
    let seed = seed();
    for n in [5, 10, 16, 64, 256] {
        let mut random = Random::for_case(seed, 1730, n as u64);
        let Dear { tree, cell } = dear(n);
        assert!(is_sound(&tree) && tree.nodes() <= n);
        let sizes = trace(&tree, Entry { cell, tag: 1 }).sizes;
        assert_eq!(sizes.levels, tree.height() - 2);
        assert!(sizes.after_common_parts > 250 && sizes.refined <= 16);
        say(&format!("refine in insertion, N = {n}: {sizes:?}"));
        let label = format!("LINTZOGER_SEED={seed}, dear insertion, N = {n}");
        assert_eq!(insert(&tree, n, cell, label, &mut random), 0);
    }
}

/// One or two levels, in other orders: some end in more than 16 rectangles, which is refused.
#[test]
fn other_orders() {
    let seed = seed();
    let mut tally = Tally::default();
    for case in 0..24 {
        let mut random = Random::for_case(seed, 1731, case);
        let n = random.pick(&[5, 6, 10]);
        let Dear { tree, cell } = dear(n);
        let label = format!("LINTZOGER_SEED={seed}, dear insertion in order {case}");
        let tree = shuffled(&tree, &mut random);
        tally.count(match insert(&tree, n, cell, label, &mut random) {
            0 => "accepted",
            7 => "refused 7",
            _ => "other answers",
        });
    }
    say(&format!("refine in insertion, other orders: {tally}"));
    tally.require(1, &["accepted", "refused 7"]);
}
