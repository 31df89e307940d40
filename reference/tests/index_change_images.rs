//! Insertion and removal on any sound memory: unrefined polygons, chains, gaps, full paths. No
//! history leads to most of these.

mod memory_support;
mod support;

use memory_support::built::{below, built_trees, chain, chain_of_sixteens};
use memory_support::calls::Session;
use memory_support::changes::{change, change_images, change_singly, empty_in_order};
use memory_support::full_path::{full_leaf_cells, steep_tree};
use memory_support::histories::random_history;
use memory_support::images::{any_image, any_tree, first_parts, last_parts, nodes, small_grid};
use memory_support::piece_limits::{ragged, Ragged};
use memory_support::trees::{random_tree, tree_of};
use memory_support::work_areas::DIRTS;
use memory_support::MOST_PARTS;
use reference::geometry::Rectangle;
use reference::memory::image;
use reference::random::Random;
use reference::tree::{Entry, Limit};
use support::checked::Command;
use support::counts::Tally;
use support::trace::{trace, Trace};
use support::{say, seed};

const GRID: Rectangle = Rectangle {
    ll: [0, 0],
    ur: [65536, 65536],
};

#[test]
fn built() {
    let seed = seed();
    let mut tally = Tally::default();
    for (case, (name, tree)) in built_trees().iter().enumerate() {
        let mut random = Random::for_case(seed, 1400, case as u64);
        let count = tree.nodes();
        let label = format!("LINTZOGER_SEED={seed}, {name}");
        for n in [count, count + 1, count + 2, count + 9] {
            let images = [
                image(n, Some(tree), &first_parts(count)),
                image(n, Some(tree), &last_parts(n, count)),
                any_image(n, Some(tree), &mut random),
            ];
            for image in &images {
                let dirt = random.pick(&DIRTS);
                tally.add_all(&change_singly(image, dirt, &label));
                tally.add_all(&empty_in_order(image, dirt, &label));
            }
            tally.add_all(&change_images(&images, 60, &mut random, &label));
        }
    }
    say(&format!("built images: {tally}"));
    tally.require(20, &CHANGED);
    tally.require(20, &["insert refused 8"]);
}

/// The kinds of acceptance.
const CHANGED: [&str; 7] = [
    "insert accepted, no split",
    "insert accepted, one node more",
    "insert accepted, new root",
    "remove accepted, nodes kept",
    "remove accepted, one node less",
    "remove accepted, more nodes less",
    "remove accepted, index empty after",
];

/// Histories and trees made directly, of up to 24 nodes.
#[test]
fn random_images() {
    let seed = seed();
    let mut tally = Tally::default();
    for case in 0..2500 {
        let mut random = Random::for_case(seed, 1401, case);
        let n = random.between(1, 24) as usize;
        let tree = match case % 4 {
            0 => random_history(n, &mut random),
            1 => any_tree(n, &mut random),
            _ => Some(random_tree(n, &mut random)),
        };
        let image = any_image(n, tree.as_ref(), &mut random);
        let label = format!("LINTZOGER_SEED={seed}, case {case}");
        tally.add_all(&change_images(&[image], 40, &mut random, &label));
    }
    say(&format!("random images, changes: {tally}"));
    tally.require(100, &CHANGED);
    tally.require(10, &["insert accepted, more nodes", "insert refused 8"]);
}

/// Small grids, where cells are dense and polygons touch.
#[test]
fn small_grids() {
    let seed = seed();
    let mut tally = Tally::default();
    for case in 0..1500 {
        let mut random = Random::for_case(seed, 1402, case);
        let (_, image) = small_grid(14, [2, 12], &mut random);
        let label = format!("LINTZOGER_SEED={seed}, small grid {case}");
        tally.add_all(&change_images(&[image], 60, &mut random, &label));
    }
    say(&format!("small grids, changes: {tally}"));
    tally.require(100, &CHANGED);
}

/// Full paths of one to eight levels, from the root down or below a root with one branch: an
/// insertion splits nodes at every level, and the branches beside the path recursively.
#[test]
fn full_paths() {
    let seed = seed();
    let mut tally = Tally::default();
    for case in 0..800 {
        let mut random = Random::for_case(seed, 1403, case);
        let levels = 1 + case as usize % 8;
        let tree = steep_tree(levels, GRID, &mut random);
        let tree = below(&tree, case as usize / 8 % 2);
        let more = random.pick(&[0, 1, levels, levels + 1, 3 * levels, 60]);
        let n = (tree.nodes() + more).min(MOST_PARTS);
        let image = any_image(n, Some(&tree), &mut random);
        let label = format!("LINTZOGER_SEED={seed}, full path {case}");
        let mut session = Session::of_image(&image, DIRTS[case as usize % 4], label);
        let full = session.tree().map_or_else(Vec::new, full_leaf_cells);
        for _ in 0..12 {
            let [a, b] = [random.pick(&full), random.pick(&full)];
            session.apply(Command::Insert([a[0], b[1]], 1));
        }
        change(&mut session, 20, &mut random);
        tally.add_all(&session.tally);
    }
    say(&format!("full paths: {tally}"));
    tally.require(50, &["insert accepted, new root", "insert refused 8"]);
    tally.require(20, &["insert accepted, more nodes"]);
}

/// A leaf grows past bars of its siblings: accepted with up to 256 pieces and common parts, and
/// refused with 7 for each of the three causes.
#[test]
fn ragged_trees() {
    let seed = seed();
    let mut tally = Tally::default();
    for case in 0..4000 {
        let mut random = Random::for_case(seed, 1406, case);
        let copies = random.pick(&[1, 1, 2, 6, 7, 8, 9, 10, 16]);
        let Ragged { tree, cell } = ragged(copies, &mut random);
        tally.count(limit_kind(&trace(&tree, Entry { cell, tag: 9 })));
        let image = any_image(tree.nodes() + 1, Some(&tree), &mut random);
        let label = format!("LINTZOGER_SEED={seed}, ragged tree {case}");
        let mut session = Session::of_image(&image, DIRTS[case as usize % 4], label);
        session.apply(Command::Insert(cell, 9));
        change(&mut session, 4, &mut random);
        tally.add_all(&session.tally);
    }
    say(&format!("ragged trees: {tally}"));
    tally.require(
        20,
        &[
            "accepted, 200 to 256 pieces",
            "accepted, 200 to 256 common parts",
            "refused, 257 to 300 pieces",
            "refused, 257 to 300 common parts",
            "refused, over 16 rectangles",
        ],
    );
}

/// How near the insertion is to a limit of 256. A refusal stands for a limit only where the steps
/// after it would have been passed, which is so here for nearly all.
fn limit_kind(trace: &Trace) -> &'static str {
    let sizes = trace.sizes;
    let near = 200..=256;
    match trace.limit {
        None if near.contains(&sizes.after_cut) => "accepted, 200 to 256 pieces",
        None if near.contains(&sizes.after_common_parts) => "accepted, 200 to 256 common parts",
        None => "accepted, few pieces",
        Some(Limit::AfterCut) if sizes.after_cut <= 300 => "refused, 257 to 300 pieces",
        Some(Limit::AfterCut) => "refused, more pieces",
        Some(Limit::AfterCommonParts) if sizes.after_common_parts <= 300 => {
            "refused, 257 to 300 common parts"
        }
        Some(Limit::AfterCommonParts) => "refused, more common parts",
        Some(Limit::Refined) => "refused, over 16 rectangles",
    }
}

/// Chains of one-branch nodes up to 256 levels: cells inside and outside, the leaf filled and
/// split, all removed.
#[test]
fn chains() {
    let seed = seed();
    let mut tally = Tally::default();
    for levels in [1, 2, 3, 31, 100, 200, 254, 255, 256] {
        let mut random = Random::for_case(seed, 1404, levels as u64);
        for n in [levels, levels + 1, levels + 2, MOST_PARTS] {
            let n = n.min(MOST_PARTS);
            for tree in [chain(levels), chain_of_sixteens(levels, &mut random)] {
                let image = any_image(n, Some(&tree), &mut random);
                let label = format!("LINTZOGER_SEED={seed}, chain of {levels}, N = {n}");
                let mut session = Session::of_image(&image, random.pick(&DIRTS), label);
                for i in 0..12 {
                    let far = [0, 1].map(|_| random.between(0, 65535));
                    let cell = random.pick(&[[500 + i, 600], [8, 10 + 3 * i], far]);
                    session.apply(Command::Insert(cell, i));
                }
                session.remove_all(&mut random);
                tally.add_all(&session.tally);
            }
        }
    }
    say(&format!("chains: {tally}"));
    tally.require(50, &["insert accepted, no split", "insert refused 8"]);
    tally.require(5, &["insert accepted, one node more"]);
    tally.require(20, &["remove accepted, index empty after"]);
}

/// Large images: full histories and trees of six levels.
#[test]
fn large_images() {
    let seed = seed();
    let mut tally = Tally::default();
    for case in 0..12 {
        let mut random = Random::for_case(seed, 1405, case);
        let n = random.pick(&[200, 255, 256]);
        let tree = match case % 3 {
            0 => random_history(n, &mut random),
            1 => Some(random_tree(n, &mut random)),
            _ => Some(tree_of(6, n, GRID, &mut random)),
        };
        let image = any_image(n, tree.as_ref(), &mut random);
        assert!(nodes(tree.as_ref()) <= n);
        let label = format!("LINTZOGER_SEED={seed}, large image {case}");
        tally.add_all(&change_images(&[image], 400, &mut random, &label));
    }
    say(&format!("large images, changes: {tally}"));
    tally.require(500, &["insert accepted, no split"]);
}
