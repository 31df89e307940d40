//! The order of parts: shared, cyclic, orphaned, missing and out of order; heights; bits.

mod memory_support;
mod support;

use memory_support::built::{built_trees, chain, eight_of_eight};
use memory_support::damaged::Damaged;
use memory_support::images::{any_parts, nodes};
use memory_support::trees::random_tree;
use memory_support::MOST_PARTS;
use reference::memory::{image, layout};
use reference::random::Random;
use reference::tree::Tree;
use support::counts::Tally;
use support::{say, seed};

/// All orders of the items.
fn orders(items: &[usize]) -> Vec<Vec<usize>> {
    if items.is_empty() {
        return vec![Vec::new()];
    }
    let mut all = Vec::new();
    for (i, &first) in items.iter().enumerate() {
        let others = [&items[..i], &items[i + 1..]].concat();
        for rest in orders(&others) {
            all.push([vec![first], rest].concat());
        }
    }
    all
}

/// A random tree with two levels at least.
fn branching_tree(most_nodes: usize, random: &mut Random) -> Tree {
    loop {
        let tree = random_tree(most_nodes, random);
        if tree.nodes() > 1 {
            return tree;
        }
    }
}

/// Every order of the parts of small trees: the rising one alone is accepted.
#[test]
fn every_order() {
    let seed = seed();
    let mut tally = Tally::default();
    for case in 0..60 {
        let mut random = Random::for_case(seed, 640, case);
        let tree = branching_tree(5, &mut random);
        let n = 7;
        let rising = any_parts(n, tree.nodes(), &mut random);
        let mut accepted = 0;
        for parts in orders(&rising) {
            let mut damaged = Damaged::new(image(n, Some(&tree), &parts), Some(&tree), &mut random);
            accepted += u32::from(damaged.query(format_args!(
                "LINTZOGER_SEED={seed}, case {case}, {parts:?}"
            )));
            tally.add_all(&damaged.tally);
        }
        assert_eq!(accepted, 1, "LINTZOGER_SEED={seed}, case {case}");
    }
    say(&format!("every order: {tally}"));
}

/// Every child's number and the root's become every number of a part and some beyond, so that
/// parts are shared, reached in a cycle, orphaned, not in use or not there.
#[test]
fn every_reference() {
    let seed = seed();
    let mut tally = Tally::default();
    for case in 0..150 {
        let mut random = Random::for_case(seed, 641, case);
        let n = random.between(3, 14) as usize;
        let tree = branching_tree(n, &mut random);
        let parts = any_parts(n, tree.nodes(), &mut random);
        let image = image(n, Some(&tree), &parts);
        let mut damaged = Damaged::new(image.clone(), Some(&tree), &mut random);
        let items = parts.iter().flat_map(|&k| (0..9).map(move |i| (k, i)));
        let places = items.map(|(k, i)| layout::start_of(k) + layout::ITEMS + i);
        for place in places.chain([layout::ROOT]) {
            for number in (0..n as u32 + 2).chain([31, 32, 255, 256, u32::MAX]) {
                damaged.compare(
                    &[(place, number)],
                    format_args!("LINTZOGER_SEED={seed}, case {case}"),
                );
            }
        }
        tally.add_all(&damaged.tally);
    }
    say(&format!("every reference: {tally}"));
    tally.require(50_000, &["images refused", "emptiness refused 4"]);
}

/// Each of the 256 bits, also those of parts that the index does not have.
#[test]
fn every_bit_of_the_parts_in_use() {
    let seed = seed();
    let mut tally = Tally::default();
    for case in 0..40 {
        let mut random = Random::for_case(seed, 642, case);
        let n = random.pick(&[1, 2, 5, 31, 32, 33, 64, 255, 256]);
        let tree = random_tree(n.min(12), &mut random);
        let parts = any_parts(n, tree.nodes(), &mut random);
        let image = image(n, Some(&tree), &parts);
        let mut damaged = Damaged::new(image.clone(), Some(&tree), &mut random);
        for k in 0..MOST_PARTS {
            let change = (k / 32, image[k / 32] ^ 1 << (k % 32));
            let place = format_args!("LINTZOGER_SEED={seed}, case {case}, N = {n}, bit {k}");
            assert!(!damaged.compare(&[change], place), "{place}");
            // Another bit instead: the number of bits is right.
            let other = parts[random.between(0, parts.len() as u32 - 1) as usize];
            let mut bits = image[..8].to_vec();
            bits[k / 32] ^= 1 << (k % 32);
            bits[other / 32] ^= 1 << (other % 32);
            let changes: Vec<_> = bits.into_iter().enumerate().collect();
            assert_eq!(damaged.compare(&changes, place), k == other, "{place}");
        }
        tally.add_all(&damaged.tally);
    }
    say(&format!("every bit of the parts in use: {tally}"));
}

/// Heights of 0, too small, too large, and far beyond.
#[test]
fn every_height() {
    let mut trees: Vec<Tree> = built_trees().into_iter().map(|(_, tree)| tree).collect();
    trees.extend([1, 2, 31, 32, 64, 255, 256].map(chain));
    let mut random = Random::new(seed());
    let mut tally = Tally::default();
    for tree in trees {
        let count = nodes(Some(&tree));
        let n = (count + 3).min(MOST_PARTS);
        let parts = any_parts(n, count, &mut random);
        let mut damaged = Damaged::new(image(n, Some(&tree), &parts), Some(&tree), &mut random);
        for height in (0..260).chain([512, 65536, 1 << 31, u32::MAX - 1, u32::MAX]) {
            let place = format_args!("chain or built tree of {count} nodes");
            let is_right = height as usize == tree.height();
            let is_accepted = damaged.compare(&[(layout::HEIGHT, height)], place);
            assert_eq!(is_accepted, is_right, "{place}, height {height}");
        }
        tally.add_all(&damaged.tally);
    }
    say(&format!("every height: {tally}"));
}

/// A node's part copied to a part that is not in use, with its bit and without; a child taken out
/// of its parent with its part left behind, with its bit and without.
#[test]
fn orphans() {
    let seed = seed();
    for case in 0..400 {
        let mut random = Random::for_case(seed, 643, case);
        let tree = branching_tree(8, &mut random);
        let n = tree.nodes() + 1;
        let parts = any_parts(n, tree.nodes(), &mut random);
        let image = image(n, Some(&tree), &parts);
        let free = (0..n).find(|k| !parts.contains(k)).expect("a gap");
        let place = format_args!("LINTZOGER_SEED={seed}, case {case}");
        let mut damaged = Damaged::new(image.clone(), Some(&tree), &mut random);
        let from = layout::start_of(random.pick(&parts));
        let mut copy: Vec<_> = (0..layout::PART)
            .map(|i| (layout::start_of(free) + i, image[from + i]))
            .collect();
        assert!(!damaged.compare(&copy, place), "{place}, no bit");
        copy.push((free / 32, image[free / 32] | 1 << (free % 32)));
        assert!(!damaged.compare(&copy, place), "{place}, bit");
    }
}

/// The last child, a leaf, is taken out of the root of a tree of two levels. The image is sound
/// once its part is zero and its bit too.
#[test]
fn a_leaf_taken_out() {
    let tree = eight_of_eight();
    let mut random = Random::new(seed());
    let image = image(9, Some(&tree), &[0, 1, 2, 3, 4, 5, 6, 7, 8]);
    let mut damaged = Damaged::new(image.clone(), Some(&tree), &mut random);
    let root = layout::start_of(8);
    let count = (root + layout::ITEM_COUNT, 7);
    let child = (root + layout::ITEMS + 7, 0);
    let bit = (0, image[0] & !(1 << 7));
    let zeros: Vec<_> = (0..layout::PART)
        .map(|i| (layout::start_of(7) + i, 0))
        .collect();
    let all = [vec![count, child, bit], zeros.clone()].concat();
    assert!(damaged.compare(&all, format_args!("all changes")));
    for left_out in [count, child, bit, zeros[0], zeros[layout::ITEMS]] {
        let mut changes = all.clone();
        changes.retain(|&change| change != left_out);
        assert!(!damaged.compare(&changes, format_args!("but {left_out:?}")));
    }
}
