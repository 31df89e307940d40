//! Damaged images: each is accepted or refused with 4, as the second implementation reads it.

mod memory_support;
mod support;

use memory_support::built::{built_trees, chain, chain_of_sixteens, eight_of_eight};
use memory_support::damage::{random_changes, single_changes, Change};
use memory_support::damaged::Damaged;
use memory_support::histories::{history, WHOLE};
use memory_support::images::{any_image, any_tree, nodes};
use memory_support::length_of;
use memory_support::trees::random_tree;
use reference::random::Random;
use reference::tree::Tree;
use support::counts::Tally;
use support::{say, seed};

/// The kinds of emptiness queries that accepted images must reach.
const EMPTINESS: [&str; 2] = ["emptiness yes, visits", "emptiness no, more visits"];

/// Changes at each of the places, one at a time.
fn change_singly(
    tree: Option<&Tree>,
    n: usize,
    places: impl Iterator<Item = usize>,
    name: &str,
    random: &mut Random,
) -> Tally {
    let image = any_image(n, tree, random);
    let mut damaged = Damaged::new(image.clone(), tree, random);
    damaged.query(format_args!("{name}, not damaged"));
    for place in places {
        for change in single_changes(&image, place) {
            damaged.compare(&[change], format_args!("{name}"));
        }
    }
    damaged.tally
}

/// Random trees of small N: every number, every value.
#[test]
fn every_number_of_random_images() {
    let seed = seed();
    let mut tally = Tally::default();
    for case in 0..136 {
        let mut random = Random::for_case(seed, 600, case);
        let n = 1 + case as usize % 8;
        let tree = any_tree(n, &mut random);
        let name = format!("LINTZOGER_SEED={seed}, case {case}");
        let places = 0..length_of(n);
        tally.add_all(&change_singly(tree.as_ref(), n, places, &name, &mut random));
    }
    say(&format!("every number, random images: {tally}"));
    tally.require(400_000, &["images refused", "nearest refused 4"]);
    tally.require(400_000, &["emptiness refused 4"]);
    tally.require(5_000, &["images accepted"]);
    tally.require(1_000, &["nearest, another cell's entry"]);
    tally.require(1_000, &EMPTINESS);
}

/// Built trees, with a gap or two and without.
#[test]
fn every_number_of_built_images() {
    let seed = seed();
    let mut tally = Tally::default();
    for (case, (name, tree)) in built_trees().iter().enumerate() {
        for gaps in [0, 2] {
            let n = nodes(Some(tree)) + gaps;
            let mut random = Random::for_case(seed, 601 + gaps as u64, case as u64);
            let name = format!("LINTZOGER_SEED={seed}, {name}, {gaps} gaps");
            let places = 0..length_of(n);
            tally.add_all(&change_singly(Some(tree), n, places, &name, &mut random));
        }
    }
    say(&format!("every number, built images: {tally}"));
    tally.require(70_000, &["images refused"]);
    tally.require(2_000, &["images accepted"]);
}

/// The empty index with one number that is not zero reads as no tree.
#[test]
fn every_number_of_empty_images() {
    let mut random = Random::new(seed());
    for n in [1, 2, 3, 33] {
        let image = vec![0; length_of(n)];
        let mut damaged = Damaged::new(image.clone(), None, &mut random);
        assert!(damaged.query(format_args!("empty, N = {n}")));
        for place in 0..image.len() {
            for change in single_changes(&image, place) {
                let name = format_args!("empty, N = {n}");
                assert!(!damaged.compare(&[change], name), "{name}, {change:?}");
            }
        }
    }
}

/// Images of N = 64, full and with unused parts: every number, every value.
#[test]
fn every_number_of_images_of_64_parts() {
    let seed = seed();
    let mut random = Random::for_case(seed, 607, 0);
    let trees = [
        history(64, 600, WHOLE, &mut random),
        history(64, 100, WHOLE, &mut random),
        Some(random_tree(64, &mut random)),
    ];
    let mut tally = Tally::default();
    for (case, tree) in trees.iter().enumerate() {
        let name = format!("LINTZOGER_SEED={seed}, image {case} of 64 parts");
        let (n, places) = (64, 0..length_of(64));
        tally.add_all(&change_singly(tree.as_ref(), n, places, &name, &mut random));
    }
    say(&format!("every number, 64 parts: {tally}"));
    tally.require(100_000, &["images refused"]);
    tally.require(1_000, &["images accepted"]);
}

/// Images of N = 256: the head, one part, and places all over.
#[test]
fn numbers_of_large_images() {
    let seed = seed();
    let mut random = Random::for_case(seed, 604, 0);
    let trees = [
        history(256, 2200, WHOLE, &mut random),
        Some(chain(256)),
        Some(chain_of_sixteens(200, &mut random)),
    ];
    let mut tally = Tally::default();
    for (case, tree) in trees.iter().enumerate() {
        let name = format!("LINTZOGER_SEED={seed}, large image {case}");
        let n = 256;
        let length = length_of(n);
        let others: Vec<usize> = (0..300)
            .map(|_| random.between(64, length as u32 - 1) as usize)
            .collect();
        let part = 64 + 128 * random.between(0, n as u32 - 1) as usize;
        let places = (0..64).chain(part..part + 128).chain(others);
        let places = places.chain([length - 1]);
        tally.add_all(&change_singly(tree.as_ref(), n, places, &name, &mut random));
    }
    say(&format!("large images: {tally}"));
    tally.require(6_000, &["images refused"]);
    tally.require(30, &["images accepted"]);
}

/// Each bit of each number of the image, one at a time.
fn change_bits(tree: Option<&Tree>, n: usize, name: &str, random: &mut Random) -> Tally {
    let image = any_image(n, tree, random);
    let mut damaged = Damaged::new(image.clone(), tree, random);
    for (place, &number) in image.iter().enumerate() {
        for bit in 0..32 {
            let change = (place, number ^ 1 << bit);
            damaged.compare(&[change], format_args!("{name}"));
        }
    }
    damaged.tally
}

/// Every bit of every number of small images, and of one with 64 entries: their tags are free.
#[test]
fn every_bit() {
    let seed = seed();
    let mut tally = Tally::default();
    for case in 0..24 {
        let mut random = Random::for_case(seed, 605, case);
        let n = 1 + case as usize % 4;
        let tree = any_tree(n, &mut random);
        let name = format!("LINTZOGER_SEED={seed}, case {case}");
        tally.add_all(&change_bits(tree.as_ref(), n, &name, &mut random));
    }
    let mut random = Random::for_case(seed, 605, 24);
    let name = format!("LINTZOGER_SEED={seed}, eight leaves of eight");
    tally.add_all(&change_bits(Some(&eight_of_eight()), 9, &name, &mut random));
    say(&format!("every bit: {tally}"));
    tally.require(250_000, &["images refused"]);
    tally.require(1_000, &["images accepted"]);
}

/// A few changes at once.
#[test]
fn random_damage() {
    let seed = seed();
    let mut tally = Tally::default();
    for case in 0..500 {
        let mut random = Random::for_case(seed, 606, case);
        let n = random.pick(&[1, 2, 3, 4, 5, 6, 8, 12, 20]);
        let tree = any_tree(n, &mut random);
        let image = any_image(n, tree.as_ref(), &mut random);
        let mut damaged = Damaged::new(image.clone(), tree.as_ref(), &mut random);
        for _ in 0..500 {
            let changes: Vec<Change> = random_changes(&image, &mut random);
            damaged.compare(&changes, format_args!("LINTZOGER_SEED={seed}, case {case}"));
        }
        tally.add_all(&damaged.tally);
    }
    say(&format!("random damage: {tally}"));
    tally.require(150_000, &["images refused", "nearest refused 4"]);
    tally.require(150_000, &["emptiness refused 4"]);
    tally.require(5_000, &["images accepted"]);
    tally.require(1_000, &["nearest, another cell's entry"]);
    tally.require(1_000, &EMPTINESS);
}
