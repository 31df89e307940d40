//! The second implementation of the memory on its own: images read back as their trees, and the
//! soundness test agrees with one that paints cells.

mod memory_support;
mod support;

use memory_support::built::{built_trees, chain, chain_of_sixteens, not_covered};
use memory_support::half_sound::loose_tree;
use memory_support::images::{any_image, any_tree};
use memory_support::trees::random_tree;
use reference::memory::{is_sound, read, Refusal};
use reference::random::Random;
use reference::tree::Tree;
use support::counts::Tally;
use support::sound::check_sound;
use support::{say, seed};

fn reads_back(n: usize, tree: Option<&Tree>, random: &mut Random, place: &str) {
    let image = any_image(n, tree, random);
    let index = read(&image).unwrap_or_else(|refusal| panic!("{place}: {refusal:?}"));
    assert_eq!((index.n(), index.tree()), (n, tree), "{place}");
}

#[test]
fn images_read_back() {
    let seed = seed();
    for case in 0..5_000 {
        let mut random = Random::for_case(seed, 700, case);
        let n = random.between(1, 30) as usize;
        let tree = any_tree(n, &mut random);
        let place = format!("LINTZOGER_SEED={seed}, case {case}");
        reads_back(n, tree.as_ref(), &mut random, &place);
    }
}

#[test]
fn built_images_read_back() {
    let mut random = Random::new(seed());
    for (name, tree) in built_trees() {
        reads_back(tree.nodes(), Some(&tree), &mut random, name);
        reads_back(256, Some(&tree), &mut random, name);
    }
    for n in 1..=256 {
        reads_back(n, None, &mut random, "empty");
        reads_back(n, Some(&chain(n)), &mut random, "chain");
    }
    let tree = chain_of_sixteens(256, &mut random);
    reads_back(256, Some(&tree), &mut random, "chain of sixteens");
    let image = any_image(3, Some(&not_covered()), &mut random);
    assert_eq!(read(&image), Err(Refusal::NoSoundTree));
}

/// Both soundness tests give the same for trees made with care and without.
#[test]
fn soundness_agrees() {
    let seed = seed();
    let mut tally = Tally::default();
    for case in 0..30_000 {
        let mut random = Random::for_case(seed, 701, case);
        let side = random.between(2, 9);
        let tree = match case % 4 {
            0 => random_tree(20, &mut random),
            _ => loose_tree(side, &mut random),
        };
        let painted = check_sound(&tree, 256, &tree.entries());
        let place = format!("LINTZOGER_SEED={seed}, case {case}");
        assert_eq!(is_sound(&tree), painted.is_ok(), "{place}: {painted:?}");
        tally.count(if painted.is_ok() {
            "sound"
        } else {
            "not sound"
        });
    }
    say(&format!("soundness: {tally}"));
    tally.require(3_000, &["sound", "not sound"]);
}
