//! Refusals in number order, lengths, and clearing.

mod memory_support;
mod support;

use memory_support::built::built_trees;
use memory_support::histories::{history, WHOLE};
use memory_support::images::{any_image, any_tree, first_parts};
use memory_support::lent::Lent;
use memory_support::queries::{invalid_windows, INVALID_CELLS, LONG};
use memory_support::{length_of, MOST_PARTS};
use reference::geometry::Rectangle;
use reference::memory::image;
use reference::random::Random;
use support::counts::Tally;
use support::{say, seed};

/// The length is 64 + 128 x N for an N from 1 to 256.
fn is_right(length: usize) -> bool {
    (1..=MOST_PARTS).any(|n| length_of(n) == length)
}

/// The queries and clearing on an index of that length; each is refused with 1 unless the length is
/// right.
fn call_all(index: &[u32], tally: &mut Tally) {
    let mut lent = Lent::new(index);
    let reading = lent.reading();
    let place = format_args!("{} numbers", index.len());
    for cell in [[5, 5], [65536, 0]] {
        let output = lent.point(&reading, cell, place);
        assert_eq!(output.answer != 1, is_right(index.len()), "{place}");
        tally.count(output.kind());
        let output = lent.nearest(&reading, cell, place);
        assert_eq!(output.answer != 1, is_right(index.len()), "{place}");
        tally.count(output.kind());
    }
    for (window, length) in [([0, 0, 65536, 65536], 9), ([5, 5, 5, 6], 0)] {
        let output = lent.window(&reading, window, length, place);
        assert_eq!(output.answer != 1, is_right(index.len()), "{place}");
        tally.count(output.kind());
        let output = lent.is_empty(&reading, window, place);
        assert_eq!(output.answer != 1, is_right(index.len()), "{place}");
        tally.count(output.kind());
    }
    let output = lent.clear(place);
    assert_eq!(output.answer != 1, is_right(index.len()), "{place}");
    tally.count(output.kind(&reading));
    let expected = is_right(index.len());
    assert_eq!(expected, output.held == 0, "{place}");
}

/// Lengths from 0 to 200, around each right one, and others up to 33,000: zeros, and the numbers
/// of an index that is as long or longer.
#[test]
fn lengths() {
    let seed = seed();
    let mut random = Random::for_case(seed, 680, 0);
    let tree = history(12, 60, WHOLE, &mut random).expect("not empty");
    let mut tally = Tally::default();
    let around = (0..=MOST_PARTS + 1).flat_map(|n| (0..7).map(move |i| length_of(n) + i - 3));
    for length in (0..=200).chain(around).chain((0..33_000).step_by(7)) {
        call_all(&vec![0; length], &mut tally);
        let parts = first_parts(tree.nodes());
        let mut numbers = image(MOST_PARTS, Some(&tree), &parts);
        numbers.resize(length, 0);
        call_all(&numbers, &mut tally);
    }
    say(&format!("lengths: {tally}"));
    tally.require(
        200,
        &[
            "point refused 1",
            "window refused 1",
            "nearest refused 1",
            "nearest refused 10",
            "emptiness refused 1",
            "emptiness yes, no visit",
            "clear refused 1",
            "clear accepted, empty index",
            "clear accepted, sound tree",
        ],
    );
}

/// 3 before 4, 9 and 10; 1 before 3 is in `lengths`.
#[test]
fn invalid_arguments() {
    let seed = seed();
    let mut tally = Tally::default();
    for case in 0..60 {
        let mut random = Random::for_case(seed, 681, case);
        let n = random.between(1, 20) as usize;
        let tree = any_tree(n, &mut random);
        let mut lent = Lent::new(&any_image(n, tree.as_ref(), &mut random));
        let near = tree.map_or(Rectangle::new(3, 3, 9, 9), |t| t.rectangle);
        for damage in [0, 1] {
            lent.set(63, damage);
            let reading = lent.reading();
            let place = format_args!("LINTZOGER_SEED={seed}, case {case}, damage {damage}");
            for cell in INVALID_CELLS {
                let output = lent.point(&reading, cell, place);
                assert_eq!(output.answer, 3, "{place}: {cell:?}");
                tally.count(output.kind());
                let output = lent.nearest(&reading, cell, place);
                assert_eq!(output.answer, 3, "{place}: {cell:?}");
                tally.count(output.kind());
            }
            for window in invalid_windows(near) {
                for length in [0, 3, LONG] {
                    let output = lent.window(&reading, window, length, place);
                    assert_eq!(output.answer, 3, "{place}: {window:?}");
                    tally.count(output.kind());
                }
                let output = lent.is_empty(&reading, window, place);
                assert_eq!(output.answer, 3, "{place}: {window:?}");
                tally.count(output.kind());
            }
        }
    }
    say(&format!("invalid arguments: {tally}"));
    tally.require(500, &["point refused 3", "window refused 3"]);
    tally.require(500, &["nearest refused 3", "emptiness refused 3"]);
}

/// 4 before 9.
#[test]
fn unsound_and_a_short_list() {
    for (name, tree) in built_trees() {
        let n = tree.nodes();
        let mut lent = Lent::new(&image(n, Some(&tree), &first_parts(n)));
        let place = format_args!("{name}");
        let window = [0, 0, 65536, 65536];
        let reading = lent.reading();
        let sound = lent.window(&reading, window, 2, place);
        assert_eq!(sound.answer, 9, "{place}");
        assert_eq!(sound.matches as usize, tree.entries().len(), "{place}");
        lent.set(10, 1);
        let unsound = lent.window(&lent.reading(), window, 2, place);
        assert_eq!(unsound.answer, 4, "{place}");
    }
}

/// Sound, damaged and arbitrary memory of every N is cleared, and is then a fresh index.
#[test]
fn clearing() {
    let seed = seed();
    let mut tally = Tally::default();
    for n in 1..=MOST_PARTS {
        let mut random = Random::for_case(seed, 682, n as u64);
        let tree = any_tree(n.min(20), &mut random);
        let sound = any_image(n, tree.as_ref(), &mut random);
        let mut damaged = sound.clone();
        let last = damaged.len() - 1;
        damaged[last] = 1;
        let any = (0..length_of(n)).map(|_| random.number() as u32).collect();
        let ones = vec![u32::MAX; length_of(n)];
        for numbers in [sound, damaged, any, ones, vec![0; length_of(n)]] {
            let mut lent = Lent::new(&numbers);
            let before = lent.reading();
            let place = format_args!("LINTZOGER_SEED={seed}, N = {n}");
            let output = lent.clear(place);
            assert_eq!((output.answer, output.held), (0, 0), "{place}");
            assert!(lent.index().iter().all(|&number| number == 0), "{place}");
            tally.count(output.kind(&before));
            let point = lent.point(&lent.reading(), [3, 4], place);
            assert_eq!((point.held, point.visits), (0, 0), "{place}");
            let nearest = lent.nearest(&lent.reading(), [3, 4], place);
            assert_eq!(nearest.answer, 10, "{place}");
            let output = lent.is_empty(&lent.reading(), [0, 0, 65536, 65536], place);
            assert_eq!((output.empty, output.visits), (1, 0), "{place}");
        }
    }
    say(&format!("clearing: {tally}"));
    tally.require(
        150,
        &[
            "clear accepted, sound tree",
            "clear accepted, no sound tree",
            "clear accepted, empty index",
        ],
    );
}
