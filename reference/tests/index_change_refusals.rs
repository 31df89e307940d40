//! Refusals of insertion and removal: lengths of index and work area, cells off the grid, damaged
//! memory, cells held and not held. Each leaves all that is lent as it was.

mod memory_support;
mod support;

use memory_support::built::built_trees;
use memory_support::damage::{random_changes, single_changes};
use memory_support::histories::{history, WHOLE};
use memory_support::images::{any_image, any_tree, first_parts};
use memory_support::lent::Lent;
use memory_support::queries::INVALID_CELLS;
use memory_support::work_areas::{Dirt, Work, DIRTS};
use memory_support::{length_of, MOST_PARTS};
use reference::geometry::Cell;
use reference::memory::image;
use reference::random::Random;
use std::fmt::Arguments;
use support::counts::Tally;
use support::{say, seed};

/// The length is 64 + 128 x N for an N from 1 to 256.
fn is_right(length: usize) -> bool {
    (1..=MOST_PARTS).any(|n| length_of(n) == length)
}

/// An insertion into the numbers; returns the answer.
fn insert(numbers: &[u32], mut work: Work, cell: Cell, place: Arguments) -> u32 {
    let mut lent = Lent::new(numbers);
    let mut reading = lent.reading();
    let output = lent.insert(&mut reading, &mut work, cell, 77, place);
    output.answer
}

/// A removal from the numbers; returns the answer.
fn remove(numbers: &[u32], cell: Cell, place: Arguments) -> u32 {
    let mut lent = Lent::new(numbers);
    let mut reading = lent.reading();
    lent.remove(&mut reading, cell, place).answer
}

fn counted(tally: &mut Tally, kinds: [&'static str; 10], answer: u32) {
    tally.count(kinds[answer as usize]);
}

const INSERT: [&str; 10] = [
    "insert accepted",
    "insert refused 1",
    "insert refused 2",
    "insert refused 3",
    "insert refused 4",
    "insert refused 5",
    "insert, answer 6",
    "insert refused 7",
    "insert refused 8",
    "insert, answer 9",
];

const REMOVE: [&str; 10] = [
    "remove accepted",
    "remove refused 1",
    "remove, answer 2",
    "remove refused 3",
    "remove refused 4",
    "remove, answer 5",
    "remove refused 6",
    "remove, answer 7",
    "remove, answer 8",
    "remove, answer 9",
];

/// 1 before all others: lengths around each right one and up to 33,000, of zeros and of an index,
/// with a work area as long, and one number longer.
#[test]
fn lengths() {
    let mut random = Random::for_case(seed(), 1300, 0);
    let tree = history(12, 60, WHOLE, &mut random).expect("not empty");
    let parts = first_parts(tree.nodes());
    let whole = image(MOST_PARTS, Some(&tree), &parts);
    let held = tree.entries()[0].cell;
    let mut tally = Tally::default();
    let around = (0..=MOST_PARTS + 1).flat_map(|n| (0..7).map(move |i| length_of(n) + i - 3));
    for length in (0..=200).chain(around).chain((0..33_000).step_by(61)) {
        let place = format_args!("{length} numbers");
        let mut numbers = whole.clone();
        numbers.resize(length, 0);
        for (numbers, cell) in [
            (&numbers, held),
            (&vec![0; length], [5, 5]),
            (&numbers, [65536, 0]),
        ] {
            let answer = insert(numbers, Work::new(length, Dirt::Noise), cell, place);
            assert_eq!(answer != 1, is_right(length), "{place}: {cell:?}");
            counted(&mut tally, INSERT, answer);
            let answer = insert(numbers, Work::new(length + 1, Dirt::Ones), cell, place);
            assert_eq!(answer, if is_right(length) { 2 } else { 1 }, "{place}");
            counted(&mut tally, INSERT, answer);
            let answer = remove(numbers, cell, place);
            assert_eq!(answer != 1, is_right(length), "{place}: {cell:?}");
            counted(&mut tally, REMOVE, answer);
        }
    }
    say(&format!("lengths, insertion and removal: {tally}"));
    tally.require(
        200,
        &["insert refused 1", "insert refused 2", "remove refused 1"],
    );
    tally.require(200, &["insert accepted", "remove accepted"]);
}

/// 2 before 3, 4 and 5: work areas of every other length, also of the index of another N.
#[test]
fn work_lengths() {
    let seed = seed();
    let mut tally = Tally::default();
    for n in [1, 2, 3, 16, 64, 255, 256] {
        let mut random = Random::for_case(seed, 1301, n as u64);
        let tree = any_tree(n.min(20), &mut random);
        let sound = any_image(n, tree.as_ref(), &mut random);
        let mut damaged = sound.clone();
        damaged[20] = 9;
        let held = tree.map_or([1, 1], |t| t.entries()[0].cell);
        let right = length_of(n);
        let near = (1..=70).flat_map(|i| [right - i, right + i]);
        let others = (1..=MOST_PARTS).map(length_of).filter(|&l| l != right);
        let small = (0..130).filter(|&l| l != right);
        for length in near.chain(others).chain(small).chain([2 * right, 40_000]) {
            let dirt = random.pick(&DIRTS);
            let place = format_args!("LINTZOGER_SEED={seed}, N = {n}, {dirt:?}");
            for (numbers, cell) in [
                (&sound, [3, 4]),
                (&sound, held),
                (&sound, [65536, 0]),
                (&damaged, [3, 4]),
            ] {
                let answer = insert(numbers, Work::new(length, dirt), cell, place);
                assert_eq!(answer, 2, "{place}: work area of {length}");
                counted(&mut tally, INSERT, answer);
            }
        }
    }
    say(&format!("work areas: {tally}"));
}

/// 3 before 4, 5 and 6.
#[test]
fn cells_off_the_grid() {
    let seed = seed();
    for case in 0..200 {
        let mut random = Random::for_case(seed, 1302, case);
        let n = random.between(1, 20) as usize;
        let tree = any_tree(n, &mut random);
        let mut numbers = any_image(n, tree.as_ref(), &mut random);
        for damage in [0, 1] {
            numbers[63] = damage;
            let place = format_args!("LINTZOGER_SEED={seed}, case {case}, damage {damage}");
            for cell in INVALID_CELLS {
                let work = Work::new(numbers.len(), random.pick(&DIRTS));
                assert_eq!(insert(&numbers, work, cell, place), 3, "{place}: {cell:?}");
                assert_eq!(remove(&numbers, cell, place), 3, "{place}: {cell:?}");
            }
        }
    }
}

/// 4 before 5, 6, 7 and 8: every number of built images changed.
#[test]
fn damaged_numbers() {
    let seed = seed();
    let mut tally = Tally::default();
    for (case, (name, tree)) in built_trees().iter().enumerate() {
        let mut random = Random::for_case(seed, 1303, case as u64);
        let n = tree.nodes() + case % 2;
        let image = any_image(n, Some(tree), &mut random);
        let (held, free) = (tree.entries()[0].cell, [60_000, 60_000]);
        for at in 0..image.len() {
            let change = random.pick(&single_changes(&image, at));
            let mut numbers = image.clone();
            numbers[change.0] = change.1;
            let place = format_args!("LINTZOGER_SEED={seed}, {name}, {change:?}");
            for cell in [held, free] {
                let work = Work::new(numbers.len(), random.pick(&DIRTS));
                let answer = insert(&numbers, work, cell, place);
                counted(&mut tally, INSERT, answer);
                counted(&mut tally, REMOVE, remove(&numbers, cell, place));
            }
        }
    }
    say(&format!("damaged numbers, insertion and removal: {tally}"));
    tally.require(5_000, &["insert refused 4", "remove refused 4"]);
    tally.require(20, &["insert accepted", "remove accepted"]);
}

/// A few changes at once to random images.
#[test]
fn random_damage() {
    let seed = seed();
    let mut tally = Tally::default();
    for case in 0..300 {
        let mut random = Random::for_case(seed, 1304, case);
        let n = random.pick(&[1, 2, 3, 4, 5, 6, 8, 12, 20]);
        let tree = any_tree(n, &mut random);
        let image = any_image(n, tree.as_ref(), &mut random);
        let held = tree.as_ref().map_or([1, 1], |t| t.entries()[0].cell);
        let other = [0, 1].map(|_| random.between(0, 65535));
        for _ in 0..100 {
            let changes = random_changes(&image, &mut random);
            let mut numbers = image.clone();
            for &(at, number) in &changes {
                numbers[at] = number;
            }
            let place = format_args!("LINTZOGER_SEED={seed}, case {case}, {changes:?}");
            for cell in [held, other] {
                let work = Work::new(numbers.len(), random.pick(&DIRTS));
                let answer = insert(&numbers, work, cell, place);
                counted(&mut tally, INSERT, answer);
                counted(&mut tally, REMOVE, remove(&numbers, cell, place));
            }
        }
    }
    say(&format!("random damage, insertion and removal: {tally}"));
    tally.require(20_000, &["insert refused 4", "remove refused 4"]);
    tally.require(200, &["insert accepted", "remove accepted"]);
    tally.require(200, &["insert refused 5", "remove refused 6"]);
}

/// 5 for every held cell and 6 for cells beside them, also where no part is left.
#[test]
fn held_and_not_held() {
    let seed = seed();
    let mut tally = Tally::default();
    for case in 0..400 {
        let mut random = Random::for_case(seed, 1305, case);
        let n = random.pick(&[1, 2, 3, 7, 12, 24]);
        let tree = any_tree(n, &mut random);
        let n = match random.one_in(2) {
            true => tree.as_ref().map_or(1, |t| t.nodes()),
            false => n,
        };
        let numbers = any_image(n, tree.as_ref(), &mut random);
        let entries = tree.map_or_else(Vec::new, |t| t.entries());
        let place = format_args!("LINTZOGER_SEED={seed}, case {case}");
        for entry in &entries {
            let work = Work::new(numbers.len(), random.pick(&DIRTS));
            assert_eq!(insert(&numbers, work, entry.cell, place), 5, "{place}");
            tally.count("insert refused 5");
            let beside = [entry.cell[0] ^ 1, entry.cell[1]];
            if entries.iter().all(|e| e.cell != beside) {
                assert_eq!(remove(&numbers, beside, place), 6, "{place}");
                tally.count("remove refused 6");
            }
        }
    }
    say(&format!("held and not held: {tally}"));
    tally.require(500, &["insert refused 5", "remove refused 6"]);
}
