//! Streams of commands from fresh indexes; every clause of demand 3 is checked after each command.

mod support;

use reference::random::Random;
use reference::tree::Refusal;
use support::checked::{Checked, Command};
use support::counts::Tally;
use support::streams::{ending, Stream};
use support::{say, seed};

/// Commands of each N: together some 700,000.
const COMMANDS: [(usize, usize); 7] = [
    (1, 20_000),
    (2, 20_000),
    (3, 40_000),
    (5, 80_000),
    (16, 320_000),
    (64, 180_000),
    (256, 45_000),
];

/// Commands from one fresh index to the next.
const STREAM_LENGTH: [(usize, usize); 7] = [
    (1, 200),
    (2, 300),
    (3, 500),
    (5, 500),
    (16, 1000),
    (64, 3000),
    (256, 7500),
];

fn of(table: &[(usize, usize)], n: usize) -> usize {
    table.iter().find(|row| row.0 == n).expect("an N").1
}

/// Runs streams until the number of commands is reached.
fn run(n: usize) -> Tally {
    let seed = seed();
    let mut tally = Tally::default();
    let streams = of(&COMMANDS, n).div_ceil(of(&STREAM_LENGTH, n));
    for case in 0..streams as u64 {
        let random = Random::for_case(seed, 400 + n as u64, case);
        let mut stream = Stream::new((n as u32 * 6).clamp(12, 1500), random);
        let mut checked = Checked::new(n, format!("LINTZOGER_SEED={seed}, stream {case}"));
        let mut accepted = true;
        for _ in 0..of(&STREAM_LENGTH, n) {
            let command = stream.next(checked.held(), accepted);
            accepted = checked.apply(command).is_ok();
        }
        for command in ending() {
            let _ = checked.apply(command);
        }
        tally.add_all(&checked.tally);
    }
    say(&format!("streams, N = {n}: {streams} streams: {tally}"));
    tally.require(of(&COMMANDS, n) as u64, &["commands"]);
    tally.require(1, &ALWAYS);
    tally
}

/// Outcomes that every N has.
const ALWAYS: [&str; 16] = [
    "I accepted, index was empty",
    "I accepted, no branch grown",
    "I refused 3",
    "I refused 5",
    "R accepted, nodes kept",
    "R refused 3",
    "R refused 6",
    "P held",
    "P not held, no visit",
    "P not held, all levels visited",
    "P refused 3",
    "S accepted, no match",
    "S accepted, some match",
    "S accepted, all match",
    "S refused 3",
    "S refused 9",
];

#[test]
fn n_1() {
    let tally = run(1);
    tally.require(1, &["R accepted, index empty after", "C accepted"]);
}

#[test]
fn n_2() {
    // A split gives three nodes, so the root stays a leaf.
    run(2);
}

#[test]
fn n_3() {
    let tally = run(3);
    tally.require(
        20,
        &[
            "I accepted, a branch grown at one level",
            "I accepted, leaf split",
        ],
    );
    tally.require(20, &["I accepted, new root", "R accepted, leaf removed"]);
}

#[test]
fn n_5() {
    let tally = run(5);
    tally.require(20, &["I accepted, leaf split", "R accepted, leaf removed"]);
    tally.require(20, &["I not as by area alone"]);
}

/// Outcomes of trees with three levels.
const DEEP: [&str; 6] = [
    "I accepted, branches grown at two or more levels",
    "I accepted, leaf split",
    "I accepted, new root",
    "I accepted, routing node split",
    "R accepted, nodes above removed",
    "P not held, some levels visited",
];

#[test]
fn n_16() {
    let tally = run(16);
    tally.require(5, &DEEP);
    tally.require(100, &["I not as by area alone"]);
    tally.require(200, &["I accepted, cells removed at one level"]);
    tally.require(1, &["I accepted, cells removed at two or more levels"]);
}

/// Large enough for some lines with a branch on both sides; tree_steps has a built one.
#[test]
fn n_64() {
    let tally = run(64);
    tally.require(5, &DEEP);
    tally.require(1, &["I accepted, branches split recursively"]);
    tally.require(50, &["I not as by area alone"]);
}

#[test]
fn n_256() {
    run(256).require(5, &DEEP);
}

/// Few entries at a time anywhere in a square, long enough that polygons become ragged.
fn churn(seed: u64, n: usize, side: u32, most_held: usize, streams: u64) -> Tally {
    let mut tally = Tally::default();
    for case in 0..streams {
        let mut random = Random::for_case(seed, 700 + n as u64, case);
        let label = format!("LINTZOGER_SEED={seed}, churn, side {side}, stream {case}");
        let mut checked = Checked::new(n, label);
        for _ in 0..CHURN_LENGTH {
            let cell = [0, 1].map(|_| random.between(0, side));
            let accepted = checked.apply(Command::Insert(cell, 0)).is_ok();
            let held = checked.held();
            if !held.is_empty() && (held.len() > most_held || !accepted || random.one_in(2)) {
                let removed = random.pick(held).cell;
                assert_eq!(checked.apply(Command::Remove(removed)), Ok(()));
            }
        }
        tally.add_all(&checked.tally);
    }
    say(&format!("churn, N = {n}, side {side}: {tally}"));
    tally
}

/// Insertions of one churn stream.
const CHURN_LENGTH: usize = 3000;

/// Random streams reach refusal 7 by the refined polygon; the other limits have built cases. The
/// streams of a fixed seed are known to reach it.
#[test]
fn churn_reaches_the_limit_of_a_polygon() {
    let tally = churn(1, 16, 1000, 20, 20);
    tally.require(1, &["I refused 7, refined polygon"]);
    tally.require(1, &["I accepted, refined polygon of 16"]);
    tally.require(500, &["I not as by area alone"]);
    tally.require(1, &["I with a sibling's rectangle inside"]);
    tally.require(500, &["I accepted, cells removed at one level"]);
    let seed = seed();
    churn(seed, 16, 1000, 20, 40);
    churn(seed, 8, 60_000, 20, 20);
    churn(seed, 64, 60_000, 40, 10);
}

/// Fills an index until it refuses ten times with 8, then makes room and fills it again.
fn fill(n: usize, cells: impl Iterator<Item = [u32; 2]>, label: String) -> Tally {
    let mut checked = Checked::new(n, label);
    let mut refused = 0;
    for (number, cell) in cells.enumerate() {
        let number = number as u32;
        if checked.apply(Command::Insert(cell, number)) == Err(Refusal::TooManyNodes) {
            refused += 1;
            let removed: Vec<[u32; 2]> = checked.held().iter().map(|e| e.cell).collect();
            if refused % 5 == 0 {
                for &cell in removed.iter().step_by(3) {
                    assert_eq!(checked.apply(Command::Remove(cell)), Ok(()));
                }
            }
            if refused == 15 {
                break;
            }
        }
    }
    checked.tally
}

#[test]
fn full_indexes() {
    let seed = seed();
    let mut all = Tally::default();
    for n in [1, 2, 3, 5, 16, 64, 256] {
        let mut random = Random::for_case(seed, 800, n as u64);
        let anywhere = std::iter::repeat_with(|| [0, 1].map(|_| random.between(0, 65535)));
        let label = format!("LINTZOGER_SEED={seed}, full, anywhere");
        let mut tally = fill(n, anywhere.take(20_000), label);
        let rows = (0..20_000).map(|i| [100 + i % 50, 65535 - i / 50]);
        tally.add_all(&fill(n, rows, "full, rows".to_string()));
        say(&format!("full, N = {n}: {tally}"));
        tally.require(30, &["I refused 8"]);
        all.add_all(&tally);
    }
    all.require(1000, &["R accepted, nodes kept"]);
}
