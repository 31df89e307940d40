//! Streams of commands from fresh indexes through the proved library; every call is compared with
//! the second implementation.

mod memory_support;
mod support;

use memory_support::calls::Session;
use memory_support::work_areas::{Dirt, DIRTS};
use reference::random::Random;
use support::checked::Command;
use support::counts::Tally;
use support::streams::{ending, Stream};
use support::{say, seed};

/// How many commands for an N, and how many from one fresh index to the next.
struct Plan {
    n: usize,
    commands: usize,
    stream: usize,
}

impl Plan {
    const fn new(n: usize, commands: usize, stream: usize) -> Plan {
        Plan {
            n,
            commands,
            stream,
        }
    }
}

/// Runs streams until the number of commands is reached.
fn run(plan: &Plan) -> Tally {
    let (seed, n) = (seed(), plan.n);
    let mut tally = Tally::default();
    let streams = plan.commands.div_ceil(plan.stream);
    for case in 0..streams as u64 {
        let random = Random::for_case(seed, 900 + n as u64, case);
        let mut stream = Stream::new((n as u32 * 6).clamp(12, 1500), random);
        let label = format!("LINTZOGER_SEED={seed}, N = {n}, stream {case}");
        let mut session = Session::fresh(n, DIRTS[case as usize % 4], label);
        let mut accepted = true;
        for i in 0..plan.stream {
            if i % 250 == 249 {
                session.soil(DIRTS[(case as usize + i / 250) % 4]);
                session.insert_with_work_of(i, [i as u32, 5]);
            }
            let command = stream.next(session.held(), accepted);
            accepted = session.apply(command) == 0;
        }
        for command in ending() {
            session.apply(command);
        }
        tally.add_all(&session.tally);
    }
    say(&format!("library, N = {n}: {streams} streams: {tally}"));
    tally.require(plan.commands as u64, &["commands"]);
    tally.require(1, &ALWAYS);
    if n <= 64 {
        tally.require(1, &["insert refused 8"]);
    }
    tally
}

/// Outcomes that every N has. Refusal 8 is apart: five streams need not fill 256 parts, and
/// `full_indexes` fills them.
const ALWAYS: [&str; 23] = [
    "insert accepted, index was empty",
    "insert accepted, no split",
    "insert refused 2",
    "insert refused 3",
    "insert refused 5",
    "remove accepted, index empty after",
    "remove accepted, nodes kept",
    "remove refused 3",
    "remove refused 6",
    "clear accepted, sound tree",
    "point not held, no visit",
    "point not held, visits",
    "point refused 3",
    "window without match, no visit",
    "window without match, visits",
    "window with one match",
    "window with more matches",
    "window refused 3",
    "window refused 9",
    "emptiness yes, no visit",
    "emptiness yes, visits",
    "emptiness refused 3",
    "commands",
];

/// Outcomes of trees that are split.
const SPLIT: [&str; 5] = [
    "insert accepted, new root",
    "insert accepted, one node more",
    "remove accepted, one node less",
    "point held, more visits",
    "emptiness no, nodes not entered",
];

/// Outcomes of trees with three levels.
const DEEP: [&str; 2] = [
    "insert accepted, more nodes",
    "remove accepted, more nodes less",
];

#[test]
fn n_1() {
    run(&Plan::new(1, 200_000, 400));
}

/// A split gives three nodes, so the root stays a leaf.
#[test]
fn n_2() {
    run(&Plan::new(2, 150_000, 400));
}

#[test]
fn n_3() {
    let tally = run(&Plan::new(3, 250_000, 500));
    tally.require(
        20,
        &["insert accepted, new root", "point held, more visits"],
    );
}

#[test]
fn n_5() {
    run(&Plan::new(5, 300_000, 500)).require(20, &SPLIT);
}

#[test]
fn n_9() {
    run(&Plan::new(9, 300_000, 800)).require(20, &SPLIT);
}

#[test]
fn n_16() {
    let tally = run(&Plan::new(16, 400_000, 1000));
    tally.require(20, &SPLIT);
    tally.require(5, &DEEP);
}

/// One part more than a number has bits.
#[test]
fn n_33() {
    let tally = run(&Plan::new(33, 200_000, 2000));
    tally.require(20, &SPLIT);
    tally.require(5, &DEEP);
}

#[test]
fn n_64() {
    let tally = run(&Plan::new(64, 150_000, 3000));
    tally.require(20, &SPLIT);
    tally.require(5, &DEEP);
}

#[test]
fn n_256() {
    let tally = run(&Plan::new(256, 50_000, 10_000));
    tally.require(5, &SPLIT);
    tally.require(5, &DEEP);
}

/// Few entries at a time anywhere in a square, long enough that polygons become ragged.
fn churn(seed: u64, n: usize, side: u32, most_held: usize, streams: u64) -> Tally {
    let mut tally = Tally::default();
    for case in 0..streams {
        let mut random = Random::for_case(seed, 700 + n as u64, case);
        let label = format!("LINTZOGER_SEED={seed}, churn, N = {n}, side {side}, stream {case}");
        let mut session = Session::fresh(n, DIRTS[case as usize % 4], label);
        for _ in 0..CHURN_LENGTH {
            let cell = [0, 1].map(|_| random.between(0, side));
            session.count_choice(cell);
            let accepted = session.apply(Command::Insert(cell, 0)) == 0;
            let held = session.held();
            if !held.is_empty() && (held.len() > most_held || !accepted || random.one_in(2)) {
                let removed = random.pick(held).cell;
                session.expect(Command::Remove(removed), 0);
            }
        }
        tally.add_all(&session.tally);
    }
    say(&format!("library, churn, N = {n}, side {side}: {tally}"));
    tally
}

/// Insertions of one churn stream.
const CHURN_LENGTH: usize = 3000;

/// Random streams reach refusal 7 by the refined polygon; the other limits have built cases. The
/// streams of a fixed seed are known to reach it.
#[test]
fn churn_reaches_the_limit_of_a_polygon() {
    let tally = churn(1, 16, 1000, 20, 20);
    tally.require(1, &["insert refused 7"]);
    tally.require(
        500,
        &["insert not as by area alone", "insert, cells removed"],
    );
    tally.require(1, &["insert, a sibling's rectangle inside"]);
    let seed = seed();
    churn(seed, 16, 1000, 20, 20);
    churn(seed, 8, 60_000, 20, 20);
    churn(seed, 64, 60_000, 40, 10);
}

/// The same on tiny grids, where extra areas are small and often equal.
#[test]
fn churn_on_tiny_grids() {
    let seed = seed();
    let mut tally = Tally::default();
    for (n, side) in [(5, 6), (8, 12), (16, 25)] {
        tally.add_all(&churn(seed, n, side, 24, 10));
    }
    tally.require(
        100,
        &["insert not as by area alone", "insert, cells removed"],
    );
}

/// Fills an index until it refuses with 8 fifteen times; now and then a third is removed. Then all
/// is removed.
fn fill(n: usize, cells: impl Iterator<Item = [u32; 2]>, random: &mut Random, label: String) {
    let mut session = Session::fresh(n, Dirt::Noise, label);
    let mut refused = 0;
    for (tag, cell) in cells.enumerate() {
        if session.apply(Command::Insert(cell, tag as u32)) != 8 {
            continue;
        }
        refused += 1;
        if refused == 15 {
            break;
        }
        if refused % 5 == 0 {
            let held: Vec<[u32; 2]> = session.held().iter().map(|e| e.cell).collect();
            for &cell in held.iter().step_by(3) {
                session.expect(Command::Remove(cell), 0);
            }
        }
    }
    assert_eq!(refused, 15, "N = {n}");
    session.remove_all(random);
}

#[test]
fn full_indexes() {
    let seed = seed();
    for n in [1, 2, 3, 5, 16, 31, 32, 64, 100, 255, 256] {
        let mut random = Random::for_case(seed, 1200, n as u64);
        let cells: Vec<[u32; 2]> = (0..20_000)
            .map(|_| [0, 1].map(|_| random.between(0, 65535)))
            .collect();
        let label = format!("LINTZOGER_SEED={seed}, full, N = {n}, anywhere");
        fill(n, cells.into_iter(), &mut random, label);
        let rows = (0..20_000).map(|i| [100 + i % 50, 65535 - i / 50]);
        let label = format!("LINTZOGER_SEED={seed}, full, N = {n}, rows");
        fill(n, rows, &mut random, label);
    }
}

/// Every N: cells until the first refusal with 8, at most 40, and all removed again.
#[test]
fn every_n() {
    let seed = seed();
    for n in 1..=256 {
        let mut random = Random::for_case(seed, 1201, n as u64);
        let label = format!("LINTZOGER_SEED={seed}, every N, N = {n}");
        let mut session = Session::fresh(n, DIRTS[n % 4], label);
        for tag in 0..40 {
            let cell = [0, 1].map(|_| random.between(0, 65535));
            if session.apply(Command::Insert(cell, tag)) == 8 {
                break;
            }
        }
        session.remove_all(&mut random);
    }
}
