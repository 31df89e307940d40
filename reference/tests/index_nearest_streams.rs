//! Nearest queries among insertions and removals from fresh indexes. Each is made to both
//! implementations and compared, and its entry is looked for in the record.

mod memory_support;
mod support;

use memory_support::calls::Session;
use memory_support::changes::change_small_grids;
use memory_support::nearest::{FOUND, TIES};
use memory_support::queries::{cells_of, with_margin};
use memory_support::work_areas::DIRTS;
use reference::geometry::Cell;
use reference::random::Random;
use reference::tree::Entry;
use support::counts::Tally;
use support::streams::Stream;
use support::{say, seed};

/// Small grids for some N: after each accepted change, every cell of the square and of a margin.
#[test]
fn every_cell_of_small_grids() {
    let mut all = Tally::default();
    for n in [1, 2, 3, 5, 9, 16] {
        let changes = 60 + 20 * n;
        all.add_all(&change_small_grids(
            n,
            12,
            changes,
            2000,
            |session, square| {
                for cell in cells_of(with_margin(square)) {
                    session.nearest(cell);
                }
            },
        ));
    }
    say(&format!("nearest, every cell of small grids: {all}"));
    all.require(200_000, &["nearest queries"]);
    all.require(1_000, &TIES[..2]);
    all.require(100, &TIES);
    all.require(5_000, &FOUND);
    all.require(1, &["nearest refused 10"]);
}

/// A cell to ask for: held, near a held one, between two, anywhere, or at a corner of the grid; now
/// and then off the grid.
fn asked(held: &[Entry], random: &mut Random) -> Cell {
    let anywhere = [0, 1].map(|_| random.between(0, 65535));
    let corner = [0, 1].map(|_| random.pick(&[0, 65535]));
    if random.one_in(40) {
        return random.pick(&[[65536, corner[0]], [corner[0], u32::MAX]]);
    }
    if held.is_empty() {
        return anywhere;
    }
    let [a, b] = [(); 2].map(|()| random.pick(held).cell);
    let near = a.map(|v| (v + random.between(0, 6)).saturating_sub(3).min(65535));
    let middle = [0, 1].map(|d| (a[d] + b[d]) / 2);
    let between = [a[0], b[1]];
    random.pick(&[
        a, near, near, near, middle, middle, between, anywhere, corner,
    ])
}

/// Streams of all shapes and orders for an N, so many commands from one fresh index to the next,
/// and so many queries before each.
fn run(n: usize, streams: u64, commands: usize, queries: usize) -> Tally {
    let seed = seed();
    let mut tally = Tally::default();
    for case in 0..streams {
        let [shapes, mut random] =
            [2500, 3000].map(|group| Random::for_case(seed, group + n as u64, case));
        let mut stream = Stream::new((n as u32 * 6).clamp(12, 1500), shapes);
        let label = format!("LINTZOGER_SEED={seed}, nearest, N = {n}, stream {case}");
        let mut session = Session::fresh(n, DIRTS[case as usize % 4], label);
        let mut accepted = true;
        for _ in 0..commands {
            for _ in 0..queries {
                session.nearest(asked(session.held(), &mut random));
            }
            let command = stream.next(session.held(), accepted);
            accepted = session.apply(command) == 0;
        }
        tally.add_all(&session.tally);
    }
    say(&format!("nearest, N = {n}: {streams} streams: {tally}"));
    let most = streams * (commands * queries) as u64;
    tally.require(most / 2, &["nearest queries"]);
    tally.require(most / 200, &["nearest refused 3"]);
    tally
}

/// Outcomes of indexes with a root above leaves.
fn require_usual(tally: &Tally) {
    tally.require(20, &TIES[..2]);
    tally.require(100, &FOUND);
    tally.require(1, &["nearest, distance of 2^32 or more"]);
}

#[test]
fn n_1() {
    let tally = run(1, 60, 400, 2);
    tally.require(20, &TIES[..2]);
    tally.require(1, &["nearest refused 10"]);
}

#[test]
fn n_3() {
    require_usual(&run(3, 100, 400, 2));
}

#[test]
fn n_9() {
    require_usual(&run(9, 80, 600, 2));
}

#[test]
fn n_16() {
    require_usual(&run(16, 60, 1000, 2));
}

/// One part more than a number has bits.
#[test]
fn n_33() {
    require_usual(&run(33, 20, 1500, 2));
}

#[test]
fn n_64() {
    require_usual(&run(64, 10, 2500, 2));
}

#[test]
fn n_256() {
    run(256, 3, 4000, 1).require(100, &["nearest, nodes passed over"]);
}
