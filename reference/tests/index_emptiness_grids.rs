//! Emptiness queries of every window of small grids, after every accepted change. Each is made to
//! both implementations and compared, and set beside the library's window query of the same window.

mod memory_support;
mod support;

use memory_support::calls::Session;
use memory_support::changes::change_small_grids;
use memory_support::emptiness::ANSWERED;
use memory_support::queries::{cells_of, windows_of, with_margin};
use memory_support::work_areas::Dirt;
use reference::geometry::{Cell, Rectangle};
use reference::random::Random;
use reference::tree::Tree;
use support::checked::Command;
use support::counts::Tally;
use support::{say, seed};

/// Every window of the square.
fn ask(session: &mut Session, square: Rectangle) {
    for window in windows_of(square) {
        session.is_empty(window);
    }
}

/// Random insertions and removals for some N; a margin of the square is asked for too.
#[test]
fn random_changes() {
    let mut all = Tally::default();
    for (n, side) in [(1, 3), (2, 3), (3, 4), (5, 5), (9, 6), (16, 6)] {
        let changes = 40 + 6 * n;
        all.add_all(&change_small_grids(
            n,
            side,
            changes,
            2500,
            |session, square| ask(session, with_margin(square)),
        ));
    }
    say(&format!("emptiness, random changes: {all}"));
    all.require(2_000, &ANSWERED);
    all.require(500, &["emptiness no, one visit"]);
}

/// The cells of a square in an order: column by column, row by row, backwards, or any.
fn ordered(square: Rectangle, order: u64, random: &mut Random) -> Vec<Cell> {
    let mut cells: Vec<Cell> = cells_of(square).collect();
    match order {
        0 => {}
        1 => cells.sort_by_key(|&[x, y]| [y, x]),
        2 => cells.reverse(),
        _ => cells.sort_by_cached_key(|_| random.number()),
    }
    cells
}

/// A fresh index, filled in an order until no more goes in, and emptied in another. Returns the
/// greatest height.
fn fill_and_empty(
    session: &mut Session,
    square: Rectangle,
    [into, out_of]: [Vec<Cell>; 2],
) -> usize {
    let mut highest = 0;
    for cell in into {
        if session.apply(Command::Insert(cell, 7)) == 0 {
            ask(session, square);
            highest = highest.max(session.tree().map_or(0, Tree::height));
        }
    }
    for cell in out_of {
        if session.apply(Command::Remove(cell)) == 0 {
            ask(session, square);
        }
    }
    assert!(session.held().is_empty());
    highest
}

/// Squares of one, two and three levels.
#[test]
fn filled_and_emptied() {
    let seed = seed();
    let mut all = Tally::default();
    for (n, side, height) in [(1, 3, 1), (3, 4, 2), (7, 5, 2), (20, 7, 3)] {
        let square = Rectangle::new(8, 1, 8 + side, 1 + side);
        let mut highest = 0;
        for order in 0..4 {
            let mut random = Random::for_case(seed, 2520 + n as u64, order);
            let orders = [order, (order + 1) % 4].map(|order| ordered(square, order, &mut random));
            let label = format!("LINTZOGER_SEED={seed}, N = {n}, order {order}");
            let mut session = Session::fresh(n, Dirt::Noise, label);
            highest = highest.max(fill_and_empty(&mut session, square, orders));
            all.add_all(&session.tally);
        }
        assert_eq!(highest, height, "N = {n}");
    }
    say(&format!("emptiness, filled and emptied: {all}"));
    all.require(10_000, &ANSWERED[1..]);
    all.require(1_000, &ANSWERED);
    all.require(1, &["insert refused 8"]);
}
