//! Many insertions and removals on one sound index.

use super::calls::Session;
use super::trees::cell_of;
use super::work_areas::{Dirt, DIRTS};
use crate::support::checked::Command;
use crate::support::counts::Tally;
use crate::support::seed;
use reference::geometry::{Cell, Rectangle};
use reference::random::Random;
use reference::tree::{Entry, Tree};

/// A cell in a polygon of the tree, near it, or anywhere.
pub fn any_cell(tree: Option<&Tree>, random: &mut Random) -> Cell {
    let Some(tree) = tree else {
        return [0, 1].map(|_| random.between(0, 65535));
    };
    let polygons = tree.polygons();
    let polygon = polygons[random.number() as usize % polygons.len()];
    let inside = cell_of(polygon, random);
    let near = inside.map(|v| (v + random.between(0, 8)).saturating_sub(4).min(65535));
    let anywhere = [0, 1].map(|_| random.between(0, 65535));
    random.pick(&[inside, inside, inside, near, near, anywhere])
}

/// So many insertions and removals, and queries among them.
pub fn change(session: &mut Session, count: usize, random: &mut Random) {
    for _ in 0..count {
        let cell = any_cell(session.tree(), random);
        let held = match session.held() {
            [] => cell,
            held => random.pick(held).cell,
        };
        let tag = random.number() as u32;
        session.apply(match random.between(0, 9) {
            0..=5 => Command::Insert(cell, tag),
            6..=7 => Command::Remove(held),
            8 => Command::Remove(cell),
            _ => Command::Point(cell),
        });
    }
}

/// Changes of each image, then all entries are removed.
pub fn change_images(images: &[Vec<u32>], count: usize, random: &mut Random, label: &str) -> Tally {
    let mut tally = Tally::default();
    for (i, image) in images.iter().enumerate() {
        let dirt = random.pick(&DIRTS);
        let label = format!("{label}, image {i}, {dirt:?}");
        let mut session = Session::of_image(image, dirt, label);
        change(&mut session, count, random);
        session.remove_all(random);
        tally.add_all(&session.tally);
    }
    tally
}

/// All entries of an image removed in the tree's order, and in the opposite order.
pub fn empty_in_order(image: &[u32], dirt: Dirt, label: &str) -> Tally {
    let mut tally = Tally::default();
    for is_reversed in [false, true] {
        let mut session = Session::of_image(image, dirt, label.to_string());
        let mut cells: Vec<Cell> = session.held().iter().map(|e| e.cell).collect();
        if is_reversed {
            cells.reverse();
        }
        for cell in cells {
            session.expect(Command::Remove(cell), 0);
        }
        tally.add_all(&session.tally);
    }
    tally
}

/// Each entry of an image removed alone, and each cell of its entries' neighbours inserted alone.
pub fn change_singly(image: &[u32], dirt: Dirt, label: &str) -> Tally {
    let mut tally = Tally::default();
    let session = || Session::of_image(image, dirt, label.to_string());
    for entry in session().held() {
        let mut one = session();
        one.expect(Command::Remove(entry.cell), 0);
        one.apply(Command::Insert(entry.cell, 3));
        tally.add_all(&one.tally);
        let [x, y] = entry.cell;
        for beside in [[x ^ 1, y], [x, y ^ 1], [y, x]] {
            let mut one = session();
            one.apply(Command::Insert(beside, 4));
            tally.add_all(&one.tally);
        }
    }
    tally
}

/// The next change of a small grid: more insertions than removals while it is filled.
fn next_change(held: &[Entry], square: Rectangle, fills: bool, random: &mut Random) -> Command {
    let inserts = random.one_in(4) != fills;
    if !inserts && !held.is_empty() {
        return Command::Remove(random.pick(held).cell);
    }
    let cell = [0, 1].map(|d| random.between(square.ll[d], square.ur[d] - 1));
    Command::Insert(cell, random.number() as u32)
}

/// Squares of that side at both ends of the grid and between, each in a fresh index of n parts with
/// so many changes; after each one that is accepted, `ask` gets the index and the square.
pub fn change_small_grids(
    n: usize,
    side: u32,
    changes: usize,
    group: u64,
    ask: impl Fn(&mut Session, Rectangle),
) -> Tally {
    let (seed, last) = (seed(), 65536 - side);
    let mut tally = Tally::default();
    for (case, [x, y]) in [[0, 0], [last, last], [40, 3]].into_iter().enumerate() {
        let mut random = Random::for_case(seed, group + n as u64, case as u64);
        let square = Rectangle::new(x, y, x + side, y + side);
        let label = format!("LINTZOGER_SEED={seed}, small grid, N = {n}, {:?}", [x, y]);
        let mut session = Session::fresh(n, DIRTS[case], label);
        for i in 0..changes {
            let fills = i * 3 < changes * 2;
            let change = next_change(session.held(), square, fills, &mut random);
            if session.apply(change) == 0 {
                ask(&mut session, square);
            }
        }
        tally.add_all(&session.tally);
    }
    tally
}
