//! Document 02's request A.6 through the proved library, compared with the second implementation:
//! the cells that siblings remove of grown rectangles. The totals are written out, follow from how
//! a tree is built, or are told cell by cell.

mod memory_support;
mod support;

use memory_support::calls::Session;
use memory_support::images::any_image;
use memory_support::removed::{levels_by_cells, Level};
use memory_support::trees::tree_of;
use memory_support::work_areas::{Dirt, DIRTS};
use memory_support::written_out::image_of;
use reference::geometry::{Cell, Rectangle};
use reference::memory::read_back;
use reference::random::Random;
use support::build::tag;
use support::cell_set::SIDE;
use support::checked::Command;
use support::choices::WORKED_CELLS;
use support::counts::Tally;
use support::most_removed::{Stairs, CELL};
use support::nested::bars_inside;
use support::removed_cells::crowded;
use support::{say, seed};

/// Inserts the cell, which must be accepted; returns the total.
fn removed_by(session: &mut Session, cell: Cell) -> u64 {
    session.expect(Command::Insert(cell, tag(cell)), 0);
    session.removed()
}

/// The totals of the cells, inserted in this order into a fresh index.
fn totals(name: &str, cells: &[Cell]) -> Vec<u64> {
    let mut session = Session::fresh(64, Dirt::Noise, name.to_string());
    let removed = cells.iter().map(|&cell| removed_by(&mut session, cell));
    removed.collect()
}

/// 4 cells for (4, 1), 1 for (0, 3), none for the others. In document 01's sample there is no
/// sibling, and after G10 leaves grow past none.
#[test]
fn worked_streams() {
    let removed = totals("A6.4", &WORKED_CELLS);
    assert_eq!(removed, [0, 0, 0, 0, 0, 0, 0, 0, 0, 0, 4, 1]);
    assert_eq!(totals("A6.5", &[[10, 10], [20, 12]]), [0, 0]);
    let row = (0..9).map(|x| [x, 5]);
    let cells: Vec<Cell> = row.chain([[9, 9], [3, 6]]).collect();
    assert_eq!(totals("G10", &cells), [0; 11]);
}

#[test]
fn trees_by_hand() {
    for crowded in crowded() {
        let mut session = image_of(crowded.tree);
        let removed = removed_by(&mut session, crowded.cell);
        assert_eq!(removed, crowded.removed, "{}", crowded.name);
    }
}

/// The bars of a sibling inside the grown rectangle: the j-th is 20 j cells long and one row high.
#[test]
fn bars_of_a_sibling_inside() {
    let accepted = bars_inside().into_iter().filter(|b| b.expected.is_ok());
    let totals = accepted.map(|bars| {
        let image = any_image(4, Some(&bars.tree), &mut Random::new(seed()));
        let mut session = Session::of_image(&image, Dirt::Ones, bars.name);
        removed_by(&mut session, bars.cell)
    });
    let totals: Vec<u64> = totals.collect();
    assert_eq!(totals, [20, 20, 60, 60, 120, 120, 200, 200]);
}

/// Siblings of different levels share no cell: those of a level lie in the branch that grew above
/// them. So a total is less than 2^32, but it can be over 2^31.
#[test]
fn most_of_the_grid() {
    let mut most = 0;
    for levels in 1..=21 {
        let free = f64::from(65536) / (1.0 + f64::from(levels).sqrt());
        let stairs = Stairs::new(levels, free as u32);
        let removed = removed_by(&mut image_of(stairs.tree()), CELL);
        assert_eq!(removed, stairs.removed(), "{levels} levels");
        most = removed.max(most);
    }
    say(&format!("cells removed by one insertion: {most}"));
    assert!(most > 1 << 31, "{most}");
}

/// Inserts a cell of the grid that sets of cells have. Where it is accepted, the total is that of
/// the tree read back from the memory before, told cell by cell.
fn insert_by_cells(session: &mut Session, cell: Cell, tally: &mut Tally, label: &str) -> bool {
    let before = read_back(session.numbers()).expect("the layout is kept");
    let accepted = session.apply(Command::Insert(cell, tag(cell))) == 0;
    if accepted {
        let levels = before.map_or_else(Vec::new, |tree| levels_by_cells(&tree, cell));
        let expected = levels.iter().map(|level| level.removed).sum();
        assert_eq!(session.removed(), expected, "{label}: {cell:?}");
        count(&levels, tally);
    }
    accepted
}

fn any_cell(random: &mut Random) -> Cell {
    [0, 1].map(|_| random.between(0, SIDE - 1))
}

/// What an accepted insertion met.
fn count(levels: &[Level], tally: &mut Tally) {
    tally.count("accepted");
    match levels.iter().filter(|level| level.removed > 0).count() {
        0 if levels.is_empty() => tally.count("nothing grew"),
        0 => tally.count("nothing removed"),
        1 => tally.count("removed at one level"),
        _ => tally.count("removed at more levels"),
    }
    if levels
        .iter()
        .any(|level| level.with_repeats > level.removed)
    {
        tally.count("cells under several rectangles");
    }
}

/// Few entries at a time anywhere on the grid, so that polygons become ragged.
fn churn(n: usize, most_held: usize, case: u64, tally: &mut Tally) {
    let seed = seed();
    let mut random = Random::for_case(seed, 3000 + n as u64, case);
    let label = format!("LINTZOGER_SEED={seed}, N = {n}, stream {case}");
    let mut session = Session::fresh(n, DIRTS[case as usize % 4], label.clone());
    for _ in 0..CHURN_LENGTH {
        let cell = any_cell(&mut random);
        let accepted = insert_by_cells(&mut session, cell, tally, &label);
        let held = session.held();
        if !held.is_empty() && (held.len() > most_held || !accepted || random.one_in(3)) {
            session.expect(Command::Remove(random.pick(held).cell), 0);
        }
    }
}

/// Streams for each N, and insertions of a stream.
const STREAMS: u64 = 5;
const CHURN_LENGTH: u32 = 1500;

#[test]
fn streams_cell_by_cell() {
    let mut tally = Tally::default();
    for (n, most_held) in [(5, 20), (16, 24), (33, 70), (64, 150)] {
        for case in 0..STREAMS {
            churn(n, most_held, case, &mut tally);
        }
    }
    say(&format!("streams, cell by cell: {tally}"));
    tally.require(500, &["nothing grew", "nothing removed"]);
    tally.require(100, &["removed at one level"]);
}

/// Trees with up to five levels in any rectangle of the grid, whose polygons overlap themselves.
#[test]
fn trees_cell_by_cell() {
    let seed = seed();
    let mut tally = Tally::default();
    for case in 0..TREES {
        let mut random = Random::for_case(seed, 3100, case);
        let [a, b] = [(); 2].map(|()| any_cell(&mut random));
        let root = Rectangle::new(a[0], a[1], a[0] + 1, a[1] + 1).grow(b);
        let levels = random.between(2, 5) as usize;
        let tree = tree_of(levels, 40, root, &mut random);
        let label = format!("LINTZOGER_SEED={seed}, tree {case}");
        let image = any_image(tree.nodes() + 5, Some(&tree), &mut random);
        let mut session = Session::of_image(&image, random.pick(&DIRTS), label.clone());
        for _ in 0..5 {
            insert_by_cells(&mut session, any_cell(&mut random), &mut tally, &label);
        }
    }
    say(&format!("trees, cell by cell: {tally}"));
    tally.require(500, &["removed at one level"]);
    tally.require(200, &["cells under several rectangles"]);
    tally.require(20, &["removed at more levels"]);
}

const TREES: u64 = 2000;
