//! The second implementation's nearest query on trees: the least distance to a polygon against a
//! look at each of its cells, and the walk against a look at all entries.

mod memory_support;
mod support;

use memory_support::changes::any_cell;
use memory_support::images::any_tree;
use memory_support::queries::{cells_of, with_margin};
use memory_support::trees::{random_tree, tree_of};
use reference::geometry::{Cell, Rectangle};
use reference::random::Random;
use reference::tree::{least_distance, nearest, squared_distance, walk, Index, Refusal, Tree};
use support::build::{entry, polygon};
use support::{say, seed};

#[test]
fn squared_distances() {
    assert_eq!(squared_distance([3, 4], [3, 4]), 0);
    assert_eq!(squared_distance([0, 0], [3, 4]), 25);
    assert_eq!(squared_distance([3, 0], [0, 4]), 25);
    assert_eq!(squared_distance([65535, 0], [0, 65535]), 8_589_672_450);
}

/// The order is by the distance, then by x, then by y.
#[test]
fn ties() {
    let entries = [[7, 5], [5, 7], [3, 5], [5, 3], [6, 6]].map(entry);
    let order: [Cell; 5] = [[6, 6], [3, 5], [5, 3], [5, 7], [7, 5]];
    for (i, &first) in order.iter().enumerate() {
        let mut left = entries.to_vec();
        left.retain(|e| order[i..].contains(&e.cell));
        assert_eq!(nearest(&left, [5, 5]), Some(entry(first)));
    }
    assert_eq!(nearest(&[], [5, 5]), None);
}

/// 3, then 10.
#[test]
fn refusals() {
    let mut index = Index::new(1);
    assert_eq!(index.nearest([0, 65536]), Err(Refusal::Invalid));
    assert_eq!(index.nearest([0, 65535]), Err(Refusal::NothingHeld));
    assert_eq!(Refusal::NothingHeld.number(), 10);
    index.insert([9, 9], 4).expect("the index is empty");
    assert_eq!(index.nearest([65536, 9]), Err(Refusal::Invalid));
    let answer = index.nearest([0, 65535]).expect("an entry is held");
    assert_eq!((answer.entry.cell, answer.entry.tag), ([9, 9], 4));
    assert_eq!((answer.distance, answer.visits), (81 + 65526 * 65526, 1));
}

/// The distance from the cell to the nearest of the polygon's cells, each of which is looked at.
fn by_all_cells(polygon: &[Rectangle], cell: Cell) -> u64 {
    let cells = polygon.iter().flat_map(|&r| cells_of(r));
    let distances = cells.map(|c| squared_distance(c, cell));
    distances.min().expect("a polygon has a cell")
}

#[test]
fn least_distances_of_a_notched_polygon() {
    let notched = polygon(&[[2, 2, 9, 4], [2, 2, 4, 9]]);
    for cell in cells_of(Rectangle::new(0, 0, 12, 12)) {
        assert_eq!(least_distance(&notched, cell), by_all_cells(&notched, cell));
    }
    assert_eq!(least_distance(&notched, [6, 6]), 9);
    assert_eq!(least_distance(&notched, [9, 3]), 1);
    assert_eq!(least_distance(&notched, [0, 0]), 8);
}

#[test]
fn least_distances_of_random_polygons() {
    let seed = seed();
    let grid = Rectangle::new(20, 30, 32, 42);
    for case in 0..100 {
        let tree = tree_of(3, 12, grid, &mut Random::for_case(seed, 2400, case));
        for polygon in tree.polygons() {
            for cell in cells_of(with_margin(with_margin(grid))) {
                let place = format!("LINTZOGER_SEED={seed}, case {case}: {polygon:?}, {cell:?}");
                let expected = by_all_cells(polygon, cell);
                assert_eq!(least_distance(polygon, cell), expected, "{place}");
            }
        }
    }
}

/// 'Passing over may only save visits: the entry must be the one that a look at all of them gives.'
/// Returns the nodes that were passed over.
fn check_walk(tree: &Tree, cell: Cell, place: &str) -> usize {
    let walk = walk(tree, cell);
    let expected = nearest(&tree.entries(), cell);
    assert_eq!(walk.best, expected, "{place}: {cell:?}");
    let nodes = tree.nodes();
    assert!(walk.visits >= tree.height(), "{place}: {cell:?}");
    assert!(walk.visits <= nodes, "{place}: {cell:?}");
    nodes - walk.visits
}

#[test]
fn the_walk_finds_the_nearest_entry() {
    let seed = seed();
    let (mut queries, mut passed) = (0, 0);
    for case in 0..3000 {
        let mut random = Random::for_case(seed, 2401, case);
        let n = random.between(1, 40) as usize;
        let tree = any_tree(n, &mut random).unwrap_or_else(|| random_tree(n, &mut random));
        let place = format!("LINTZOGER_SEED={seed}, case {case}");
        for _ in 0..50 {
            let cell = any_cell(Some(&tree), &mut random);
            passed += usize::from(check_walk(&tree, cell, &place) > 0);
            queries += 1;
        }
    }
    say(&format!(
        "walks: {queries}, of which {passed} passed nodes over"
    ));
    assert!(passed >= 10_000);
}
