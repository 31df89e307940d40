//! The second implementation's rules against sets of cells, by brute force on small grids.
//!
//! A set of cells of an 8 by 8 grid is a 64-bit number, one bit a cell.

mod support;

use reference::geometry::{
    cut, cut_list, cut_list_by_polygon, refine, shared_cells, OverLimit, Rectangle,
};
use reference::random::Random;
use reference::tree::extra_area;
use support::seed;

const SIDE: u32 = 8;

/// Random lists of each test.
const LISTS: u64 = 30_000;

fn bit(x: u32, y: u32) -> u64 {
    1 << (SIDE * y + x)
}

/// The cells of the grid that have the property.
fn cells_with(property: impl Fn([u32; 2]) -> bool) -> u64 {
    let mut cells = 0;
    for y in 0..SIDE {
        for x in 0..SIDE {
            if property([x, y]) {
                cells |= bit(x, y);
            }
        }
    }
    cells
}

fn cells(r: Rectangle) -> u64 {
    cells_with(|cell| r.has(cell))
}

/// The cells of a list are the union of those of its rectangles.
fn cells_of_list(list: &[Rectangle]) -> u64 {
    list.iter().fold(0, |union, &r| union | cells(r))
}

/// Every rectangle with corners up to `side`.
fn all_rectangles(side: u32) -> Vec<Rectangle> {
    let mut all = Vec::new();
    for llx in 0..side {
        for lly in 0..side {
            for urx in llx + 1..=side {
                for ury in lly + 1..=side {
                    all.push(Rectangle::new(llx, lly, urx, ury));
                }
            }
        }
    }
    all
}

fn random_list(random: &mut Random, all: &[Rectangle], longest: u32) -> Vec<Rectangle> {
    (0..random.between(1, longest))
        .map(|_| random.pick(all))
        .collect()
}

#[test]
fn common_part_has_the_shared_cells() {
    let all = all_rectangles(6);
    for &a in &all {
        for &b in &all {
            let common = a.common_part(b);
            assert!(common.is_none_or(Rectangle::is_valid), "{a:?} {b:?}");
            let common_cells = common.map_or(0, cells);
            assert_eq!(common_cells, cells(a) & cells(b), "{a:?} {b:?}");
            assert_eq!(common.is_none(), common_cells == 0, "{a:?} {b:?}");
        }
    }
}

/// Among all rectangles with the rectangle and the cell, the grown one is the only one of least
/// area, and the extra area counts its new cells.
#[test]
fn grown_rectangle_is_the_smallest() {
    let all = all_rectangles(5);
    for &r in &all {
        for y in 0..5 {
            for x in 0..5 {
                let both = cells(r) | bit(x, y);
                let holding = |s: &&Rectangle| cells(**s) & both == both;
                let least = all
                    .iter()
                    .filter(holding)
                    .map(|&s| cells(s).count_ones())
                    .min();
                let smallest: Vec<Rectangle> = all
                    .iter()
                    .filter(holding)
                    .filter(|&&s| Some(cells(s).count_ones()) == least)
                    .copied()
                    .collect();
                assert_eq!(smallest, [r.grow([x, y])], "{r:?} takes ({x},{y})");
                let new_cells = cells(r.grow([x, y])) & !cells(r);
                let extra = u64::from(new_cells.count_ones());
                assert_eq!(r.extra_area([x, y]), extra, "{r:?} takes ({x},{y})");
            }
        }
    }
}

/// 'The number of cells of the grown rectangle that the whole polygon lacks', for each rectangle of
/// the polygon and each cell of the grid.
fn check_extra_areas(polygon: &[Rectangle], side: u32, place: &str) {
    let held = cells_of_list(polygon);
    for &r in polygon {
        for [x, y] in (0..side * side).map(|i| [i % side, i / side]) {
            let lacked = cells(r.grow([x, y])) & !held;
            assert_eq!(
                extra_area(polygon, r, [x, y]),
                u64::from(lacked.count_ones()),
                "{place}: {polygon:?}, {r:?} takes ({x},{y})"
            );
        }
    }
}

#[test]
fn extra_areas_of_every_short_polygon() {
    for &a in &all_rectangles(4) {
        check_extra_areas(&[a], 4, "polygon of 1");
        for &b in &all_rectangles(3) {
            check_extra_areas(&[a, b], 4, "polygon of 2");
        }
    }
}

#[test]
fn extra_areas_of_random_polygons() {
    let seed = seed();
    let all = all_rectangles(SIDE);
    for case in 0..LISTS / 20 {
        let mut random = Random::for_case(seed, 102, case);
        let polygon = random_list(&mut random, &all, 16);
        let place = format!("LINTZOGER_SEED={seed}, case {case}");
        check_extra_areas(&polygon, SIDE, &place);
    }
}

/// The cells of R minus those of S, told apart by the four pieces' order: past S in x, before S in
/// x, then past S in y, before S in y.
fn expected_pieces(r: Rectangle, s: Rectangle) -> Vec<u64> {
    if cells(r) & cells(s) == 0 {
        return vec![cells(r)];
    }
    let x_ceiling = cells_with(|[x, _]| x >= s.ur[0]);
    let x_floor = cells_with(|[x, _]| x < s.ll[0]);
    let y_ceiling = cells_with(|[_, y]| y >= s.ur[1]) & !x_ceiling & !x_floor;
    let y_floor = cells_with(|[_, y]| y < s.ll[1]) & !x_ceiling & !x_floor;
    let pieces = [x_ceiling, x_floor, y_ceiling, y_floor].map(|piece| piece & cells(r));
    pieces.into_iter().filter(|&piece| piece != 0).collect()
}

#[test]
fn cut_gives_the_pieces_in_order() {
    let all = all_rectangles(6);
    for &r in &all {
        for &s in &all {
            let pieces = cut(r, s);
            assert!(pieces.iter().all(|p| p.is_valid()), "{r:?} cut by {s:?}");
            let piece_cells: Vec<u64> = pieces.iter().map(|&p| cells(p)).collect();
            assert_eq!(piece_cells, expected_pieces(r, s), "{r:?} cut by {s:?}");
            let left = cells(r) & !cells(s);
            assert_eq!(cells_of_list(&pieces), left, "{r:?} cut by {s:?}");
            let area: u64 = pieces.iter().map(|p| p.area()).sum();
            assert_eq!(area, u64::from(left.count_ones()), "{r:?} cut by {s:?}");
        }
    }
}

#[test]
fn cut_of_a_list_removes_the_cells() {
    let seed = seed();
    let all = all_rectangles(SIDE);
    let mut over_limit = 0;
    for case in 0..LISTS {
        let mut random = Random::for_case(seed, 100, case);
        let list = random_list(&mut random, &all, 12);
        let polygon = random_list(&mut random, &all, 16);
        let place = format!("LINTZOGER_SEED={seed}, case {case}: {list:?} cut by {polygon:?}");

        let pieces = cut_list(&list, polygon[0]);
        let left = cells_of_list(&list) & !cells(polygon[0]);
        assert_eq!(cells_of_list(&pieces), left, "{place}");

        match cut_list_by_polygon(&list, &polygon) {
            Ok(pieces) => {
                let left = cells_of_list(&list) & !cells_of_list(&polygon);
                assert_eq!(cells_of_list(&pieces), left, "{place}");
            }
            Err(OverLimit) => over_limit += 1,
        }
    }
    assert!(over_limit < LISTS / 2, "{over_limit} lists over the limit");
}

/// The cells of both lists, each counted once, whichever list is named first.
fn check_shared(a: &[Rectangle], b: &[Rectangle], place: &str) {
    let shared = (cells_of_list(a) & cells_of_list(b)).count_ones();
    for (a, b) in [(a, b), (b, a)] {
        let counted = shared_cells(a, b);
        assert_eq!(counted, u64::from(shared), "{place}: {a:?} and {b:?}");
    }
}

#[test]
fn shared_cells_of_every_short_list() {
    let all = all_rectangles(4);
    for &a in &all {
        for &b in &all {
            check_shared(&[a], &[b], "lists of 1");
            check_shared(&[a, b], &[b, a], "lists of 2, the same");
            check_shared(&[a, b], &all[..7], "lists of 2 and 7");
        }
    }
}

#[test]
fn shared_cells_of_random_lists() {
    let seed = seed();
    let all = all_rectangles(SIDE);
    for case in 0..LISTS {
        let mut random = Random::for_case(seed, 103, case);
        let a = random_list(&mut random, &all, 12);
        let b = random_list(&mut random, &all, 16);
        check_shared(&a, &b, &format!("LINTZOGER_SEED={seed}, case {case}"));
    }
}

/// Refine on sets of cells: contained is a subset, and two rectangles of which none contains the
/// other are joined where their cells together are those of a rectangle.
fn refine_cells(mut list: Vec<u64>, all: &[u64]) -> Vec<u64> {
    loop {
        let contained = (0..list.len()).find(|&i| {
            (0..list.len()).any(|j| list[i] & !list[j] == 0 && (list[i] != list[j] || j < i))
        });
        let pairs = (0..list.len()).flat_map(|i| (i + 1..list.len()).map(move |j| (i, j)));
        let joined = pairs
            .into_iter()
            .find(|&(i, j)| all.contains(&(list[i] | list[j])));
        match (contained, joined) {
            (Some(i), _) => {
                list.remove(i);
            }
            (None, Some((i, j))) => {
                list[i] |= list[j];
                list.remove(j);
            }
            (None, None) => return list,
        }
    }
}

fn check_refine(list: &[Rectangle], all: &[u64], place: &str) {
    let refined = refine(list);
    let kept = cells_of_list(&refined) == cells_of_list(list);
    assert!(
        kept,
        "{place}: {list:?} has other cells refined: {refined:?}"
    );
    assert_eq!(refine(&refined), refined, "{place}: {list:?} refined twice");
    let given = list.iter().map(|&r| cells(r)).collect();
    let refined: Vec<u64> = refined.into_iter().map(cells).collect();
    assert_eq!(refined, refine_cells(given, all), "{place}: {list:?}");
}

#[test]
fn refine_of_every_short_list() {
    let grid = all_rectangles(4);
    let all: Vec<u64> = grid.iter().map(|&r| cells(r)).collect();
    for &a in &grid {
        for &b in &grid {
            check_refine(&[a, b], &all, "list of 2");
        }
    }
    let grid = all_rectangles(3);
    for &a in &grid {
        for &b in &grid {
            for &c in &grid {
                check_refine(&[a, b, c], &all, "list of 3");
            }
        }
    }
}

#[test]
fn refine_of_random_lists() {
    let seed = seed();
    for case in 0..LISTS {
        let mut random = Random::for_case(seed, 101, case);
        let grid = all_rectangles(random.between(2, 5));
        let all: Vec<u64> = grid.iter().map(|&r| cells(r)).collect();
        let list = random_list(&mut random, &grid, 10);
        check_refine(&list, &all, &format!("LINTZOGER_SEED={seed}, case {case}"));
    }
}
