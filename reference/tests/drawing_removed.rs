//! Document 02's request A.6 in the drawing exercise: the number of cells that a cut by a polygon
//! removes, 'a cell under several rectangles counted once'.

mod support;

use reference::geometry::Rectangle;
use reference::random::Random;
use support::build::polygon as rectangles;
use support::case::{Call, Case};
use support::cell_set::{CellSet, SIDE};
use support::counts::{Tally, REMOVED};
use support::many_pieces::{nested_bars, polygons, squares};
use support::{say, seed, GRID_END, LIST_LIMIT, POLYGON_LIMIT};

const GRID: [u32; 4] = [0, 0, GRID_END, GRID_END];

fn case(list: &[[u32; 4]], polygon: &[[u32; 4]]) -> Case {
    let mut case = Case::new(Call::CutPolygon);
    case.list = list.concat();
    case.polygon = polygon.concat();
    case
}

/// Both implementations leave these rectangles, and report that so many cells are removed.
fn check(name: &str, list: &[[u32; 4]], polygon: &[[u32; 4]], left: &[[u32; 4]], removed: u64) {
    let output = case(list, polygon).expect(0, name);
    assert_eq!(output.list(), left.concat(), "{name}");
    assert_eq!(output.removed, removed, "{name}");
}

#[test]
fn worked_cuts() {
    let (list, left) = (
        [[0, 0, 4, 4], [2, 0, 6, 4]],
        [[0, 0, 3, 4], [5, 0, 6, 4], [2, 0, 3, 4]],
    );
    check("A6.1", &list, &[[3, 0, 5, 4]], &left, 8);
    let polygon = [[0, 0, 2, 2], [1, 1, 3, 3]];
    let left = [
        [3, 0, 10, 10],
        [2, 3, 3, 10],
        [2, 0, 3, 1],
        [0, 2, 1, 10],
        [1, 3, 2, 10],
    ];
    check("A6.2", &[[0, 0, 10, 10]], &polygon, &left, 7);
    check("A6.3", &[GRID], &[GRID], &[], 1 << 32);
}

/// Rectangles that share an edge or a corner share no cell.
#[test]
fn edge_to_edge() {
    let (square, halves) = (
        [4, 4, 8, 8],
        [[0, 0, GRID_END, 9], [0, 9, GRID_END, GRID_END]],
    );
    for other in [
        [8, 4, 12, 8],
        [0, 4, 4, 8],
        [4, 8, 8, 12],
        [4, 0, 8, 4],
        [8, 8, 9, 9],
    ] {
        check("edge to edge", &[square], &[other], &[square], 0);
    }
    check("halves", &halves[..1], &halves[1..], &halves[..1], 0);
    check("both halves", &[GRID], &halves, &[], 1 << 32);
}

/// A list and a polygon in which each rectangle comes twice.
#[test]
fn given_twice() {
    let (list, polygon) = ([[0, 0, 4, 4]; 2], [[2, 2, 6, 6]; 2]);
    let left = [[0, 0, 2, 4], [2, 0, 4, 2]];
    check("twice", &list, &polygon, &[left, left].concat(), 4);
    check(
        "grid",
        &[GRID; LIST_LIMIT],
        &[GRID; POLYGON_LIMIT],
        &[],
        1 << 32,
    );
}

/// The number of rectangles and the number of cells stay as they were.
fn check_refused(name: &str, case: &Case, answer: u32) {
    let (before, output) = (case.before(), case.expect(answer, name));
    let stored = (output.written, output.removed);
    assert_eq!(stored, (before.written, before.removed), "{name}");
}

#[test]
fn refused_cuts() {
    let bars: Vec<[u32; 4]> = (0..129).map(|x| [2 * x, 0, 2 * x + 1, 9]).collect();
    let (square, invalid) = ([0, 0, 4, 4], [4, 0, 4, 4]);
    for fill in 0..4 {
        let with = |list: &[[u32; 4]], polygon: &[[u32; 4]]| Case {
            fill,
            ..case(list, polygon)
        };
        check_refused("rectangle", &with(&[square, invalid], &[square]), 3);
        check_refused("polygon", &with(&[square], &[square, invalid]), 3);
        check_refused("no list", &with(&[], &[square]), 3);
        check_refused("no polygon", &with(&[square], &[]), 3);
        check_refused("17 rectangles", &with(&[square], &[square; 17]), 3);
        let short = Case {
            result_length: 1020,
            ..with(&[square], &[square])
        };
        check_refused("result list", &short, 3);
        // Each bar is cut in two; then the grid would remove all.
        check_refused("258 pieces", &with(&bars, &[[0, 4, 400, 5], GRID]), 7);
        let output = with(&bars[..128], &[[0, 4, 400, 5], GRID]).expect(0, "256 pieces");
        assert_eq!(output.removed, 128 * 9);
    }
}

/// Any rectangle of the grid of sets of cells, small ones more often.
fn any_rectangle(random: &mut Random) -> [u32; 4] {
    let most = random.pick(&[3, 10, SIDE]);
    let [width, height] = [(); 2].map(|()| random.between(1, most));
    let [x, y] = [width, height].map(|size| random.between(0, SIDE - size));
    [x, y, x + width, y + height]
}

fn set(list: &[[u32; 4]]) -> CellSet {
    let list: Vec<Rectangle> = rectangles(list);
    CellSet::of(&list)
}

/// Lists of up to 256 rectangles and polygons of up to 16 that overlap themselves: what is left has
/// the cells of the list that the polygon lacks, and the others are counted.
#[test]
fn cells_told_one_by_one() {
    let seed = seed();
    let mut tally = Tally::default();
    for number in 0..LISTS {
        let mut random = Random::for_case(seed, 3200, number);
        let mut any = |most: usize| -> Vec<[u32; 4]> {
            let count = random.pick(&[1, 2, 5, 16, most]).min(most);
            (0..count).map(|_| any_rectangle(&mut random)).collect()
        };
        let (list, polygon) = (any(LIST_LIMIT), any(POLYGON_LIMIT));
        let place = format!("LINTZOGER_SEED={seed}, case {number}");
        let case = case(&list, &polygon);
        let output = case.compare(&place);
        tally.add(&case, &output);
        if output.answer == 0 {
            let (list, polygon) = (set(&list), set(&polygon));
            let left: Vec<[u32; 4]> = output.list().chunks(4).map(four).collect();
            assert_eq!(set(&left), list.without(&polygon), "{place}");
            assert_eq!(output.removed, list.and(&polygon).count(), "{place}");
        }
    }
    say(&format!("cuts, cell by cell: {tally}"));
    let [none, some, _, not_areas] = REMOVED;
    tally.require(300, &[none, some, not_areas]);
    tally.require(30, &["accepted, list of 256", "accepted, polygon of 16"]);
}

fn four(numbers: &[u32]) -> [u32; 4] {
    [numbers[0], numbers[1], numbers[2], numbers[3]]
}

const LISTS: u64 = 6_000;

/// Nothing is left of the bars and of the squares.
#[test]
fn dear_counts() {
    let bars: u64 = (1..=256).map(|j| 200 * j * 100).sum();
    for polygon in polygons() {
        check("nested bars", &nested_bars(), &polygon, &[], bars);
        check("squares", &squares(), &polygon, &[], 51_200 * 51_200);
    }
}
