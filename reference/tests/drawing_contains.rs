//! Document 02, request A.3: the containment test on built polygons, and at the bounds of what it
//! accepts. (drawing_bad_input has its other faults, drawing_random_lists and
//! drawing_contains_cells more polygons.)

mod support;

use reference::proved;
use support::containment::{case, check};
use support::polygons::{apart, every_length, INVALID};
use support::{GRID_END, POLYGON_LIMIT};

/// The last coordinate of a cell.
const LAST: u32 = GRID_END - 1;

#[test]
fn worked_numbers() {
    let polygon = [[0, 0, 2, 2], [1, 1, 4, 4], [8, 8, 9, 9]];
    check(&polygon, [0, 0], true, 1, "worked");
    check(&polygon, [1, 1], true, 1, "worked");
    check(&polygon, [3, 3], true, 2, "worked");
    check(&polygon, [8, 8], true, 3, "worked");
    check(&polygon, [9, 9], false, 3, "worked");
}

/// The first and the last cell of a rectangle.
fn ends([llx, lly, urx, ury]: [u32; 4]) -> [[u32; 2]; 2] {
    [[llx, lly], [urx - 1, ury - 1]]
}

/// The cell is in one rectangle alone, at each place of polygons of each count, or in none.
#[test]
fn each_place() {
    for count in 1..=POLYGON_LIMIT {
        let polygon = apart(count);
        let place = format!("{count} rectangles");
        for (before, &r) in polygon.iter().enumerate() {
            for cell in ends(r) {
                check(&polygon, cell, true, before + 1, &place);
            }
        }
        for cell in [[99, 0], [0, 9], [5000, 5000], [LAST, LAST]] {
            check(&polygon, cell, false, count, &place);
        }
    }
}

/// The cell is in two rectangles of sixteen, at each two places: the first counts. The two overlap,
/// one is inside the other, or they are equal.
#[test]
fn first_of_two() {
    let pairs = [
        ([5000, 5000, 5010, 5010], [5009, 5009, 5020, 5020]),
        ([5009, 5000, 5020, 5010], [5000, 5009, 5010, 5020]),
        ([5000, 5000, 5020, 5020], [5009, 5009, 5010, 5010]),
        ([5009, 5009, 5010, 5010], [5000, 5000, 5020, 5020]),
        ([5000, 5000, 5010, 5010], [5000, 5000, 5010, 5010]),
    ];
    for (one, other) in pairs {
        for j in 1..POLYGON_LIMIT {
            for i in 0..j {
                let mut polygon = apart(POLYGON_LIMIT);
                (polygon[i], polygon[j]) = (one, other);
                let place = format!("places {i} and {j}");
                check(&polygon, [5009, 5009], true, i + 1, &place);
            }
        }
    }
    let same = [[5, 5, 6, 6]; POLYGON_LIMIT];
    check(&same, [5, 5], true, 1, "sixteen equal ones");
    check(&same, [6, 5], false, POLYGON_LIMIT, "sixteen equal ones");
}

/// Accepted are one to sixteen rectangles, and no other length.
#[test]
fn every_length_of_the_polygon() {
    for (numbers, is_polygon) in every_length() {
        let mut case = case(&[], [0, 0]);
        let place = format!("{} numbers", numbers.len());
        case.polygon = numbers;
        case.expect(if is_polygon { 0 } else { 3 }, &place);
    }
}

/// An invalid rectangle is refused at each place, also behind the first that has the cell.
#[test]
fn invalid_rectangle_anywhere() {
    for count in [1, 2, 3, POLYGON_LIMIT] {
        let valid = apart(count);
        let mut cells: Vec<[u32; 2]> = valid.iter().map(|&r| ends(r)[0]).collect();
        cells.push([LAST, LAST]);
        for at in 0..count {
            for invalid in INVALID {
                let mut polygon = valid.clone();
                polygon[at] = invalid;
                for &cell in &cells {
                    case(&polygon, cell).expect(3, &format!("{invalid:?} at place {at}"));
                }
            }
        }
    }
}

/// The grid's last cell is accepted, with ur = 65536; no coordinate beyond it is, whatever the
/// rectangle is.
#[test]
fn bounds_of_the_cell() {
    let whole = [0, 0, GRID_END, GRID_END];
    let last = [LAST, LAST, GRID_END, GRID_END];
    for good in [0, 1, 255, 256, LAST - 1, LAST] {
        for cell in [[good, LAST], [LAST, good]] {
            check(&[whole], cell, true, 1, "the whole grid");
            check(&[last], cell, good == LAST, 1, "the last cell");
        }
        for bad in [GRID_END, GRID_END + 1, 2 * GRID_END, 1 << 31, u32::MAX] {
            for cell in [[good, bad], [bad, good], [bad, bad]] {
                for polygon in [[whole], [last], [[0, 0, 1, 1]]] {
                    case(&polygon, cell).expect(3, "a cell off the grid");
                }
            }
        }
    }
}

/// Of the numbers that are lent the call stores two, and after a refusal none.
#[test]
fn numbers_beside_the_two_stay() {
    let polygon = [0, 0, 2, 2, 1, 1, 4, 4];
    for (cell, answer, [has, compared]) in [
        ([3, 3], 0, [1, 2]),
        ([9, 9], 0, [0, 2]),
        ([GRID_END, 0], 3, [102, 105]),
    ] {
        let mut numbers: Vec<u32> = (100..108).collect();
        let (left, right) = numbers.split_at_mut(4);
        let given = proved::contains(&polygon, cell, &mut left[2], &mut right[1]);
        assert_eq!(given, answer, "cell {cell:?}");
        assert_eq!(numbers, [100, 101, has, 103, 104, compared, 106, 107]);
    }
}
