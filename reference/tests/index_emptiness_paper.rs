//! Emptiness queries with answers that are written out, asked of both implementations.

mod memory_support;
mod support;

use memory_support::built::scattered;
use memory_support::calls::Session;
use memory_support::emptiness::EmptinessOutput;
use memory_support::length_of;
use memory_support::lent::Lent;
use memory_support::queries::invalid_windows;
use memory_support::written_out::{g10, image_of, index_of};
use support::build::{leaf, rectangle, routing, tree};
use support::checked::Command::Remove;

const GRID: [u32; 4] = [0, 0, 65536, 65536];

/// Yes is 1, no is 0.
const YES: u32 = 1;
const NO: u32 = 0;

/// The query stores the yes or no and the visits; the window query reports so many matches and visits.
fn expect(index: &mut Session, window: [u32; 4], stored: [u32; 2], beside: [u32; 2]) {
    let (output, of_window) = index.is_empty(window);
    let [empty, visits] = stored;
    let expected = EmptinessOutput {
        answer: 0,
        empty,
        visits,
    };
    assert_eq!(output, expected, "{window:?}");
    let of_window = [of_window.matches, of_window.visits];
    assert_eq!(of_window, beside, "{window:?}: window query");
}

/// Yes, with so many visits, which the window query has too.
fn expect_yes(index: &mut Session, window: [u32; 4], visits: u32) {
    expect(index, window, [YES, visits], [0, visits]);
}

/// The queries are refused, and nothing is stored.
fn expect_refusals(numbers: &[u32], windows: &[[u32; 4]], refusal: u32) {
    let lent = Lent::new(numbers);
    let place = format_args!("{} numbers", numbers.len());
    for &window in windows {
        let output = lent.is_empty(&lent.reading(), window, place);
        assert_eq!(output, EmptinessOutput::refused(refusal), "{window:?}");
    }
}

/// Windows without cells, in x only, in y only, and windows that pass the grid: refused with 3.
fn invalid() -> Vec<[u32; 4]> {
    invalid_windows(rectangle([5, 5, 6, 6]))
}

/// Windows that are not refused with 3.
const VALID: [[u32; 4]; 2] = [GRID, [5, 5, 6, 6]];

/// 1, then 3, then 4: of two causes the earlier one is given.
#[test]
fn refusals_in_their_order() {
    for n in [1, 2, 64, 256] {
        let mut index = vec![0; length_of(n)];
        expect_refusals(&index, &invalid(), 3);
        index[63] = 1;
        expect_refusals(&index, &VALID, 4);
        expect_refusals(&index, &invalid(), 3);
        index.push(0);
        expect_refusals(&index, &VALID, 1);
        expect_refusals(&index, &invalid(), 1);
        index[63] = 0;
        expect_refusals(&index, &VALID, 1);
    }
    for length in [0, 1, 63, 64, 65, 191, 193, length_of(257)] {
        expect_refusals(&vec![0; length], &VALID, 1);
    }
}

/// A damaged image of a tree is refused with 4, whether the window has an entry, meets the root's
/// rectangle, or lies elsewhere.
#[test]
fn damaged() {
    let mut index = index_of(1, &[[10, 10], [20, 12]]);
    let windows = [[10, 10, 11, 11], [11, 10, 20, 12], [30, 30, 40, 40]];
    expect(&mut index, windows[0], [NO, 1], [1, 1]);
    expect_yes(&mut index, windows[1], 1);
    expect_yes(&mut index, windows[2], 0);
    let mut damaged = index.numbers().to_vec();
    damaged[64 + 66] = 21;
    expect_refusals(&damaged, &windows, 4);
    expect_refusals(&damaged, &invalid(), 3);
}

/// One-cell windows at the corners of the grid.
const CORNERS: [[u32; 4]; 4] = [
    [0, 0, 1, 1],
    [65535, 0, 65536, 1],
    [0, 65535, 1, 65536],
    [65535, 65535, 65536, 65536],
];

/// A fresh index, and one whose last entry was removed: yes, no visits, whatever the window.
#[test]
fn an_empty_index() {
    for n in [1, 3, 64, 256] {
        let mut fresh = index_of(n, &[]);
        let mut emptied = index_of(n, &[[0, 0], [65535, 65535]]);
        emptied.expect(Remove([0, 0]), 0);
        expect(&mut emptied, GRID, [NO, 1], [1, 1]);
        emptied.expect(Remove([65535, 65535]), 0);
        for window in CORNERS.into_iter().chain([GRID, [5, 5, 9, 9]]) {
            expect_yes(&mut fresh, window, 0);
            expect_yes(&mut emptied, window, 0);
        }
    }
}

/// The leaf with the first match is entered and counted, the sibling behind it is not.
#[test]
fn g10_two_leaves() {
    let mut index = g10();
    expect(&mut index, [0, 5, 9, 6], [NO, 2], [9, 3]);
    expect(&mut index, GRID, [NO, 2], [9, 3]);
    expect(&mut index, [0, 0, 5, 6], [NO, 2], [5, 2]);
    expect(&mut index, [3, 0, 6, 10], [NO, 2], [3, 3]);
    expect(&mut index, [4, 5, 6, 6], [NO, 2], [2, 3]);
    expect(&mut index, [5, 5, 9, 6], [NO, 2], [4, 2]);
    expect(&mut index, [7, 5, 9, 6], [NO, 2], [2, 2]);
    expect(&mut index, [8, 5, 9, 6], [NO, 2], [1, 2]);
}

/// Windows that share no cell with the root's rectangle (0,5)-(9,6), on all four sides and further
/// away.
#[test]
fn g10_beside_the_root() {
    let mut index = g10();
    for window in [
        [9, 0, 10, 10],
        [0, 0, 9, 5],
        [0, 6, 9, 10],
        [9, 5, 65536, 6],
        [0, 0, 3, 3],
        [20, 20, 30, 30],
        [65535, 65535, 65536, 65536],
    ] {
        expect_yes(&mut index, window, 0);
    }
}

/// Polygons keep their cells after a removal: a leaf without a match is entered, then the next.
#[test]
fn g10_with_gaps() {
    let mut index = g10();
    index.expect(Remove([4, 5]), 0);
    expect_yes(&mut index, [4, 5, 5, 6], 2);
    expect(&mut index, [4, 5, 6, 6], [NO, 3], [1, 3]);
    index.expect(Remove([3, 5]), 0);
    expect_yes(&mut index, [3, 5, 5, 6], 2);
    expect(&mut index, [2, 5, 6, 6], [NO, 2], [2, 3]);
    index.expect(Remove([5, 5]), 0);
    expect_yes(&mut index, [3, 5, 6, 6], 3);
    expect(&mut index, [3, 5, 7, 6], [NO, 3], [1, 3]);
}

/// 'll <= cell < ur in both dimensions': windows around and beside one entry.
#[test]
fn sides_of_a_window() {
    let mut index = index_of(1, &[[9, 9], [12, 12]]);
    index.expect(Remove([9, 9]), 0);
    for window in [[12, 12, 13, 13], [12, 0, 13, 65536], [10, 10, 13, 13]] {
        expect(&mut index, window, [NO, 1], [1, 1]);
    }
    for window in [[9, 9, 12, 13], [9, 9, 13, 12], [9, 12, 12, 13]] {
        expect_yes(&mut index, window, 1);
    }
    expect_yes(&mut index, [13, 12, 14, 13], 0);
    expect_yes(&mut index, [12, 13, 13, 14], 0);
}

/// Each of eight entries of a leaf alone in a window, held and removed; and entries at the corners of
/// the grid.
#[test]
fn one_leaf() {
    let cells = [3, 1, 4, 8, 5, 9, 2, 6].map(|x| [x, 100 - x]);
    for [x, y] in cells {
        let mut index = index_of(1, &cells);
        expect(&mut index, [x, y, x + 1, y + 1], [NO, 1], [1, 1]);
        index.expect(Remove([x, y]), 0);
        expect_yes(&mut index, [x, y, x + 1, y + 1], 1);
    }
    let mut index = index_of(1, &CORNERS.map(|[x, y, ..]| [x, y]));
    for window in CORNERS {
        expect(&mut index, window, [NO, 1], [1, 1]);
    }
    expect(&mut index, GRID, [NO, 1], [4, 1]);
    expect_yes(&mut index, [1, 0, 65535, 65536], 1);
    expect_yes(&mut index, [0, 1, 65536, 65535], 1);
}

/// Three leaves in a root that has other cells too. Their order decides what is entered.
#[test]
fn order_of_the_leaves() {
    let leaves = [0, 4, 8].map(|x| leaf(&[[x, 0, x + 2, 2]], &[[x + 1, 1]]));
    let [a, b, c] = leaves;
    let whole = [0, 0, 12, 6];
    let mut index = image_of(tree(whole, vec![a.clone(), b.clone(), c.clone()]));
    expect_yes(&mut index, [0, 0, 10, 1], 4);
    expect(&mut index, [1, 0, 10, 2], [NO, 2], [3, 4]);
    expect_yes(&mut index, [2, 2, 12, 6], 1);
    expect_yes(&mut index, [2, 0, 4, 6], 1);
    index.expect(Remove([1, 1]), 0);
    expect(&mut index, GRID, [NO, 2], [2, 3]);
    let mut index = image_of(tree(whole, vec![c, b, a]));
    expect(&mut index, [1, 0, 9, 2], [NO, 3], [2, 4]);
    expect(&mut index, [1, 0, 5, 2], [NO, 3], [1, 3]);
    expect(&mut index, [5, 0, 9, 2], [NO, 3], [1, 3]);
}

/// Below a node without a match the walk goes on with the node's next sibling; below one with a
/// match it stops on all levels.
#[test]
fn three_levels() {
    let pair = |y: u32| {
        let leaves = [0, 2].map(|x| leaf(&[[x, y, x + 2, y + 2]], &[[x + 1, y + 1]]));
        routing(&[[0, y, 4, y + 2]], leaves.to_vec())
    };
    let mut index = image_of(tree([0, 0, 4, 4], vec![pair(0), pair(2)]));
    expect(&mut index, GRID, [NO, 3], [4, 7]);
    expect_yes(&mut index, [0, 0, 4, 1], 4);
    expect(&mut index, [0, 2, 4, 4], [NO, 3], [2, 4]);
    expect(&mut index, [2, 0, 4, 4], [NO, 3], [2, 5]);
    index.expect(Remove([1, 1]), 0);
    expect(&mut index, GRID, [NO, 3], [3, 6]);
    expect_yes(&mut index, [0, 0, 2, 3], 4);
    expect(&mut index, [0, 0, 2, 4], [NO, 4], [1, 4]);
}

/// A polygon of two rectangles around a notch: not the one around both, nor the first alone, says
/// whether its leaf is entered.
#[test]
fn beside_a_notch() {
    let branches = vec![
        leaf(&[[0, 0, 10, 2], [0, 0, 2, 10]], &[[9, 1], [1, 9]]),
        leaf(&[[2, 2, 10, 10]], &[[6, 9]]),
    ];
    let mut index = image_of(tree([0, 0, 10, 10], branches));
    expect_yes(&mut index, [2, 2, 6, 6], 2);
    expect(&mut index, [2, 2, 10, 10], [NO, 2], [1, 2]);
    expect_yes(&mut index, [0, 2, 2, 9], 2);
    expect(&mut index, [0, 8, 2, 10], [NO, 2], [1, 2]);
    expect_yes(&mut index, [1, 2, 6, 9], 3);
}

/// Each of sixteen rectangles in turn is the only one that shares a cell with the window.
#[test]
fn each_of_sixteen_rectangles() {
    for [x, y, urx, ury] in scattered(16) {
        let branches = vec![leaf(&scattered(16), &[[x, y]])];
        let mut index = image_of(tree([0, 0, 65, 65], branches));
        expect(&mut index, [x - 1, y - 1, urx, ury], [NO, 2], [1, 2]);
        expect_yes(&mut index, [x + 1, y, urx + 1, ury + 1], 2);
        expect_yes(&mut index, [x - 1, y - 1, x, ury], 1);
        expect_yes(&mut index, [urx, y, urx + 1, ury], 1);
    }
}
