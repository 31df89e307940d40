//! Nearest queries with answers that are written out, asked of both implementations.

mod memory_support;
mod support;

use memory_support::built::scattered;
use memory_support::calls::Session;
use memory_support::length_of;
use memory_support::lent::Lent;
use memory_support::nearest::NearestOutput;
use memory_support::written_out::{g10, image_of, index_of};
use reference::geometry::Cell;
use support::build::{leaf, tag, tree};
use support::checked::Command::Remove;

/// The query is answered with the entry of this cell, the squared distance and the visits.
fn expect(index: &mut Session, asked: Cell, near: Cell, distance: u64, visits: u32) {
    let found = NearestOutput {
        answer: 0,
        near,
        tag: tag(near),
        distance,
        visits,
    };
    assert_eq!(index.nearest(asked), found, "{asked:?}");
}

/// The query is refused, and nothing is stored.
fn expect_refusal(numbers: &[u32], asked: Cell, refusal: u32) {
    let lent = Lent::new(numbers);
    let place = format_args!("{} numbers", numbers.len());
    let output = lent.nearest(&lent.reading(), asked, place);
    assert_eq!(output, NearestOutput::refused(refusal), "{asked:?}");
}

/// 1, then 3, then 4, then 10: of two causes the earlier one is given.
#[test]
fn refusals_in_their_order() {
    for n in [1, 2, 64, 256] {
        let mut index = vec![0; length_of(n)];
        expect_refusal(&index, [5, 5], 10);
        expect_refusal(&index, [65535, 65535], 10);
        expect_refusal(&index, [65536, 0], 3);
        expect_refusal(&index, [0, 65536], 3);
        index[63] = 1;
        expect_refusal(&index, [5, 5], 4);
        expect_refusal(&index, [0, u32::MAX], 3);
        index.push(0);
        expect_refusal(&index, [5, 5], 1);
        expect_refusal(&index, [65536, 0], 1);
    }
    expect_refusal(&[], [5, 5], 1);
    expect_refusal(&[0; 64], [5, 5], 1);
    expect_refusal(&[0; 65], [5, 5], 1);
    expect_refusal(&vec![0; length_of(257)], [5, 5], 1);
}

/// A damaged image of a tree is refused with 4, and an index whose last entry was removed with 10.
#[test]
fn damaged_and_emptied() {
    let mut index = index_of(1, &[[10, 10], [20, 12]]);
    let mut damaged = index.numbers().to_vec();
    damaged[64 + 66] = 21;
    expect_refusal(&damaged, [10, 10], 4);
    expect(&mut index, [15, 11], [10, 10], 26, 1);
    index.expect(Remove([10, 10]), 0);
    expect(&mut index, [15, 11], [20, 12], 26, 1);
    index.expect(Remove([20, 12]), 0);
    expect_refusal(index.numbers(), [15, 11], 10);
}

/// The largest distance, from each corner of the grid to the opposite one, needs 34 bits.
#[test]
fn far_corners() {
    for x in [0, 65535] {
        for y in [0, 65535] {
            let mut index = index_of(1, &[[x, y]]);
            expect(&mut index, [65535 - x, 65535 - y], [x, y], 8_589_672_450, 1);
            expect(&mut index, [65535 - x, y], [x, y], 4_294_836_225, 1);
            expect(&mut index, [x, y], [x, y], 0, 1);
        }
    }
}

/// 65535^2 + 600^2 is 228929 more than 2^32: in 32 bits it would be nearer than 500^2, and the
/// second leaf would be entered.
#[test]
fn distances_of_more_than_32_bits_decide() {
    let (far, near) = ([65535, 600], [500, 0]);
    let mut index = index_of(1, &[far, near]);
    expect(&mut index, [0, 0], near, 250_000, 1);
    let branches = vec![
        leaf(&[[500, 0, 501, 1]], &[near]),
        leaf(&[[65535, 600, 65536, 601]], &[far]),
    ];
    let mut index = image_of(tree([500, 0, 65536, 601], branches));
    expect(&mut index, [0, 0], near, 250_000, 2);
}

/// 'Ties to the smaller x, then the smaller y', whatever the order of insertion.
#[test]
fn ties_in_a_leaf() {
    let mut index = index_of(1, &[[0, 5], [10, 5], [5, 0], [5, 10]]);
    expect(&mut index, [5, 5], [0, 5], 25, 1);
    index.expect(Remove([0, 5]), 0);
    expect(&mut index, [5, 5], [5, 0], 25, 1);

    let mut index = index_of(1, &[[12, 10], [10, 12], [8, 10], [10, 8]]);
    for near in [[8, 10], [10, 8], [10, 12], [12, 10]] {
        expect(&mut index, [10, 10], near, 4, 1);
        index.expect(Remove(near), 0);
    }
}

/// Both leaves have an entry with the distance 25. The second is entered, as its least distance is
/// at most the best so far, and the smaller x wins in either order.
#[test]
fn a_tie_between_leaves() {
    let right = leaf(&[[5, 0, 6, 1]], &[[5, 0]]);
    let left = leaf(&[[4, 3, 5, 6]], &[[4, 5], [4, 3]]);
    for branches in [[right.clone(), left.clone()], [left, right]] {
        let mut index = image_of(tree([4, 0, 6, 6], branches.to_vec()));
        expect(&mut index, [0, 0], [4, 3], 25, 3);
    }
}

#[test]
fn g10_two_leaves() {
    let mut index = g10();
    expect(&mut index, [0, 5], [0, 5], 0, 2);
    expect(&mut index, [4, 5], [4, 5], 0, 2);
    expect(&mut index, [4, 9], [4, 5], 16, 2);
    // The first leaf is entered first, though the second has the cell.
    expect(&mut index, [5, 5], [5, 5], 0, 3);
    expect(&mut index, [20, 5], [8, 5], 144, 3);
    expect(&mut index, [100, 5], [8, 5], 8464, 3);
}

/// The second leaf's least distance is as much as the best so far, then less, then more.
#[test]
fn g10_with_a_gap() {
    let mut index = g10();
    index.expect(Remove([4, 5]), 0);
    expect(&mut index, [4, 5], [3, 5], 1, 3);
    index.expect(Remove([3, 5]), 0);
    expect(&mut index, [4, 5], [5, 5], 1, 3);
    expect(&mut index, [3, 5], [2, 5], 1, 2);
}

/// The first leaf is entered as no entry has been met. The third is passed over because of the
/// second's entry: the test is made when the walk comes to it.
#[test]
fn a_leaf_is_passed_over_after_its_elder_siblings() {
    let leaves = [20, 1, 10].map(|x| leaf(&[[x, 0, x + 1, 1]], &[[x, 0]]));
    let mut index = image_of(tree([0, 0, 21, 1], leaves.to_vec()));
    expect(&mut index, [0, 0], [1, 0], 1, 3);
    expect(&mut index, [21, 0], [20, 0], 1, 2);
    // The second is passed over, the third is not; then none is.
    expect(&mut index, [11, 0], [10, 0], 1, 3);
    expect(&mut index, [10, 0], [10, 0], 0, 4);
}

/// The least distance is one to a cell: ur is excluded. From (7,5) it is 9 to (4,5), the last cell
/// of the second leaf, and would be 4 to its corner.
#[test]
fn upper_corners_are_no_cells() {
    let branches = vec![
        leaf(&[[5, 5, 10, 6]], &[[9, 5]]),
        leaf(&[[0, 5, 5, 6]], &[[0, 5]]),
    ];
    let mut index = image_of(tree([0, 5, 10, 6], branches));
    expect(&mut index, [7, 5], [9, 5], 4, 2);
    let branches = vec![
        leaf(&[[5, 5, 6, 10]], &[[5, 9]]),
        leaf(&[[5, 0, 6, 5]], &[[5, 0]]),
    ];
    let mut index = image_of(tree([5, 0, 6, 10], branches));
    expect(&mut index, [5, 7], [5, 9], 4, 2);
}

/// A polygon of two rectangles around a notch, which the first leaf fills.
fn notched() -> Session {
    let branches = vec![
        leaf(&[[2, 2, 10, 10]], &[[5, 8], [6, 9]]),
        leaf(&[[0, 0, 10, 2], [0, 0, 2, 10]], &[[9, 1], [1, 9]]),
    ];
    image_of(tree([0, 0, 10, 10], branches))
}

/// The least over the rectangles counts: not that of the first alone, nor of one around all.
#[test]
fn beside_a_notch() {
    let mut index = notched();
    expect(&mut index, [5, 5], [5, 8], 9, 2);
    expect(&mut index, [3, 9], [1, 9], 4, 3);
    expect(&mut index, [9, 3], [9, 1], 4, 3);
    expect(&mut index, [7, 4], [9, 1], 13, 3);
}

/// Each of sixteen rectangles in turn is the only one that is near enough for its leaf to be
/// entered.
#[test]
fn each_of_sixteen_rectangles() {
    for [x, y, ..] in scattered(16) {
        let branches = vec![
            leaf(&[[x + 2, y, x + 3, y + 1]], &[[x + 2, y]]),
            leaf(&scattered(16), &[[x, y]]),
        ];
        let mut index = image_of(tree([0, 0, 65, 65], branches));
        expect(&mut index, [x + 1, y], [x, y], 1, 3);
    }
}
