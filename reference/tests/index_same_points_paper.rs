//! Request A.14 with lists that are written out: an order that is refused, other visits, another
//! order of the written entries.

mod memory_support;
mod support;

use memory_support::asked::Proved;
use memory_support::calls::Session;
use memory_support::same_points::{Pair, COMPARED};
use memory_support::written_out::{g10, index_of};
use reference::geometry::{Cell, Rectangle};
use reference::random::Random;
use support::build::{polygon, tag};
use support::checked::Command::{Insert, Remove};

const GRID: [u32; 4] = [0, 0, 65536, 65536];

/// Every cell and window of the square with a margin is answered alike.
fn expect_alike(first: &Session, second: &Session, square: Rectangle) {
    let indexes = [first, second].map(|index| Proved(index.numbers()));
    let pair = Pair::new(indexes, first.held(), Random::new(14), "paper");
    pair.ask_all(square).require(1, &[COMPARED]);
}

/// N = 4: three nodes in this order.
const ACCEPTED: [Cell; 15] = [
    [2, 6],
    [6, 0],
    [5, 2],
    [2, 0],
    [5, 1],
    [2, 2],
    [6, 1],
    [1, 4],
    [4, 1],
    [0, 2],
    [0, 0],
    [3, 1],
    [0, 1],
    [1, 2],
    [4, 2],
];

/// The same column by column: the last insertion would make a fifth node.
const REFUSED: [Cell; 15] = [
    [0, 0],
    [0, 1],
    [0, 2],
    [1, 2],
    [1, 4],
    [2, 0],
    [2, 2],
    [2, 6],
    [3, 1],
    [4, 1],
    [4, 2],
    [5, 1],
    [5, 2],
    [6, 0],
    [6, 1],
];

/// In four parts the second order is refused with 8 at the fifteenth insertion. In five it is
/// accepted, and both indexes answer alike.
#[test]
fn refused_in_one_order_only() {
    let square = Rectangle::new(0, 0, 7, 7);
    let mut accepted = index_of(4, &ACCEPTED);
    let mut refused = index_of(4, &REFUSED[..14]);
    refused.expect(Insert([6, 1], tag([6, 1])), 8);
    let whole = index_of(5, &REFUSED);
    let nodes = [&accepted, &whole].map(|index| index.tree().expect("entries").nodes());
    assert_eq!(nodes, [3, 5]);
    expect_alike(&accepted, &whole, square);
    // A stronger form: what counts is the entries held, here after a refusal and a removal.
    accepted.expect(Remove([6, 1]), 0);
    expect_alike(&accepted, &refused, square);
}

/// The right leaf's polygon begins at (5,1) in the first order, at (4,0) in the second.
#[test]
fn other_visits() {
    let first = [
        [3, 5],
        [7, 3],
        [0, 6],
        [6, 1],
        [7, 2],
        [5, 6],
        [4, 7],
        [4, 4],
        [0, 5],
        [1, 0],
    ];
    let second = [
        [1, 0],
        [7, 2],
        [7, 3],
        [0, 5],
        [4, 4],
        [6, 1],
        [4, 7],
        [3, 5],
        [0, 6],
        [5, 6],
    ];
    let [mut first, mut second] = [first, second].map(|cells| index_of(3, &cells));
    for (index, visits) in [(&mut first, 1), (&mut second, 2)] {
        let (_, window) = index.is_empty([5, 0, 6, 1]);
        assert_eq!([window.matches, window.visits], [0, visits]);
    }
    expect_alike(&first, &second, Rectangle::new(0, 0, 8, 8));
}

/// G10 from 0 to 8 and from 8 to 0: both are split at x, l = 5.
#[test]
fn g10_in_two_orders() {
    let from_8: Vec<Cell> = (0..9).rev().map(|x| [x, 5]).collect();
    let mut indexes = [g10(), index_of(3, &from_8)];
    let orders = [[0, 1, 2, 3, 4, 5, 6, 7, 8], [4, 3, 2, 1, 0, 8, 7, 6, 5]];
    for (index, order) in indexes.iter_mut().zip(orders) {
        let leaves = polygon(&[[0, 5, 5, 6], [5, 5, 9, 6]]);
        let tree = index.tree().expect("entries");
        let polygons = tree.polygons();
        assert_eq!(polygons[1..], leaves.chunks(1).collect::<Vec<_>>());
        let (_, window) = index.is_empty(GRID);
        assert_eq!([window.matches, window.visits], [9, 3]);
        assert_eq!(window.entries(), order.map(|x| [x, 5, tag([x, 5])]));
    }
    expect_alike(&indexes[0], &indexes[1], Rectangle::new(0, 5, 9, 6));
}
