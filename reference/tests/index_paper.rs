//! Cases with answers that are written out: document 01's own, and an image number by number.

use reference::proved_index::{clear, point, window};

/// What stands in a number that a call must not store to.
const BEFORE: u32 = 0x5555_5555;

/// The answer, held, visits and tag.
fn point_of(index: &[u32], cell: [u32; 2]) -> [u32; 4] {
    let (mut held, mut visits, mut tag) = (BEFORE, BEFORE, BEFORE);
    let answer = point(index, cell, &mut held, &mut visits, &mut tag);
    [answer, held, visits, tag]
}

/// The answer, matches and visits, and the list after.
fn window_of(index: &[u32], numbers: [u32; 4], length: usize) -> ([u32; 3], Vec<u32>) {
    let (mut matches, mut visits) = (BEFORE, BEFORE);
    let mut list = vec![BEFORE; length];
    let answer = window(index, numbers, &mut list, &mut matches, &mut visits);
    ([answer, matches, visits], list)
}

/// G12: 'point query, empty index: not held, 0 visits.'
#[test]
fn g12() {
    for n in 1..=256 {
        let index = vec![0; 64 + 128 * n];
        assert_eq!(point_of(&index, [0, 0]), [0, 0, 0, BEFORE]);
        let (answer, list) = window_of(&index, [0, 0, 65536, 65536], 0);
        assert_eq!((answer, list), ([0, 0, 0], vec![]));
    }
}

/// The numbers of an image from their places; all others are zero.
fn numbers(n: usize, given: &[(usize, &[u32])]) -> Vec<u32> {
    let mut index = vec![0; 64 + 128 * n];
    for &(place, values) in given {
        index[place..place + values.len()].copy_from_slice(values);
    }
    index
}

/// The tree of document 01's example of the line program, after its second line.
fn line_program() -> Vec<u32> {
    numbers(
        1,
        &[
            (0, &[1]),
            (8, &[1, 0]),
            (64, &[1, 2]),
            (66, &[10, 10, 21, 13]),
            (130, &[10, 10, 7, 20, 12, 9]),
        ],
    )
}

/// 'P 1 1 9', 'P 0 1', 'S 1 1' with 'E 10 10 7', 'C 0 0', 'P 0 0'.
#[test]
fn example_of_the_line_program() {
    let mut index = line_program();
    assert_eq!(point_of(&index, [20, 12]), [0, 1, 1, 9]);
    assert_eq!(point_of(&index, [15, 11]), [0, 0, 1, BEFORE]);
    let (answer, list) = window_of(&index, [10, 10, 20, 13], 5);
    assert_eq!(answer, [0, 1, 1]);
    assert_eq!(list, [10, 10, 7, BEFORE, BEFORE]);
    let mut held = BEFORE;
    assert_eq!((clear(&mut index, &mut held), held), (0, 0));
    assert_eq!(index, vec![0; 192]);
    assert_eq!(point_of(&index, [20, 12]), [0, 0, 0, BEFORE]);
}

/// Two leaves at parts 33 and 40 below the root at part 69.
fn two_leaves() -> Vec<u32> {
    let part = |k: usize| 64 + 128 * k;
    numbers(
        70,
        &[
            (1, &[1 << 1 | 1 << 8, 1 << 5]),
            (8, &[2, 69]),
            (part(33), &[2, 1]),
            (part(33) + 2, &[0, 0, 2, 5, 1, 4, 3, 6]),
            (part(33) + 66, &[2, 5, u32::MAX]),
            (part(40), &[1, 2]),
            (part(40) + 2, &[3, 0, 9, 9]),
            (part(40) + 66, &[3, 0, 0, 8, 8, 5]),
            (part(69), &[1, 2]),
            (part(69) + 2, &[0, 0, 9, 9]),
            (part(69) + 66, &[33, 40]),
        ],
    )
}

#[test]
fn an_image_with_gaps() {
    let index = two_leaves();
    assert_eq!(point_of(&index, [2, 5]), [0, 1, 2, u32::MAX]);
    assert_eq!(point_of(&index, [1, 4]), [0, 0, 2, BEFORE]);
    assert_eq!(point_of(&index, [2, 6]), [0, 0, 1, BEFORE]);
    assert_eq!(point_of(&index, [9, 8]), [0, 0, 0, BEFORE]);
    assert_eq!(point_of(&index, [3, 0]), [0, 1, 2, 0]);
    let (answer, list) = window_of(&index, [2, 5, 9, 9], 7);
    assert_eq!(answer, [0, 2, 3]);
    assert_eq!(list, [2, 5, u32::MAX, 8, 8, 5, BEFORE]);
    let (answer, list) = window_of(&index, [0, 0, 65536, 65536], 9);
    assert_eq!(answer, [0, 3, 3]);
    assert_eq!(list, [2, 5, u32::MAX, 3, 0, 0, 8, 8, 5]);
}

/// 1 before 3 before 4 before 9; only 9 stores, and the matches alone.
#[test]
fn refusals_in_number_order() {
    let mut index = two_leaves();
    let nothing = |answer: u32| ([answer, BEFORE, BEFORE], vec![BEFORE; 8]);
    let all = [0, 0, 65536, 65536];
    let short = ([9, 3, BEFORE], vec![BEFORE; 8]);
    assert_eq!(window_of(&index, all, 8), short);
    index[63] = 1;
    assert_eq!(window_of(&index, all, 8), nothing(4));
    assert_eq!(point_of(&index, [0, 0]), [4, BEFORE, BEFORE, BEFORE]);
    assert_eq!(window_of(&index, [0, 0, 65537, 1], 8), nothing(3));
    assert_eq!(point_of(&index, [0, 65536]), [3, BEFORE, BEFORE, BEFORE]);
    index.pop();
    assert_eq!(window_of(&index, [0, 0, 65537, 1], 8), nothing(1));
    assert_eq!(point_of(&index, [0, 65536]), [1, BEFORE, BEFORE, BEFORE]);
    let (mut held, before) = (BEFORE, index.clone());
    assert_eq!((clear(&mut index, &mut held), held), (1, BEFORE));
    assert_eq!(index, before);
}
