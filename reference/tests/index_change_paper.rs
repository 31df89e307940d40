//! Insertion and removal with answers and memory that are written out: document 01's own cases.
//! Where all parts are in use, or N is 1, the layout leaves nothing free.

use reference::proved_index::{clear, insert, point, remove, window};

/// What stands in a number that a call must not store to, and in the work area.
const BEFORE: u32 = 0x5555_5555;

/// A lent index, its work area, and what the calls gave.
struct Lent {
    index: Vec<u32>,
    work: Vec<u32>,
}

impl Lent {
    fn fresh(n: usize) -> Lent {
        let length = 64 + 128 * n;
        Lent {
            index: vec![0; length],
            work: vec![BEFORE; length],
        }
    }

    /// The entries held and the cells removed, or the refusal, which stores neither. The work area
    /// is dirty before and zeros after.
    fn insert(&mut self, cell: [u32; 2], tag: u32) -> Result<(u32, u64), u32> {
        let (mut held, mut removed) = (BEFORE, u64::MAX);
        self.work.fill(BEFORE);
        let (index, work) = (&mut self.index, &mut self.work);
        let answer = insert(index, work, cell, tag, &mut held, &mut removed);
        let left = match answer {
            0 | 7 | 8 => 0,
            _ => BEFORE,
        };
        assert!(self.work.iter().all(|&number| number == left), "{cell:?}");
        if answer != 0 {
            assert_eq!((held, removed), (BEFORE, u64::MAX), "{cell:?}");
            return Err(answer);
        }
        Ok((held, removed))
    }

    /// The answer and the entries held.
    fn remove(&mut self, cell: [u32; 2]) -> [u32; 2] {
        let mut held = BEFORE;
        let answer = remove(&mut self.index, cell, &mut held);
        [answer, held]
    }

    /// The answer, held, visits and tag.
    fn point(&self, cell: [u32; 2]) -> [u32; 4] {
        let (mut held, mut visits, mut tag) = (BEFORE, BEFORE, BEFORE);
        let answer = point(&self.index, cell, &mut held, &mut visits, &mut tag);
        [answer, held, visits, tag]
    }
}

/// The numbers of an index from their places; all others are zero.
fn numbers(n: usize, given: &[(usize, &[u32])]) -> Vec<u32> {
    let mut index = vec![0; 64 + 128 * n];
    for &(place, values) in given {
        index[place..place + values.len()].copy_from_slice(values);
    }
    index
}

fn part(k: usize) -> usize {
    64 + 128 * k
}

/// The example of the line program, call by call, with N = 1.
#[test]
fn example_of_the_line_program() {
    let mut lent = Lent::fresh(1);
    assert_eq!(lent.insert([10, 10], 7), Ok((1, 0)));
    let one = numbers(
        1,
        &[
            (0, &[1]),
            (8, &[1, 0]),
            (part(0), &[1, 1, 10, 10, 11, 11]),
            (part(0) + 66, &[10, 10, 7]),
        ],
    );
    assert_eq!(lent.index, one);
    assert_eq!(lent.insert([20, 12], 9), Ok((2, 0)));
    let two = numbers(
        1,
        &[
            (0, &[1]),
            (8, &[1, 0]),
            (part(0), &[1, 2, 10, 10, 21, 13]),
            (part(0) + 66, &[10, 10, 7, 20, 12, 9]),
        ],
    );
    assert_eq!(lent.index, two);
    assert_eq!(lent.point([20, 12]), [0, 1, 1, 9]);
    assert_eq!(lent.point([15, 11]), [0, 0, 1, BEFORE]);
    assert_eq!(lent.insert([10, 10], 8), Err(5));
    assert_eq!(lent.index, two);
    let (mut matches, mut visits, mut list) = (BEFORE, BEFORE, [BEFORE; 5]);
    let answer = window(
        &lent.index,
        [10, 10, 20, 13],
        &mut list,
        &mut matches,
        &mut visits,
    );
    assert_eq!([answer, matches, visits], [0, 1, 1]);
    assert_eq!(list, [10, 10, 7, BEFORE, BEFORE]);
    assert_eq!(lent.remove([10, 10]), [0, 1]);
    // 'Closes the gap', 'polygons don't shrink'.
    let left = numbers(
        1,
        &[
            (0, &[1]),
            (8, &[1, 0]),
            (part(0), &[1, 1, 10, 10, 21, 13]),
            (part(0) + 66, &[20, 12, 9]),
        ],
    );
    assert_eq!(lent.index, left);
    let mut held = BEFORE;
    assert_eq!((clear(&mut lent.index, &mut held), held), (0, 0));
    assert_eq!(lent.index, vec![0; 192]);
    assert_eq!(lent.point([20, 12]), [0, 0, 0, BEFORE]);
}

/// 'N = 1: eight cells fit, a ninth gets 8, and after a removal it fits.'
#[test]
fn eight_cells_fit() {
    let mut lent = Lent::fresh(1);
    for x in 0..8 {
        assert_eq!(lent.insert([x, 5], 100 + x), Ok((x + 1, 0)));
    }
    let before = lent.index.clone();
    assert_eq!(lent.insert([8, 5], 108), Err(8));
    assert_eq!(lent.index, before);
    assert_eq!(lent.remove([3, 5]), [0, 7]);
    assert_eq!(lent.insert([8, 5], 108), Ok((8, 0)));
    let entries: Vec<u32> = [0, 1, 2, 4, 5, 6, 7, 8]
        .into_iter()
        .flat_map(|x| [x, 5, 100 + x])
        .collect();
    let after = numbers(
        1,
        &[
            (0, &[1]),
            (8, &[1, 0]),
            (part(0), &[1, 8, 0, 5, 9, 6]),
            (part(0) + 66, &entries),
        ],
    );
    assert_eq!(lent.index, after);
}

/// 'The last removal leaves all zeros', from the first cell to the last and back.
#[test]
fn last_removal() {
    for order in [[0, 1, 2], [2, 1, 0], [1, 2, 0]] {
        let mut lent = Lent::fresh(1);
        for x in 0..3 {
            assert_eq!(lent.insert([7 * x, x], 0), Ok((x + 1, 0)));
        }
        for (held, x) in [2, 1, 0].into_iter().zip(order) {
            assert_eq!(lent.remove([7 * x, x]), [0, held]);
        }
        assert_eq!(lent.index, vec![0; 192]);
        assert_eq!(lent.remove([0, 0]), [6, BEFORE]);
    }
}

/// G10's cells (0,5) to (8,5), the tag 10 x; what the last insertion gives.
fn g10(n: usize) -> (Lent, Result<(u32, u64), u32>) {
    let mut lent = Lent::fresh(n);
    for x in 0..8 {
        assert_eq!(lent.insert([x, 5], 10 * x), Ok((x + 1, 0)));
    }
    let answer = lent.insert([8, 5], 80);
    (lent, answer)
}

/// The numbers of x, y, tag for the cells in row 5.
fn row(cells: std::ops::Range<u32>) -> Vec<u32> {
    cells.flat_map(|x| [x, 5, 10 * x]).collect()
}

/// 'N = 3 accepts G10': x, l = 5. All three parts are in use, so the order of parts gives each node
/// its place.
#[test]
fn three_parts_accept_g10() {
    let (lent, answer) = g10(3);
    assert_eq!(answer, Ok((9, 0)));
    let expected = numbers(
        3,
        &[
            (0, &[0b111]),
            (8, &[2, 2]),
            (part(0), &[1, 5, 0, 5, 5, 6]),
            (part(0) + 66, &row(0..5)),
            (part(1), &[1, 4, 5, 5, 9, 6]),
            (part(1) + 66, &row(5..9)),
            (part(2), &[1, 2, 0, 5, 9, 6]),
            (part(2) + 66, &[0, 1]),
        ],
    );
    assert_eq!(lent.index, expected);
    assert_eq!(lent.point([4, 5]), [0, 1, 2, 40]);
    assert_eq!(lent.point([5, 5]), [0, 1, 2, 50]);
}

/// 'N = 2 does not.' The refused insertion leaves the leaf of eight.
#[test]
fn two_parts_refuse_g10() {
    let (lent, answer) = g10(2);
    assert_eq!(answer, Err(8));
    let mut eight = Lent::fresh(2);
    for x in 0..8 {
        assert_eq!(eight.insert([x, 5], 10 * x), Ok((x + 1, 0)));
    }
    assert_eq!(lent.index, eight.index);
    assert_eq!(lent.point([7, 5]), [0, 1, 1, 70]);
    assert_eq!(lent.point([8, 5]), [0, 0, 0, BEFORE]);
}

/// After G10 a removal empties the right leaf; the insertion of its cell grows the left one.
#[test]
fn emptied_leaf_of_g10() {
    let (mut lent, _) = g10(3);
    for (held, x) in [8, 7, 6, 5].into_iter().zip(5..9) {
        assert_eq!(lent.remove([x, 5]), [0, held]);
    }
    assert_eq!(lent.index[0].count_ones(), 2);
    assert_eq!(lent.point([6, 5]), [0, 0, 1, BEFORE]);
    assert_eq!(lent.point([4, 5]), [0, 1, 2, 40]);
    assert_eq!(lent.insert([6, 5], 1), Ok((6, 0)));
    assert_eq!(lent.point([5, 5]), [0, 0, 2, BEFORE]);
    assert_eq!(lent.point([6, 5]), [0, 1, 2, 1]);
}

/// G11: 'all nine cells with x, y in 0..2: x, l = 2.'
#[test]
fn g11() {
    let mut lent = Lent::fresh(3);
    let cells: Vec<[u32; 2]> = (0..9).map(|i| [i / 3, i % 3]).collect();
    for (held, &cell) in (1..).zip(&cells) {
        assert_eq!(lent.insert(cell, held), Ok((held, 0)));
    }
    let entries = |range: std::ops::Range<usize>| -> Vec<u32> {
        range
            .flat_map(|i| [cells[i][0], cells[i][1], i as u32 + 1])
            .collect()
    };
    let expected = numbers(
        3,
        &[
            (0, &[0b111]),
            (8, &[2, 2]),
            (part(0), &[1, 6, 0, 0, 2, 3]),
            (part(0) + 66, &entries(0..6)),
            (part(1), &[1, 3, 2, 0, 3, 3]),
            (part(1) + 66, &entries(6..9)),
            (part(2), &[1, 2, 0, 0, 3, 3]),
            (part(2) + 66, &[0, 1]),
        ],
    );
    assert_eq!(lent.index, expected);
}

/// Refusals in number order, each with what it leaves: 1, 2, 3, 4, 5, 8 and 1, 3, 4, 6.
#[test]
fn refusals_in_number_order() {
    let (lent, _) = g10(2);
    let (off, held_cell, free_cell) = ([0, 65536], [3, 5], [8, 5]);
    let inserted = |length: usize, work: usize, damage: u32, cell: [u32; 2]| {
        let mut index = lent.index[..length].to_vec();
        index[63] = damage;
        let (before, mut held, mut removed) = (index.clone(), BEFORE, u64::MAX);
        let mut work = vec![BEFORE; work];
        let answer = insert(&mut index, &mut work, cell, 1, &mut held, &mut removed);
        assert_eq!(index, before, "{answer}");
        assert_eq!((held, removed), (BEFORE, u64::MAX), "{answer}");
        let left = if answer == 8 { 0 } else { BEFORE };
        assert!(work.iter().all(|&number| number == left), "{answer}");
        answer
    };
    assert_eq!(inserted(319, 300, 1, off), 1);
    assert_eq!(inserted(320, 319, 1, off), 2);
    assert_eq!(inserted(320, 320, 1, off), 3);
    assert_eq!(inserted(320, 320, 1, held_cell), 4);
    assert_eq!(inserted(320, 320, 0, held_cell), 5);
    assert_eq!(inserted(320, 320, 0, free_cell), 8);
    let removed = |length: usize, damage: u32, cell: [u32; 2]| {
        let mut index = lent.index[..length].to_vec();
        index[63] = damage;
        let (before, mut held) = (index.clone(), BEFORE);
        let answer = remove(&mut index, cell, &mut held);
        assert_eq!((&index, held), (&before, BEFORE), "{answer}");
        answer
    };
    assert_eq!(removed(319, 1, off), 1);
    assert_eq!(removed(320, 1, off), 3);
    assert_eq!(removed(320, 1, free_cell), 4);
    assert_eq!(removed(320, 0, free_cell), 6);
}
