//! Trees of insertion histories.

use reference::random::Random;
use reference::tree::{Index, Tree};

/// How the inserted cells lie: a square's lower left corner and its side.
#[derive(Clone, Copy, Debug)]
pub struct Square {
    pub corner: [u32; 2],
    pub side: u32,
}

/// The whole grid.
pub const WHOLE: Square = Square {
    corner: [0, 0],
    side: 65536,
};

/// The tree after up to `count` insertions of random cells, and removals of a few; at most n nodes.
pub fn history(n: usize, count: usize, square: Square, random: &mut Random) -> Option<Tree> {
    let mut index = Index::new(n);
    for _ in 0..count {
        let cell = square
            .corner
            .map(|v| v + random.between(0, square.side - 1));
        // A refused insertion leaves the index as it was.
        let accepted = index.insert(cell, random.number() as u32).is_ok();
        if accepted && random.one_in(12) {
            index.remove(cell).expect("the cell was inserted");
        }
    }
    index.tree().cloned()
}

/// A history on a square of some size somewhere.
pub fn random_history(n: usize, random: &mut Random) -> Option<Tree> {
    let count = random.between(0, 8 * n as u32) as usize;
    let root = (1..).find(|side| side * side >= count as u32).unwrap_or(1);
    let side = random.pick(&[root + 1, 2 * root + 2, 300, 65536]);
    let corner = [0, 1].map(|_| {
        let last = 65536 - side;
        let any = random.between(0, last);
        random.pick(&[0, last, any])
    });
    history(n, count, Square { corner, side }, random)
}
