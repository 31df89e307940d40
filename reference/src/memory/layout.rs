//! Where each number stands: docs/LAYOUT.md.

use crate::tree::MOST_NODES;

/// '64 numbers, then N parts of 128 numbers each.'
pub const HEAD: usize = 64;
pub const PART: usize = 128;

/// The numbers of the head: the bits of the parts in use from 0 to 7, then these two; the others
/// are zero.
pub const HEIGHT: usize = 8;
pub const ROOT: usize = 9;
pub const HEAD_USED: usize = 10;

/// The numbers of a part: two counts, the rectangles, the entries or the children.
pub const RECTANGLE_COUNT: usize = 0;
pub const ITEM_COUNT: usize = 1;
pub const RECTANGLES: usize = 2;
pub const ITEMS: usize = 66;

/// The numbers of one rectangle, of one entry and of one child.
pub const PER_RECTANGLE: usize = 4;
pub const PER_ENTRY: usize = 3;
pub const PER_CHILD: usize = 1;

/// The length of an index of N parts.
pub fn length_of(n: usize) -> usize {
    HEAD + PART * n
}

/// N, if the length is '64 + 128 x N for an N from 1 to 256'.
pub fn parts_of(length: usize) -> Option<usize> {
    (1..=MOST_NODES).find(|&n| length_of(n) == length)
}

/// The place of part k's first number.
pub fn start_of(k: usize) -> usize {
    HEAD + PART * k
}

/// The numbers of part k.
pub fn part(memory: &[u32], k: usize) -> &[u32] {
    &memory[start_of(k)..start_of(k) + PART]
}

/// Part k is bit k mod 32, least significant first, of number k div 32.
pub fn is_in_use(memory: &[u32], k: usize) -> bool {
    memory[k / 32] >> (k % 32) & 1 == 1
}
