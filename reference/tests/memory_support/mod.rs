//! What the tests of the memory share: sound trees and their images, damage, and the comparison of
//! a call on lent numbers.

// Each test program uses a part of this module.
#![allow(dead_code)]

pub mod after_call;
pub mod asked;
pub mod built;
pub mod calls;
pub mod cases;
pub mod changes;
pub mod crossed_lines;
pub mod damage;
pub mod damaged;
pub mod emptiness;
pub mod full_path;
pub mod grown_path;
pub mod guard;
pub mod half_sound;
pub mod histories;
pub mod images;
pub mod lent;
pub mod nearest;
pub mod orders;
pub mod outcome;
pub mod part_gaps;
pub mod piece_limits;
pub mod queries;
pub mod removed;
pub mod same_points;
pub mod trees;
pub mod work_areas;
pub mod written_out;

// Document 01's numbers, written out here so that the tests do not follow a change of the second
// implementation's own.

/// The most parts of an index.
pub const MOST_PARTS: usize = 256;

/// The length of an index of n parts.
pub fn length_of(n: usize) -> usize {
    64 + 128 * n
}
