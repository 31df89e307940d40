//! The second implementation of document 01 and of document 02's requests A.1 to A.4, A.6 and A.11,
//! written from their sentences and as plain as possible, and the declarations of the proved library
//! that the tests compare it with.

pub mod bands;
pub mod drawing;
pub mod geometry;
pub mod lines;
pub mod measure;
pub mod memory;
pub mod proved;
pub mod proved_bench;
pub mod proved_index;
pub mod random;
pub mod tree;
pub mod wkb;
