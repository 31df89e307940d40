//! Checks of the repository's pages: every name that they cite is in the repository, the map of the
//! crates is that of crates.txt, and the files of definitions have the numbers of their rules.

pub mod cited;
pub mod crate_list;
pub mod files;
pub mod known;
pub mod layers;
pub mod made;
pub mod page;
pub mod picture;
pub mod rows;
pub mod rules;
