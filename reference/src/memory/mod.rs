//! The index in memory, plainly: docs/LAYOUT.md read number by number, images of trees, and the
//! calls on lent numbers with the documents' refusals.

mod calls;
mod changes;
mod image;
pub mod layout;
mod read;
mod refusal;
mod sound;

pub use calls::{clear, is_empty, nearest, point, window, Reading};
pub use changes::{insert, remove};
pub use image::image;
pub use read::{read, read_back};
pub use refusal::Refusal;
pub use sound::{is_covered, is_sound};
