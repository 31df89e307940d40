//! Document 01, 'The tree and its memory' up to 'Causes for saying no', with document 02's nearest
//! query, emptiness query, extra area and total of cells removed: the index as an owned tree, with
//! the tree after a call named from the tree before. Memory and its layout are not part of it.

mod choose;
mod emptiness;
mod extra_area;
mod index;
mod insert;
mod line;
mod nearest;
mod node;
mod polygon;
mod query;
mod refusal;
mod remove;
mod split;

pub use emptiness::{is_empty, stopping_walk, StoppingWalk};
pub use extra_area::extra_area;
pub use index::{EmptinessAnswer, Index, InsertAnswer, NearestAnswer, PointAnswer, WindowAnswer};
pub use insert::{insert, Inserted};
pub use line::{leaf_line, routing_line, Line};
pub use nearest::{least_distance, nearest, squared_distance, walk, Walk};
pub use node::{Branch, Entry, Leaf, Node, Routing, Tree};
pub use refusal::{Limit, Refusal};
pub use remove::remove;
pub use split::{split, Side};

/// 'A leaf holds 1 to 8 entries', 'a routing node holds 1 to 8 branches'.
pub const F: usize = 8;

/// The most nodes of any index: 'N from 1 to 256'.
pub const MOST_NODES: usize = 256;
