//! Document 01, 'Grid, rectangles, polygons', with document 02's containment test and its count of
//! shared cells: the rectangle rules over lists of any length.

mod contains;
mod cut;
mod rectangle;
mod refine;
mod shared;

pub use contains::{contains, Containment};
pub use cut::{cut, cut_list, cut_list_by_polygon, OverLimit};
pub use rectangle::{is_cell, Cell, Rectangle};
pub use refine::refine;
pub use shared::shared_cells;

/// The largest upper right coordinate; cells have coordinates below it.
pub const GRID_END: u32 = 65536;

/// The most rectangles of a list.
pub const LIST_LIMIT: usize = 256;

/// The most rectangles of a polygon.
pub const POLYGON_LIMIT: usize = 16;
