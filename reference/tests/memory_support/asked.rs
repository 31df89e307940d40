//! What answers the four queries: the library on a lent index, and the second implementation.

use super::emptiness::EmptinessOutput;
use super::nearest::NearestOutput;
use super::outcome::{PointOutput, WindowOutput};
use reference::geometry::Cell;
use reference::memory::{Reading, Refusal};
use reference::proved_index;

/// Each query gives what it leaves behind.
pub trait Asked {
    fn point(&self, cell: Cell) -> PointOutput;
    fn window(&self, window: [u32; 4], before: &WindowOutput) -> WindowOutput;
    fn nearest(&self, cell: Cell) -> NearestOutput;
    fn is_empty(&self, window: [u32; 4]) -> EmptinessOutput;
}

/// The library, with these numbers lent as the index.
pub struct Proved<'a>(pub &'a [u32]);

impl Asked for Proved<'_> {
    fn point(&self, cell: Cell) -> PointOutput {
        PointOutput::of(|held, visits, tag| proved_index::point(self.0, cell, held, visits, tag))
    }

    fn window(&self, window: [u32; 4], before: &WindowOutput) -> WindowOutput {
        before.after(|list, matches, visits| {
            proved_index::window(self.0, window, list, matches, visits)
        })
    }

    fn nearest(&self, cell: Cell) -> NearestOutput {
        NearestOutput::of(|near, tag, distance, visits| {
            proved_index::nearest(self.0, cell, near, tag, distance, visits)
        })
    }

    fn is_empty(&self, window: [u32; 4]) -> EmptinessOutput {
        EmptinessOutput::of(|empty, visits| proved_index::is_empty(self.0, window, empty, visits))
    }
}

/// The second implementation, with its reading of an index.
pub struct Second<'a>(pub &'a Reading);

impl Asked for Second<'_> {
    fn point(&self, cell: Cell) -> PointOutput {
        PointOutput::of(|held, visits, tag| number(self.0.point(cell, held, visits, tag)))
    }

    fn window(&self, window: [u32; 4], before: &WindowOutput) -> WindowOutput {
        before.after(|list, matches, visits| number(self.0.window(window, list, matches, visits)))
    }

    fn nearest(&self, cell: Cell) -> NearestOutput {
        NearestOutput::of(|near, tag, distance, visits| {
            number(self.0.nearest(cell, near, tag, distance, visits))
        })
    }

    fn is_empty(&self, window: [u32; 4]) -> EmptinessOutput {
        EmptinessOutput::of(|empty, visits| number(self.0.is_empty(window, empty, visits)))
    }
}

/// The number of the answer.
pub fn number(answer: Result<(), Refusal>) -> u32 {
    answer.map_or_else(Refusal::number, |()| 0)
}
