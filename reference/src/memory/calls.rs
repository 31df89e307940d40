//! Clearing and the four queries on lent numbers. A refused call changes nothing that is lent,
//! but for the matches that refusal 9 reports.

use super::layout::parts_of;
use super::{read, Refusal};
use crate::geometry::{is_cell, Cell, Rectangle};
use crate::tree::{self, Index};

/// 'Clearing needs only a right length.' All numbers become zero. Refusal 1.
pub fn clear(index: &mut [u32], held: &mut u32) -> Result<(), Refusal> {
    if parts_of(index.len()).is_none() {
        return Err(Refusal::WrongLength);
    }
    index.fill(0);
    *held = 0;
    Ok(())
}

/// Stores held as 1 or 0, the visits, and the tag if held. Refusals 1, 3 and 4.
pub fn point(
    index: &[u32],
    cell: Cell,
    held: &mut u32,
    visits: &mut u32,
    tag: &mut u32,
) -> Result<(), Refusal> {
    Reading::of(index).point(cell, held, visits, tag)
}

/// Writes x, y, tag for each match to the list; stores matches and visits. Refusals 1, 3, 4 and 9.
pub fn window(
    index: &[u32],
    window: [u32; 4],
    list: &mut [u32],
    matches: &mut u32,
    visits: &mut u32,
) -> Result<(), Refusal> {
    Reading::of(index).window(window, list, matches, visits)
}

/// Stores the nearest entry's cell and tag, the squared distance and the visits. Refusals 1, 3, 4 and
/// 10.
pub fn nearest(
    index: &[u32],
    cell: Cell,
    near: &mut Cell,
    tag: &mut u32,
    distance: &mut u64,
    visits: &mut u32,
) -> Result<(), Refusal> {
    Reading::of(index).nearest(cell, near, tag, distance, visits)
}

/// Stores 1 to empty where no entry is in the window, else 0, and the visits. Refusals 1, 3 and 4.
pub fn is_empty(
    index: &[u32],
    window: [u32; 4],
    empty: &mut u32,
    visits: &mut u32,
) -> Result<(), Refusal> {
    Reading::of(index).is_empty(window, empty, visits)
}

/// A lent index that was read, for several calls on it: the index or refusal 1 or 4.
pub struct Reading(Result<Index, Refusal>);

impl Reading {
    pub fn of(index: &[u32]) -> Reading {
        Reading(read(index))
    }

    /// The reading of a memory that holds the index.
    pub fn of_index(index: Index) -> Reading {
        Reading(Ok(index))
    }

    /// The index, if the length is right and the memory reads as a sound tree.
    pub fn index(&self) -> Option<&Index> {
        self.0.as_ref().ok()
    }

    /// As the call `point`.
    pub fn point(
        &self,
        cell: Cell,
        held: &mut u32,
        visits: &mut u32,
        tag: &mut u32,
    ) -> Result<(), Refusal> {
        let index = self.after_test(is_cell(cell))?;
        let answer = index.point(cell).expect("the cell was tested");
        *held = u32::from(answer.tag.is_some());
        *visits = answer.visits as u32;
        if let Some(found) = answer.tag {
            *tag = found;
        }
        Ok(())
    }

    /// As the call `window`.
    pub fn window(
        &self,
        [llx, lly, urx, ury]: [u32; 4],
        list: &mut [u32],
        matches: &mut u32,
        visits: &mut u32,
    ) -> Result<(), Refusal> {
        let window = Rectangle::new(llx, lly, urx, ury);
        let index = self.after_test(window.is_valid())?;
        match index.window(window, list) {
            Ok(answer) => {
                *matches = answer.matches as u32;
                *visits = answer.visits as u32;
                Ok(())
            }
            Err(tree::Refusal::ShortList { matches: found }) => {
                *matches = found as u32;
                Err(Refusal::ShortList)
            }
            Err(other) => unreachable!("{other:?}: the window was tested"),
        }
    }

    /// As the call `nearest`.
    pub fn nearest(
        &self,
        cell: Cell,
        near: &mut Cell,
        tag: &mut u32,
        distance: &mut u64,
        visits: &mut u32,
    ) -> Result<(), Refusal> {
        let answer = self.after_test(is_cell(cell))?.nearest(cell)?;
        *near = answer.entry.cell;
        *tag = answer.entry.tag;
        *distance = answer.distance;
        *visits = answer.visits as u32;
        Ok(())
    }

    /// As the call `is_empty`.
    pub fn is_empty(
        &self,
        [llx, lly, urx, ury]: [u32; 4],
        empty: &mut u32,
        visits: &mut u32,
    ) -> Result<(), Refusal> {
        let window = Rectangle::new(llx, lly, urx, ury);
        let answer = self.after_test(window.is_valid())?.is_empty(window)?;
        *empty = u32::from(answer.is_empty);
        *visits = answer.visits as u32;
        Ok(())
    }

    /// As the call `insert`, with a work area as long as the index or not; it becomes the reading of
    /// the index after.
    pub fn insert(
        &mut self,
        work_fits: bool,
        cell: Cell,
        tag: u32,
        held: &mut u32,
        removed: &mut u64,
    ) -> Result<(), Refusal> {
        if !work_fits && !matches!(self.0, Err(Refusal::WrongLength)) {
            return Err(Refusal::WorkLength);
        }
        let index = self.after_test_mut(is_cell(cell))?;
        let answer = index.insert(cell, tag)?;
        *held = answer.held as u32;
        *removed = answer.removed;
        Ok(())
    }

    /// As the call `remove`; it becomes the reading of the index after.
    pub fn remove(&mut self, cell: Cell, held: &mut u32) -> Result<(), Refusal> {
        let index = self.after_test_mut(is_cell(cell))?;
        *held = index.remove(cell)? as u32;
        Ok(())
    }

    /// As the call `clear`; it becomes the reading of a fresh index, if the length is right.
    pub fn clear(&mut self, index_len: usize, held: &mut u32) -> Result<(), Refusal> {
        let n = parts_of(index_len).ok_or(Refusal::WrongLength)?;
        self.0 = Ok(Index::new(n));
        *held = 0;
        Ok(())
    }

    /// The index. 'Tests run in number order': 1, then 3 where the argument is not valid, then 4.
    fn after_test(&self, is_valid: bool) -> Result<&Index, Refusal> {
        match &self.0 {
            Err(Refusal::WrongLength) => Err(Refusal::WrongLength),
            _ if !is_valid => Err(Refusal::Invalid),
            Err(refusal) => Err(*refusal),
            Ok(index) => Ok(index),
        }
    }

    fn after_test_mut(&mut self, is_valid: bool) -> Result<&mut Index, Refusal> {
        self.after_test(is_valid)?;
        self.0.as_mut().map_err(|refusal| *refusal)
    }
}
