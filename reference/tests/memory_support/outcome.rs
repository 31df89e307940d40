//! What a call on a lent index leaves behind, and the kinds of it that the tests count.

use super::guard::GUARD;
use reference::memory::Reading;
use std::fmt::Arguments;

/// What stands in a lent number before the call.
const BEFORE: [u32; 3] = [0xaaaa_0001, 0xbbbb_0002, 0xcccc_0003];

/// The same in the 64 bits of an insertion's total, which is far below it.
const REMOVED_BEFORE: u64 = 0xdddd_0004_eeee_0005;

#[derive(Clone, Debug, PartialEq, Eq)]
pub struct ClearOutput {
    pub answer: u32,
    pub held: u32,
}

impl ClearOutput {
    pub fn before() -> ClearOutput {
        ClearOutput {
            answer: 0,
            held: BEFORE[0],
        }
    }

    /// `reading` is that of the index before the call.
    pub fn kind(&self, reading: &Reading) -> &'static str {
        match (self.answer, reading.index()) {
            (1, _) => "clear refused 1",
            (0, None) => "clear accepted, no sound tree",
            (0, Some(index)) if index.tree().is_none() => "clear accepted, empty index",
            (0, Some(_)) => "clear accepted, sound tree",
            _ => "clear, unknown answer",
        }
    }
}

/// What an insertion returns and stores.
#[derive(Clone, Copy, Debug, PartialEq, Eq)]
pub struct InsertOutput {
    pub answer: u32,
    pub held: u32,
    pub removed: u64,
}

impl InsertOutput {
    /// What the insertion leaves behind that gets held and removed and returns the answer.
    pub fn of(insert: impl FnOnce(&mut u32, &mut u64) -> u32) -> InsertOutput {
        let mut output = InsertOutput {
            answer: 0,
            held: BEFORE[0],
            removed: REMOVED_BEFORE,
        };
        output.answer = insert(&mut output.held, &mut output.removed);
        output
    }

    /// An acceptance stores both numbers, a refusal none.
    pub fn check_untouched(&self, call: Arguments) {
        let are_stored = [self.held != BEFORE[0], self.removed != REMOVED_BEFORE];
        assert_eq!(are_stored, [self.answer == 0; 2], "{call}: {self:?}");
    }
}

/// What a removal returns and stores.
#[derive(Clone, Copy, Debug, PartialEq, Eq)]
pub struct RemoveOutput {
    pub answer: u32,
    pub held: u32,
}

impl RemoveOutput {
    /// What the removal leaves behind that gets held and returns the answer.
    pub fn of(remove: impl FnOnce(&mut u32) -> u32) -> RemoveOutput {
        let mut output = RemoveOutput {
            answer: 0,
            held: BEFORE[0],
        };
        output.answer = remove(&mut output.held);
        output
    }

    /// A refusal stores nothing.
    pub fn check_untouched(&self, call: Arguments) {
        let is_stored = self.held != BEFORE[0];
        assert_eq!(is_stored, self.answer == 0, "{call}: {self:?}");
    }
}

#[derive(Clone, Debug, PartialEq, Eq)]
pub struct PointOutput {
    pub answer: u32,
    pub held: u32,
    pub visits: u32,
    pub tag: u32,
}

impl PointOutput {
    pub fn before() -> PointOutput {
        let [held, visits, tag] = BEFORE;
        PointOutput {
            answer: 0,
            held,
            visits,
            tag,
        }
    }

    /// What the query leaves behind that gets held, visits and tag and returns the answer.
    pub fn of(query: impl FnOnce(&mut u32, &mut u32, &mut u32) -> u32) -> PointOutput {
        let mut output = PointOutput::before();
        output.answer = query(&mut output.held, &mut output.visits, &mut output.tag);
        output
    }

    /// After a refusal all numbers are as they were, and the tag also where the cell is not held.
    pub fn check_untouched(&self, place: Arguments) {
        let mut expected = PointOutput::before();
        expected.answer = self.answer;
        if self.answer == 0 {
            (expected.held, expected.visits) = (self.held, self.visits);
            if self.held == 1 {
                expected.tag = self.tag;
            }
        }
        assert_eq!(*self, expected, "{place}");
    }

    pub fn kind(&self) -> &'static str {
        match (self.answer, self.held, self.visits) {
            (0, 1, 1) => "point held, one visit",
            (0, 1, _) => "point held, more visits",
            (0, 0, 0) => "point not held, no visit",
            (0, 0, _) => "point not held, visits",
            (1, _, _) => "point refused 1",
            (3, _, _) => "point refused 3",
            (4, _, _) => "point refused 4",
            _ => "point, unknown answer",
        }
    }
}

#[derive(Clone, Debug, PartialEq, Eq)]
pub struct WindowOutput {
    pub answer: u32,
    pub matches: u32,
    pub visits: u32,
    /// The list with the guard numbers around it.
    pub list: Vec<u32>,
}

impl WindowOutput {
    pub fn before(list: Vec<u32>) -> WindowOutput {
        let [matches, visits, _] = BEFORE;
        WindowOutput {
            answer: 0,
            matches,
            visits,
            list,
        }
    }

    /// What the query leaves behind that gets the list, matches and visits and returns the answer.
    pub fn after(&self, query: impl FnOnce(&mut [u32], &mut u32, &mut u32) -> u32) -> WindowOutput {
        let mut output = self.clone();
        let end = output.list.len() - GUARD;
        let list = &mut output.list[GUARD..end];
        output.answer = query(list, &mut output.matches, &mut output.visits);
        output
    }

    /// After a refusal all is as it was, but for the matches of refusal 9; else at least the list
    /// past the matches is, and what lies next to it.
    pub fn check_untouched(&self, before: &WindowOutput, guard: usize, place: Arguments) {
        let mut expected = before.clone();
        expected.answer = self.answer;
        if self.answer == 0 {
            let written = guard..guard + 3 * self.matches as usize;
            (expected.matches, expected.visits) = (self.matches, self.visits);
            expected.list[written.clone()].copy_from_slice(&self.list[written]);
        } else if self.answer == 9 {
            expected.matches = self.matches;
        }
        assert_eq!(*self, expected, "{place}");
    }

    /// x, y and tag of each entry that an accepted query wrote.
    pub fn entries(&self) -> Vec<[u32; 3]> {
        if self.answer != 0 {
            return Vec::new();
        }
        let written = &self.list[GUARD..GUARD + 3 * self.matches as usize];
        written.chunks(3).map(|e| [e[0], e[1], e[2]]).collect()
    }

    pub fn kind(&self) -> &'static str {
        match (self.answer, self.matches, self.visits) {
            (0, 0, 0) => "window without match, no visit",
            (0, 0, _) => "window without match, visits",
            (0, 1, _) => "window with one match",
            (0, _, _) => "window with more matches",
            (1, _, _) => "window refused 1",
            (3, _, _) => "window refused 3",
            (4, _, _) => "window refused 4",
            (9, _, _) => "window refused 9",
            _ => "window, unknown answer",
        }
    }
}

/// The kinds of acceptance of the two queries.
pub const ACCEPTED: [&str; 8] = [
    "point held, one visit",
    "point held, more visits",
    "point not held, no visit",
    "point not held, visits",
    "window without match, no visit",
    "window without match, visits",
    "window with one match",
    "window with more matches",
];
