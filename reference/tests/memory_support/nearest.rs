//! What a nearest query leaves behind; the entry, looked for among those held; and the kinds of
//! queries that the tests count.

use crate::support::counts::Tally;
use reference::geometry::Cell;
use reference::tree::Entry;
use std::fmt::Arguments;

#[derive(Clone, Debug, PartialEq, Eq)]
pub struct NearestOutput {
    pub answer: u32,
    pub near: Cell,
    pub tag: u32,
    pub distance: u64,
    pub visits: u32,
}

impl NearestOutput {
    /// No accepted query stores one of these.
    pub fn before() -> NearestOutput {
        NearestOutput {
            answer: 0,
            near: [0xaaaa_0001, 0xbbbb_0002],
            tag: 0xcccc_0003,
            distance: 0xdddd_0004_eeee_0005,
            visits: 0xffff_0006,
        }
    }

    /// What the query leaves behind that gets the entry's cell and tag, the distance and the visits
    /// and returns the answer.
    pub fn of(query: impl FnOnce(&mut Cell, &mut u32, &mut u64, &mut u32) -> u32) -> NearestOutput {
        let mut output = NearestOutput::before();
        let NearestOutput {
            near,
            tag,
            distance,
            visits,
            ..
        } = &mut output;
        output.answer = query(near, tag, distance, visits);
        output
    }

    /// The refusal of that number, which stores nothing.
    pub fn refused(answer: u32) -> NearestOutput {
        NearestOutput {
            answer,
            ..NearestOutput::before()
        }
    }

    /// After a refusal all numbers are as they were.
    pub fn check_untouched(&self, place: Arguments) {
        if self.answer != 0 {
            assert_eq!(*self, NearestOutput::refused(self.answer), "{place}");
        }
    }

    /// An accepted answer is the one that a look at all entries gives, and the visits are at most
    /// the nodes. Refusal 10 exactly where there is no entry.
    pub fn check(&self, cell: Cell, entries: &[Entry], nodes: usize, place: Arguments) {
        if matches!(self.answer, 0 | 10) {
            let is_empty = entries.is_empty();
            assert_eq!(self.answer == 10, is_empty, "{place}: {self:?}");
        }
        if self.answer != 0 {
            return;
        }
        let found = (self.distance, self.near);
        let rank = |e: &Entry| (distance(e.cell, cell), e.cell);
        let is_found = |e: &Entry| rank(e) == found && e.tag == self.tag;
        assert!(entries.iter().any(is_found), "{place}: {self:?}");
        let nearer = entries.iter().find(|e| rank(e) < found);
        assert_eq!(nearer, None, "{place}: {self:?}");
        let visits = self.visits as usize;
        assert!((1..=nodes).contains(&visits), "{place}: {self:?}");
    }

    /// Counts the query, what decided between equally near entries, and whether nodes were passed
    /// over.
    pub fn count(&self, cell: Cell, entries: &[Entry], nodes: usize, tally: &mut Tally) {
        tally.count(self.kind());
        if self.answer != 0 {
            return;
        }
        tally.count("nearest queries");
        if let Some(tie) = self.tie(cell, entries) {
            tally.count(tie);
        }
        tally.count(match nodes - self.visits as usize {
            0 => "nearest, all nodes entered",
            _ => "nearest, nodes passed over",
        });
    }

    /// What decided, if there was more than one nearest entry by the distance.
    fn tie(&self, cell: Cell, entries: &[Entry]) -> Option<&'static str> {
        let is_as_near = |e: &&Entry| distance(e.cell, cell) == self.distance;
        let tied = || entries.iter().filter(is_as_near);
        let in_column = tied().filter(|e| e.cell[0] == self.near[0]).count();
        match (tied().count(), in_column) {
            (1, _) => None,
            (_, 1) => Some("nearest, tie decided by x"),
            (all, column) if all == column => Some("nearest, tie decided by y"),
            _ => Some("nearest, tie decided by x and y"),
        }
    }

    pub fn kind(&self) -> &'static str {
        match (self.answer, self.distance) {
            (0, 0) => "nearest, the cell's own entry",
            (0, 1..=0xffff_ffff) => "nearest, another cell's entry",
            (0, _) => "nearest, distance of 2^32 or more",
            (1, _) => "nearest refused 1",
            (3, _) => "nearest refused 3",
            (4, _) => "nearest refused 4",
            (10, _) => "nearest refused 10",
            _ => "nearest, unknown answer",
        }
    }
}

/// '(dx)^2 + (dy)^2', by the tests' own arithmetic.
fn distance(a: Cell, b: Cell) -> u64 {
    let square = |d: usize| (i64::from(a[d]) - i64::from(b[d])).pow(2);
    (square(0) + square(1)) as u64
}

/// The kinds of ties.
pub const TIES: [&str; 3] = [
    "nearest, tie decided by x",
    "nearest, tie decided by y",
    "nearest, tie decided by x and y",
];

/// The other kinds of accepted queries of near cells.
pub const FOUND: [&str; 4] = [
    "nearest, the cell's own entry",
    "nearest, another cell's entry",
    "nearest, all nodes entered",
    "nearest, nodes passed over",
];
