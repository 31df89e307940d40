//! What an emptiness query leaves behind, set beside the window query of the same window; and the
//! kinds of queries that the tests count.

use super::outcome::WindowOutput;
use crate::support::counts::Tally;
use std::fmt::Arguments;

#[derive(Clone, Debug, PartialEq, Eq)]
pub struct EmptinessOutput {
    pub answer: u32,
    pub empty: u32,
    pub visits: u32,
}

impl EmptinessOutput {
    /// No accepted query stores one of these.
    pub fn before() -> EmptinessOutput {
        EmptinessOutput {
            answer: 0,
            empty: 0xaaaa_0001,
            visits: 0xbbbb_0002,
        }
    }

    /// What the query leaves behind that gets the yes or no and the visits and returns the answer.
    pub fn of(query: impl FnOnce(&mut u32, &mut u32) -> u32) -> EmptinessOutput {
        let mut output = EmptinessOutput::before();
        output.answer = query(&mut output.empty, &mut output.visits);
        output
    }

    /// The refusal of that number, which stores nothing.
    pub fn refused(answer: u32) -> EmptinessOutput {
        EmptinessOutput {
            answer,
            ..EmptinessOutput::before()
        }
    }

    /// After a refusal all numbers are as they were.
    pub fn check_untouched(&self, place: Arguments) {
        if self.answer != 0 {
            assert_eq!(*self, EmptinessOutput::refused(self.answer), "{place}");
        }
    }

    /// 'The yes must hold exactly when the window query reports zero matches', and the visits 'never
    /// exceed those of the window query'; where it is a yes, nothing stopped the walk, and they are as
    /// many. Counts the query.
    pub fn compare(&self, window: &WindowOutput, tally: &mut Tally, place: Arguments) {
        tally.count(self.kind());
        if !matches!(window.answer, 0 | 9) {
            assert_eq!(self.answer, window.answer, "{place}: {self:?}");
            return;
        }
        let is_yes = u32::from(window.matches == 0);
        assert_eq!((self.answer, self.empty), (0, is_yes), "{place}: {self:?}");
        // Refusal 9 reports no visits.
        if window.answer == 9 {
            return;
        }
        let not_entered = window.visits.checked_sub(self.visits);
        let not_entered = not_entered.unwrap_or_else(|| panic!("{place}: {self:?}"));
        if self.empty == 1 {
            assert_eq!(not_entered, 0, "{place}: {self:?}");
            return;
        }
        tally.count(match not_entered {
            0 => "emptiness no, all nodes entered",
            _ => "emptiness no, nodes not entered",
        });
    }

    pub fn kind(&self) -> &'static str {
        match (self.answer, self.empty, self.visits) {
            (0, 1, 0) => "emptiness yes, no visit",
            (0, 1, _) => "emptiness yes, visits",
            (0, 0, 1) => "emptiness no, one visit",
            (0, 0, _) => "emptiness no, more visits",
            (1, _, _) => "emptiness refused 1",
            (3, _, _) => "emptiness refused 3",
            (4, _, _) => "emptiness refused 4",
            _ => "emptiness, unknown answer",
        }
    }
}

/// The kinds of accepted queries of an index with a root above leaves.
pub const ANSWERED: [&str; 5] = [
    "emptiness yes, no visit",
    "emptiness yes, visits",
    "emptiness no, more visits",
    "emptiness no, all nodes entered",
    "emptiness no, nodes not entered",
];
