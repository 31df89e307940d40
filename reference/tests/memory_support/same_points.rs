//! Two indexes that hold the same entries, asked the same queries (request A.14). 'Visits may
//! differ', and so may the order in which a window query writes its entries.

use super::asked::Asked;
use super::emptiness::EmptinessOutput;
use super::guard::{fill, guarded, GUARD};
use super::nearest::NearestOutput;
use super::outcome::{PointOutput, WindowOutput};
use super::queries::{
    any_window, cells_of, invalid_windows, windows_of, with_margin, INVALID_CELLS,
};
use crate::support::build::rectangle;
use crate::support::counts::Tally;
use crate::support::sound::polygon_has;
use reference::geometry::{Cell, Rectangle};
use reference::random::Random;
use reference::tree::Entry;
use std::fmt::{Arguments, Debug};

/// What is counted of a query: all, those with other visits, and the pairs that have one of these.
struct Kind {
    asked: &'static str,
    differ: &'static str,
    pairs: &'static str,
}

const POINT: Kind = Kind {
    asked: "points",
    differ: "points, other visits",
    pairs: "pairs with other visits of a point",
};
const WINDOW: Kind = Kind {
    asked: "windows",
    differ: "windows, other visits",
    pairs: "pairs with other visits of a window",
};
const NEAREST: Kind = Kind {
    asked: "nearest",
    differ: "nearest, other visits",
    pairs: "pairs with other visits of a nearest query",
};
const EMPTINESS: Kind = Kind {
    asked: "emptiness",
    differ: "emptiness, other visits",
    pairs: "pairs with other visits of an emptiness query",
};

/// The kinds of pairs that the tests must reach.
pub const OTHER_VISITS: [&str; 4] = [POINT.pairs, WINDOW.pairs, NEAREST.pairs, EMPTINESS.pairs];

/// The refusals that both indexes must have given.
pub const REFUSED_ALIKE: [&str; 3] = ["refused 3", "windows refused 9", "nearest refused 10"];

pub const COMPARED: &str = "pairs compared";
pub const OTHER_ORDER: &str = "windows written in another order";

/// Two indexes and the entries that both hold. A query fails that they answer unlike, or other than
/// a look at the entries gives.
pub struct Pair<'a, A: Asked> {
    indexes: [A; 2],
    held: &'a [Entry],
    random: Random,
    tally: Tally,
    /// How to make the pair again.
    label: &'a str,
}

impl<'a, A: Asked> Pair<'a, A> {
    pub fn new(indexes: [A; 2], held: &'a [Entry], random: Random, label: &'a str) -> Pair<'a, A> {
        Pair {
            indexes,
            held,
            random,
            tally: Tally::default(),
            label,
        }
    }

    /// `told` parts an output into what has to be the same and the visits. Returns the first one.
    fn compare<T, S: Debug + PartialEq>(
        &mut self,
        kind: &Kind,
        outputs: [T; 2],
        told: impl Fn(&T) -> (S, u32),
        query: Arguments,
    ) -> T {
        let [(first, visits), (second, other_visits)] = outputs.each_ref().map(told);
        assert_eq!(first, second, "{query}");
        self.tally.count(kind.asked);
        if visits != other_visits {
            self.tally.count(kind.differ);
        }
        let [output, _] = outputs;
        output
    }

    /// The same held or not held and the same tag.
    fn point(&mut self, cell: Cell) -> PointOutput {
        let label = self.label;
        let query = format_args!("{label}: point {cell:?}");
        let outputs = self.indexes.each_ref().map(|index| {
            let output = index.point(cell);
            output.check_untouched(query);
            output
        });
        let told = |o: &PointOutput| ((o.answer, o.held, o.tag), o.visits);
        self.compare(&POINT, outputs, told, query)
    }

    /// The same entry and distance.
    fn nearest(&mut self, cell: Cell) -> NearestOutput {
        let label = self.label;
        let query = format_args!("{label}: nearest {cell:?}");
        let outputs = self.indexes.each_ref().map(|index| {
            let output = index.nearest(cell);
            output.check_untouched(query);
            output
        });
        let told = |o: &NearestOutput| ((o.answer, o.near, o.tag, o.distance), o.visits);
        self.compare(&NEAREST, outputs, told, query)
    }

    /// The same yes or no.
    fn is_empty(&mut self, window: [u32; 4]) -> EmptinessOutput {
        let label = self.label;
        let query = format_args!("{label}: is_empty {window:?}");
        let outputs = self.indexes.each_ref().map(|index| {
            let output = index.is_empty(window);
            output.check_untouched(query);
            output
        });
        let told = |o: &EmptinessOutput| ((o.answer, o.empty), o.visits);
        self.compare(&EMPTINESS, outputs, told, query)
    }

    /// Equally many matches, and the same entries in some order. The lists have these lengths and
    /// different numbers before, which stay past the entries.
    fn window(&mut self, window: [u32; 4], lengths: [usize; 2]) -> WindowOutput {
        let label = self.label;
        let query = format_args!("{label}: window {window:?}, lists of {lengths:?}");
        let outputs = [0, 1].map(|i| {
            let numbers = (0..lengths[i]).map(|place| fill(place + 9999 * i));
            let before = WindowOutput::before(guarded(numbers));
            let output = self.indexes[i].window(window, &before);
            output.check_untouched(&before, GUARD, query);
            output
        });
        if outputs[0].entries() != outputs[1].entries() {
            self.tally.count(OTHER_ORDER);
        }
        let told = |o: &WindowOutput| ((o.answer, o.matches, sorted(o.entries())), o.visits);
        self.compare(&WINDOW, outputs, told, query)
    }

    /// The window with lists that are just long enough or longer, and sometimes too short.
    fn ask_window(&mut self, window: [u32; 4]) {
        let (label, numbers) = (self.label, |e: &Entry| [e.cell[0], e.cell[1], e.tag]);
        let place = format_args!("{label}: {window:?}");
        let has = |e: &&Entry| polygon_has(&[rectangle(window)], e.cell);
        let expected = sorted(self.held.iter().filter(has).map(numbers).collect());
        let enough = 3 * expected.len();
        let lengths = [(); 2].map(|()| enough + self.random.pick(&[0, 0, 1, 2, 3, 40]));
        let output = self.window(window, lengths);
        assert_eq!(output.answer, 0, "{place}");
        assert_eq!(sorted(output.entries()), expected, "{place}");
        let output = self.is_empty(window);
        let is_yes = u32::from(expected.is_empty());
        assert_eq!([output.answer, output.empty], [0, is_yes], "{place}");
        if enough > 0 && self.random.one_in(8) {
            let short = [(); 2].map(|()| self.random.between(0, enough as u32 - 1) as usize);
            let output = self.window(window, short);
            let reported = [output.answer, 3 * output.matches];
            assert_eq!(reported, [9, enough as u32], "{place}");
            self.tally.count("windows refused 9");
        }
    }

    fn ask_cell(&mut self, cell: Cell) {
        let label = self.label;
        let place = format_args!("{label}: {cell:?}");
        let held = self.held.iter().find(|e| e.cell == cell);
        let output = self.point(cell);
        let found = (output.held == 1).then_some(output.tag);
        assert_eq!(output.answer, 0, "{place}");
        assert_eq!(found, held.map(|e| e.tag), "{place}");
        let output = self.nearest(cell);
        assert!(matches!(output.answer, 0 | 10), "{place}: {output:?}");
        output.check(cell, self.held, usize::MAX, place);
        if output.answer == 10 {
            self.tally.count("nearest refused 10");
        }
    }

    /// Queries of cells and windows that are not on the grid, or have no cells.
    fn refused(&mut self, near: Rectangle) {
        for cell in INVALID_CELLS {
            let answers = [self.point(cell).answer, self.nearest(cell).answer];
            assert_eq!(answers, [3; 2], "{}: {cell:?}", self.label);
            self.tally.count("refused 3");
        }
        for window in invalid_windows(near) {
            let answers = [
                self.window(window, [0, 3]).answer,
                self.is_empty(window).answer,
            ];
            assert_eq!(answers, [3; 2], "{}: {window:?}", self.label);
            self.tally.count("refused 3");
        }
    }

    /// Every cell and every window of the square with a margin.
    pub fn ask_all(mut self, square: Rectangle) -> Tally {
        for cell in cells_of(with_margin(square)) {
            self.ask_cell(cell);
        }
        for window in windows_of(with_margin(square)) {
            self.ask_window(window);
        }
        self.refused(square);
        self.counted()
    }

    /// Every entry's cell, and so many cells and windows of the square with a margin.
    pub fn ask_some(mut self, square: Rectangle, count: usize) -> Tally {
        for entry in self.held {
            self.ask_cell(entry.cell);
        }
        for _ in 0..count {
            let near = with_margin(square);
            let cell = [0, 1].map(|d| self.random.between(near.ll[d], near.ur[d] - 1));
            self.ask_cell(cell);
            let window = any_window(square, &mut self.random);
            self.ask_window(window);
        }
        self.refused(square);
        self.counted()
    }

    /// The counts of this pair.
    fn counted(mut self) -> Tally {
        self.tally.count(COMPARED);
        for kind in [POINT, WINDOW, NEAREST, EMPTINESS] {
            if self.tally.seen(kind.differ) > 0 {
                self.tally.count(kind.pairs);
            }
        }
        self.tally
    }
}

fn sorted<T: Ord>(mut list: Vec<T>) -> Vec<T> {
    list.sort_unstable();
    list
}
