//! Many queries of one sound index.

use super::changes::any_cell;
use super::lent::Lent;
use crate::support::counts::Tally;
use reference::geometry::{Cell, Rectangle};
use reference::memory::Reading;
use reference::random::Random;
use reference::tree::Tree;
use std::fmt::Arguments;

/// A result list for all entries of any index.
pub const LONG: usize = 3 * 2048;

/// A lent index with the second implementation's reading of it, and the counts.
pub struct Queried<'a> {
    pub lent: Lent,
    pub reading: Reading,
    pub tally: &'a mut Tally,
}

impl<'a> Queried<'a> {
    pub fn new(image: &[u32], tally: &'a mut Tally) -> Queried<'a> {
        let lent = Lent::new(image);
        let reading = lent.reading();
        Queried {
            lent,
            reading,
            tally,
        }
    }

    pub fn tree(&self) -> Option<Tree> {
        let index = self.reading.index().expect("the image reads as an index");
        index.tree().cloned()
    }

    pub fn point(&mut self, cell: Cell, place: Arguments) {
        let output = self.lent.point(&self.reading, cell, place);
        self.tally.count(output.kind());
    }

    pub fn nearest(&mut self, cell: Cell, place: Arguments) {
        let output = self.lent.nearest(&self.reading, cell, place);
        let tree = self.reading.index().and_then(|index| index.tree());
        let (entries, nodes) = tree.map_or((vec![], 0), |t| (t.entries(), t.nodes()));
        output.check(cell, &entries, nodes, place);
        output.count(cell, &entries, nodes, self.tally);
    }

    /// The emptiness query of the same window is made with it. Returns the matches.
    pub fn window(&mut self, window: [u32; 4], length: usize, place: Arguments) -> usize {
        let output = self.lent.window(&self.reading, window, length, place);
        self.tally.count(output.kind());
        let emptiness = self.lent.is_empty(&self.reading, window, place);
        emptiness.compare(&output, self.tally, place);
        output.matches as usize
    }

    /// The emptiness query, with the window query of the same window.
    pub fn is_empty(&mut self, window: [u32; 4], place: Arguments) {
        let held = self.reading.index().map_or(0, |index| index.held());
        self.window(window, 3 * held, place);
    }

    /// The window with lists of every length from 0 to enough plus one. Returns the matches.
    pub fn window_with_lists(&mut self, window: [u32; 4], place: Arguments) -> usize {
        let matches = self.window(window, LONG, place);
        for length in 0..=3 * matches + 1 {
            let output = self.lent.window(&self.reading, window, length, place);
            let answer = if length < 3 * matches { 9 } else { 0 };
            assert_eq!(output.answer, answer, "{place}: list of {length}");
            self.tally.count(output.kind());
        }
        matches
    }

    /// Every cell of the square.
    pub fn all_cells(&mut self, square: Rectangle, place: Arguments) {
        for cell in cells_of(square) {
            self.point(cell, place);
        }
    }
}

/// Every cell of the square, column by column.
pub fn cells_of(square: Rectangle) -> impl Iterator<Item = Cell> {
    let [columns, rows] = [0, 1].map(|d| square.ll[d]..square.ur[d]);
    columns.flat_map(move |x| rows.clone().map(move |y| [x, y]))
}

/// Every window in the square.
pub fn windows_of(square: Rectangle) -> impl Iterator<Item = [u32; 4]> {
    let [columns, rows] = [0, 1].map(|d| ranges(square.ll[d], square.ur[d]));
    let with = move |(llx, urx)| {
        rows.clone()
            .into_iter()
            .map(move |(lly, ury)| [llx, lly, urx, ury])
    };
    columns.into_iter().flat_map(with)
}

/// Every range that is not empty, by its ends.
fn ranges(first: u32, end: u32) -> Vec<(u32, u32)> {
    let from = first..end;
    from.flat_map(|a| (a + 1..=end).map(move |b| (a, b)))
        .collect()
}

/// The rectangle's numbers, as the calls take a window.
pub fn numbers_of(r: Rectangle) -> [u32; 4] {
    [r.ll[0], r.ll[1], r.ur[0], r.ur[1]]
}

/// The rectangle with a margin of one, on the grid.
pub fn with_margin(r: Rectangle) -> Rectangle {
    Rectangle {
        ll: r.ll.map(|v| v.saturating_sub(1)),
        ur: r.ur.map(|v| (v + 1).min(65536)),
    }
}

/// The rectangle, and strips of one cell's width along each side, inside and outside.
pub fn edge_windows(r: Rectangle) -> Vec<[u32; 4]> {
    let mut windows = vec![r];
    for d in 0..2 {
        let (from, to) = (r.ll[d], r.ur[d]);
        windows.push(r.with_range(d, from, from + 1));
        windows.push(r.with_range(d, to - 1, to));
        if from > 0 {
            windows.push(r.with_range(d, from - 1, from));
        }
        if to < 65536 {
            windows.push(r.with_range(d, to, to + 1));
        }
    }
    windows.into_iter().map(numbers_of).collect()
}

/// The cells at the corners of a rectangle, inside and outside.
pub fn corner_cells(r: Rectangle) -> Vec<Cell> {
    let out = with_margin(r);
    let mut cells = Vec::new();
    for x in [out.ll[0], r.ll[0], r.ur[0] - 1, out.ur[0] - 1] {
        for y in [out.ll[1], r.ll[1], r.ur[1] - 1, out.ur[1] - 1] {
            cells.push([x, y]);
        }
    }
    cells
}

/// A random window, sometimes the whole grid or up to its end.
pub fn any_window(near: Rectangle, random: &mut Random) -> [u32; 4] {
    let near = with_margin(near);
    let [(llx, urx), (lly, ury)] = [0, 1].map(|d| {
        let from = random.between(near.ll[d], near.ur[d] - 1);
        let to = random.between(from + 1, near.ur[d]);
        (from, random.pick(&[to, to, to, 65536]))
    });
    random.pick(&[
        [llx, lly, urx, ury],
        [llx, lly, urx, ury],
        [0, 0, 65536, 65536],
    ])
}

/// A window at a cell in a polygon of the tree, near one or anywhere: that cell alone, with a few
/// others, or up to another such cell.
pub fn window_at(tree: Option<&Tree>, random: &mut Random) -> [u32; 4] {
    let [a, b] = [(); 2].map(|()| any_cell(tree, random));
    let few = a.map(|v| (v + random.between(0, 6)).min(65535));
    let other = random.pick(&[a, few, few, b]);
    let [ll, last] = [u32::min, u32::max].map(|of| [0, 1].map(|d| of(a[d], other[d])));
    [ll[0], ll[1], last[0] + 1, last[1] + 1]
}

/// Windows that are refused with 3.
pub fn invalid_windows(r: Rectangle) -> Vec<[u32; 4]> {
    let [llx, lly, urx, ury] = numbers_of(r);
    let mut windows = vec![
        [llx, lly, llx, ury],
        [llx, lly, urx, lly],
        [urx, lly, llx, ury],
        [llx, ury, urx, lly],
        [65536, 0, 65536, 65536],
        [0, 65536, 65536, 65536],
        [65536, 65536, 65537, 65537],
        [u32::MAX, 0, 0, 1],
    ];
    for over in [65537, 1 << 31, u32::MAX] {
        windows.push([llx, lly, over, ury]);
        windows.push([llx, lly, urx, over]);
        windows.push([over - 1, over - 1, over, over]);
    }
    windows
}

/// Cells that are refused with 3.
pub const INVALID_CELLS: [Cell; 8] = [
    [65536, 0],
    [0, 65536],
    [65536, 65536],
    [65537, 3],
    [3, 65537],
    [1 << 31, 0],
    [u32::MAX, 0],
    [0, u32::MAX],
];
