//! Indexes and the calls that are timed on them.

use reference::geometry::{Cell, Rectangle};
use reference::memory::image;
use reference::random::Random;
use reference::tree::{Entry, Index, Refusal, Tree};

/// Different calls of each kind.
pub const CALLS: usize = 16;

/// How the points lie: anywhere in any order, anywhere from left to right, or in a square with room
/// for few more than the index holds.
#[derive(Clone, Copy, PartialEq, Eq)]
pub enum Points {
    Random,
    Sorted,
    Crowded,
}

impl Points {
    pub fn name(self) -> &'static str {
        match self {
            Points::Random => "random",
            Points::Sorted => "sorted",
            Points::Crowded => "crowded",
        }
    }

    /// The side of the square for an index of n parts. Its first row and column stay free.
    fn side(self, n: usize) -> u32 {
        match self {
            Points::Random | Points::Sorted => 65534,
            Points::Crowded => (1..).find(|s| s * s >= 12 * n as u32).unwrap_or(1),
        }
    }

    /// How far the windows reach from their middle.
    fn reach(self) -> u32 {
        match self {
            Points::Random | Points::Sorted => 3000,
            Points::Crowded => 3,
        }
    }

    fn cell(self, n: usize, random: &mut Random) -> Cell {
        [0, 1].map(|_| random.between(1, self.side(n)))
    }
}

/// An index with insertions until it has no room for a split, or half of its parts in use.
pub fn filled(n: usize, is_full: bool, points: Points, random: &mut Random) -> Index {
    let mut cells: Vec<Cell> = (0..40 * n).map(|_| points.cell(n, random)).collect();
    if points == Points::Sorted {
        cells.sort_unstable();
    }
    let mut index = Index::new(n);
    let mut refused = 0;
    for cell in cells {
        let nodes = index.tree().map_or(0, Tree::nodes);
        if refused == 40 || (!is_full && 2 * nodes >= n) {
            break;
        }
        match index.insert(cell, random.number() as u32) {
            Ok(_) => refused = 0,
            Err(_) => refused += 1,
        }
    }
    index
}

/// An index, the arguments of the calls, and the lists lent to them.
pub struct Input {
    pub index: Vec<u32>,
    /// What a call changes: before it, the index.
    pub changed: Vec<u32>,
    pub work: Vec<u32>,
    pub list: Vec<u32>,
    /// A list for window queries of which the matches alone count.
    pub unread: Vec<u32>,
    /// What the last call stored; a nearest query also stores a cell and a distance, an insertion
    /// the cells removed.
    pub stored: [u32; 3],
    pub near: Cell,
    pub distance: u64,
    pub removed: u64,
    /// The entries held, as a plain list.
    pub entries: Vec<Entry>,
    /// Held cells.
    pub held: Vec<Cell>,
    /// Cells for nearest queries, most of them not held.
    pub asked: Vec<Cell>,
    /// Windows around held cells.
    pub windows: Vec<[u32; 4]>,
    /// Windows without entries that share cells with two levels of nodes or more; perhaps none.
    pub empty_windows: Vec<[u32; 4]>,
    /// Cells whose insertion is accepted without a split, and with one; perhaps none.
    pub fitting: Vec<Cell>,
    pub splitting: Vec<Cell>,
    /// Cells of which every second one is refused with 8, the others are accepted without a split;
    /// perhaps none.
    pub half_refused: Vec<Cell>,
}

impl Input {
    pub fn new(index: &Index, points: Points, random: &mut Random) -> Input {
        let tree = index.tree().expect("insertions were accepted");
        let parts: Vec<usize> = (0..tree.nodes()).collect();
        let memory = image(index.n(), Some(tree), &parts);
        let entries = tree.entries();
        // From a copy, so that the other input stays that of earlier versions.
        let mut copy = random.clone();
        let asked: Vec<Cell> = (0..CALLS)
            .map(|_| points.cell(index.n(), &mut copy))
            .collect();
        let held: Vec<Cell> = (0..CALLS).map(|_| random.pick(&entries).cell).collect();
        let reach = points.reach();
        let [fitting, splitting, refused] = [Outcome::Fits, Outcome::Splits, Outcome::TooManyNodes]
            .map(|outcome| cells_with(index, points, outcome, random));
        let pairs = fitting.iter().zip(&refused).take(CALLS / 2);
        Input {
            windows: held.iter().map(|&cell| around(cell, reach)).collect(),
            half_refused: pairs.flat_map(|(&a, &b)| [a, b]).collect(),
            fitting,
            splitting,
            changed: memory.clone(),
            work: vec![0; memory.len()],
            list: vec![0; 3 * entries.len()],
            unread: vec![0; 3 * entries.len()],
            stored: [0; 3],
            near: [0, 0],
            distance: 0,
            removed: 0,
            asked,
            empty_windows: empty_windows(index, points, &mut copy),
            index: memory,
            entries,
            held,
        }
    }
}

fn around(cell: Cell, reach: u32) -> [u32; 4] {
    let [llx, lly] = cell.map(|v| v.saturating_sub(reach));
    let [urx, ury] = cell.map(|v| (v + reach + 1).min(65536));
    [llx, lly, urx, ury]
}

/// Windows without entries that nodes below the root meet, of the usual size or smaller; no window
/// where they are too rare.
fn empty_windows(index: &Index, points: Points, random: &mut Random) -> Vec<[u32; 4]> {
    let mut windows = Vec::new();
    for _ in 0..4000 {
        let reach = random.between(0, points.reach());
        let window = around(points.cell(index.n(), random), reach);
        let [llx, lly, urx, ury] = window;
        let answer = index.is_empty(Rectangle::new(llx, lly, urx, ury));
        if answer.is_ok_and(|answer| answer.is_empty && answer.visits > 1) {
            windows.push(window);
        }
        if windows.len() == CALLS {
            return windows;
        }
    }
    Vec::new()
}

/// What an insertion does.
#[derive(Clone, Copy, PartialEq, Eq)]
enum Outcome {
    Fits,
    Splits,
    TooManyNodes,
    Other,
}

fn outcome(index: &Index, cell: Cell) -> Outcome {
    let nodes = |index: &Index| index.tree().map_or(0, Tree::nodes);
    let mut after = index.clone();
    match after.insert(cell, 0) {
        Ok(_) if nodes(&after) > nodes(index) => Outcome::Splits,
        Ok(_) => Outcome::Fits,
        Err(Refusal::TooManyNodes) => Outcome::TooManyNodes,
        Err(_) => Outcome::Other,
    }
}

/// Cells whose insertion has this outcome; no cell where they are too rare.
fn cells_with(index: &Index, points: Points, wanted: Outcome, random: &mut Random) -> Vec<Cell> {
    let mut cells = Vec::new();
    for _ in 0..4000 {
        let cell = points.cell(index.n(), random);
        if outcome(index, cell) == wanted {
            cells.push(cell);
        }
        if cells.len() == CALLS {
            return cells;
        }
    }
    Vec::new()
}
