//! Streams of commands: cells in built or random orders, and among their insertions removals,
//! queries, clears and calls to be refused. A stream goes by the record and by whether the last
//! call was accepted, not by the tree.

use super::checked::Command;
use super::others::{query, refused, LONG};
use super::shapes::{cells, put_in_order, ORDERS, SHAPES};
use super::GRID_END;
use reference::geometry::{Cell, Rectangle};
use reference::random::Random;
use reference::tree::Entry;

/// How often an insertion is followed by other calls: one in so many.
#[derive(Clone, Copy)]
struct Mix {
    /// Removal of the cell just inserted; polygons stay grown.
    remove_at_once: u32,
    /// Removal of a held cell.
    remove: u32,
    query: u32,
    refused: u32,
    clear: u32,
}

const MIXES: [Mix; 4] = [
    Mix::new(1000, 20, 1000),
    Mix::new(2, 10, 1000),
    Mix::new(4, 2, 1000),
    Mix::new(20, 1, 300),
];

impl Mix {
    const fn new(remove_at_once: u32, remove: u32, clear: u32) -> Mix {
        Mix {
            remove_at_once,
            remove,
            query: 5,
            refused: 12,
            clear,
        }
    }
}

/// A stream without an end.
pub struct Stream {
    random: Random,
    most_cells: u32,
    mix: Mix,
    /// The cells still to be inserted, the next one last.
    cells: Vec<Cell>,
    /// Commands to be given before the next insertion, the next one last.
    next: Vec<Command>,
    refusals: usize,
}

impl Stream {
    /// Each shape has up to `most_cells` cells.
    pub fn new(most_cells: u32, random: Random) -> Stream {
        Stream {
            random,
            most_cells,
            mix: MIXES[0],
            cells: Vec::new(),
            next: Vec::new(),
            refusals: 0,
        }
    }

    /// The next command. `held` is the record; `accepted` says so of the last command.
    pub fn next(&mut self, held: &[Entry], accepted: bool) -> Command {
        self.refusals += usize::from(!accepted);
        if let Some(command) = self.next.pop() {
            return command;
        }
        if self.refusals > 60 {
            self.refusals = 0;
            self.take_out(held);
        }
        if self.cells.is_empty() {
            self.next_shape(held);
        }
        let cell = self.cells.pop().expect("a shape has cells");
        self.add_others(cell, held);
        Command::Insert(cell, self.random.number() as u32)
    }

    /// Another shape of cells in another order, perhaps after a removal of those held.
    fn next_shape(&mut self, held: &[Entry]) {
        let random = &mut self.random;
        let count = random.between(self.most_cells / 4 + 1, self.most_cells);
        let shape = random.pick(&SHAPES);
        let order = random.pick(&ORDERS);
        self.cells = cells(shape, count, random);
        put_in_order(&mut self.cells, order, random);
        self.mix = random.pick(&MIXES);
        if random.one_in(3) {
            self.take_out(held);
        }
    }

    /// What follows the insertion of the cell.
    fn add_others(&mut self, cell: Cell, held: &[Entry]) {
        let random = &mut self.random;
        if random.one_in(self.mix.clear) {
            self.next.push(Command::Clear);
        }
        if random.one_in(self.mix.refused) {
            self.next.push(refused(cell, random));
        }
        if random.one_in(self.mix.query) {
            self.next.push(query(cell, held, random));
        }
        if random.one_in(self.mix.remove) && !held.is_empty() {
            let removed = random.pick(held);
            if random.one_in(2) {
                let tag = random.number() as u32;
                self.next.push(Command::Insert(removed.cell, tag));
            }
            self.next.push(Command::Remove(removed.cell));
        }
        if random.one_in(self.mix.remove_at_once) {
            self.next.push(Command::Remove(cell));
        }
    }

    /// Removals of many or all held cells, neighbours one after another or in the order of their
    /// insertion, so that leaves and nodes above become empty.
    fn take_out(&mut self, held: &[Entry]) {
        let random = &mut self.random;
        let mut cells: Vec<Cell> = held.iter().map(|e| e.cell).collect();
        let order = random.pick(&ORDERS);
        put_in_order(&mut cells, order, random);
        let left = random.pick(&[
            0,
            1,
            2,
            cells.len() / 4,
            cells.len() / 2,
            cells.len() * 3 / 4,
        ]);
        for &cell in cells.iter().skip(left) {
            if random.one_in(8) {
                self.next.push(query(cell, held, random));
            }
            self.next.push(Command::Remove(cell));
        }
    }
}

/// The commands at the end of each stream: they have each outcome that the streams of every N must
/// have, so that no seed can miss one. The index is empty after.
pub fn ending() -> [Command; 20] {
    use Command::{Clear, Insert, Point, Remove, Window};
    let (near, far, between, off_grid) = ([5, 5], [8, 8], [6, 6], [GRID_END, 5]);
    let whole = Rectangle::new(0, 0, GRID_END, GRID_END);
    [
        // After this the index is not empty, whether it is accepted or not.
        Insert(near, 1),
        Clear,
        Point(near),
        Window(whole, LONG),
        Insert(near, 2),
        Insert(far, 3),
        Insert(near, 4),
        Insert(off_grid, 5),
        Remove(off_grid),
        Remove(between),
        Point(near),
        Point(between),
        Point(off_grid),
        Window(Rectangle::new(6, 6, 7, 7), LONG),
        Window(Rectangle::new(5, 5, 6, 6), LONG),
        Window(whole, LONG),
        Window(whole, 2),
        Window(Rectangle::new(5, 5, 5, 6), LONG),
        Remove(far),
        Remove(near),
    ]
}
