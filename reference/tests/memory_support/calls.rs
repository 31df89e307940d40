//! A lent index and the calls made on it one after another. Each call is made to both
//! implementations and compared: the answer, what it stores and writes, the tree read back.

use super::emptiness::EmptinessOutput;
use super::length_of;
use super::lent::Lent;
use super::nearest::NearestOutput;
use super::outcome::WindowOutput;
use super::queries::numbers_of;
use super::work_areas::{Dirt, Work};
use crate::support::checked::Command;
use crate::support::counts::Tally;
use crate::support::trace::{differs_by_area, trace};
use reference::geometry::{Cell, Rectangle};
use reference::memory::Reading;
use reference::random::Random;
use reference::tree::{Entry, Tree};
use std::fmt::Arguments;

/// The index, the second implementation's index, and the record kept from kind, arguments and
/// acceptance alone.
pub struct Session {
    lent: Lent,
    /// The second implementation's index, which never looks at the memory again.
    reading: Reading,
    work: Work,
    record: Vec<Entry>,
    /// The cells removed that the last accepted insertion reported.
    removed: u64,
    pub tally: Tally,
    label: String,
    commands: usize,
}

impl Session {
    /// A fresh index of n parts.
    pub fn fresh(n: usize, dirt: Dirt, label: String) -> Session {
        Session::of_image(&vec![0; length_of(n)], dirt, label)
    }

    /// An index of right length that reads as a sound tree. The label says how to make the session
    /// again.
    pub fn of_image(image: &[u32], dirt: Dirt, label: String) -> Session {
        let lent = Lent::new(image);
        let reading = lent.reading();
        let index = reading.index().expect("the image reads as an index");
        let record = index.tree().map_or_else(Vec::new, Tree::entries);
        Session {
            reading,
            record,
            removed: 0,
            work: Work::new(image.len(), dirt),
            lent,
            tally: Tally::default(),
            label,
            commands: 0,
        }
    }

    /// From now on the work area holds this before each insertion.
    pub fn soil(&mut self, dirt: Dirt) {
        self.work = Work::new(self.work.length(), dirt);
    }

    /// From now on the work area holds these numbers before each insertion.
    pub fn soil_with(&mut self, numbers: &[u32]) {
        self.work = Work::of(numbers.iter().copied());
    }

    /// Another image of the tree takes the place of the index.
    pub fn take_image(&mut self, image: &[u32]) {
        self.lent = Lent::new(image);
        let reading = self.lent.reading();
        let tree = reading.index().and_then(|index| index.tree());
        assert_eq!(tree, self.tree(), "{}: another tree", self.label);
    }

    /// The record's entries.
    pub fn held(&self) -> &[Entry] {
        &self.record
    }

    pub fn numbers(&self) -> &[u32] {
        self.lent.index()
    }

    pub fn tree(&self) -> Option<&Tree> {
        self.reading.index().and_then(|index| index.tree())
    }

    /// Nodes and height.
    fn size(&self) -> Size {
        Size {
            nodes: self.tree().map_or(0, Tree::nodes),
            height: self.tree().map_or(0, Tree::height),
        }
    }

    /// Makes the call, compares everything about it, and returns the answer.
    pub fn apply(&mut self, command: Command) -> u32 {
        self.commands += 1;
        self.tally.count("commands");
        let (label, number) = (std::mem::take(&mut self.label), self.commands);
        let place = format_args!("{label}, command {number}");
        let answer = match command {
            Command::Insert(cell, tag) => self.insert(Entry { cell, tag }, place),
            Command::Remove(cell) => self.remove(cell, place),
            Command::Point(cell) => self.point(cell, place),
            Command::Window(window, length) => self.window(window, length, place),
            Command::Clear => self.clear(place),
        };
        self.label = label;
        answer
    }

    /// Makes the call, which must be answered so.
    pub fn expect(&mut self, command: Command, answer: u32) {
        let given = self.apply(command);
        let (label, number) = (&self.label, self.commands);
        assert_eq!(given, answer, "{label}, command {number}: {command:?}");
    }

    /// The cells removed that the last accepted insertion reported.
    pub fn removed(&self) -> u64 {
        self.removed
    }

    /// Counts an insertion that is to be made, where step 2 by area alone would decide it otherwise.
    pub fn count_choice(&mut self, cell: Cell) {
        let is_held = self.record.iter().any(|e| e.cell == cell);
        let Some(tree) = self.tree().filter(|_| !is_held) else {
            return;
        };
        let entry = Entry { cell, tag: 0 };
        let trace = trace(tree, entry);
        let (differs, inside) = (differs_by_area(&trace, tree, entry), trace.sizes.inside);
        if differs {
            self.tally.count("insert not as by area alone");
        }
        if inside > 0 {
            self.tally.count("insert, a sibling's rectangle inside");
        }
    }

    fn insert(&mut self, entry: Entry, place: Arguments) -> u32 {
        let before = self.size();
        let Entry { cell, tag } = entry;
        let (lent, reading) = (&mut self.lent, &mut self.reading);
        let output = lent.insert(reading, &mut self.work, cell, tag, place);
        if output.answer == 0 {
            self.record.push(entry);
            self.check_held(output.held, place);
            self.removed = output.removed;
            if output.removed > 0 {
                self.tally.count("insert, cells removed");
            }
        }
        self.tally
            .count(insert_kind(output.answer, before, self.size()));
        output.answer
    }

    fn remove(&mut self, cell: Cell, place: Arguments) -> u32 {
        let before = self.size();
        let output = self.lent.remove(&mut self.reading, cell, place);
        if output.answer == 0 {
            self.record.retain(|e| e.cell != cell);
            self.check_held(output.held, place);
        }
        if output.answer == 0 && self.record.is_empty() {
            let is_zero = self.numbers().iter().all(|&number| number == 0);
            assert!(is_zero, "{place}: the last removal leaves all zeros");
        }
        self.tally
            .count(remove_kind(output.answer, before, self.size()));
        output.answer
    }

    /// The reported number is the record's length after the call.
    fn check_held(&self, held: u32, place: Arguments) {
        assert_eq!(held as usize, self.record.len(), "{place}: entries held");
    }

    fn point(&mut self, cell: Cell, place: Arguments) -> u32 {
        let output = self.lent.point(&self.reading, cell, place);
        self.tally.count(output.kind());
        output.answer
    }

    /// The emptiness query of the same window is made with it.
    fn window(&mut self, window: Rectangle, length: usize, place: Arguments) -> u32 {
        let window = numbers_of(window);
        let output = self.lent.window(&self.reading, window, length, place);
        self.tally.count(output.kind());
        let emptiness = self.lent.is_empty(&self.reading, window, place);
        emptiness.compare(&output, &mut self.tally, place);
        output.answer
    }

    fn clear(&mut self, place: Arguments) -> u32 {
        let output = self.lent.clear(place);
        self.tally.count(output.kind(&self.reading));
        let cleared = self.reading.clear(self.lent.index().len(), &mut 0);
        assert_eq!(cleared, Ok(()), "{place}: the length is right");
        self.record.clear();
        self.check_held(output.held, place);
        output.answer
    }

    /// A nearest query, compared also with a look at the record. It is no command of a stream.
    pub fn nearest(&mut self, cell: Cell) -> NearestOutput {
        let place = format_args!("{}, after command {}", self.label, self.commands);
        let output = self.lent.nearest(&self.reading, cell, place);
        let (record, nodes) = (&self.record, self.size().nodes);
        output.check(cell, record, nodes, place);
        output.count(cell, record, nodes, &mut self.tally);
        output
    }

    /// An emptiness query and the window query of the same window, with a list that is long enough.
    /// They are no commands of a stream.
    pub fn is_empty(&mut self, window: [u32; 4]) -> (EmptinessOutput, WindowOutput) {
        let place = format_args!("{}, after command {}", self.label, self.commands);
        let (lent, reading, length) = (&self.lent, &self.reading, 3 * self.record.len());
        let beside = lent.window(reading, window, length, place);
        let output = lent.is_empty(reading, window, place);
        output.compare(&beside, &mut self.tally, place);
        (output, beside)
    }

    /// An insertion with a work area of another length, which is refused with 2.
    pub fn insert_with_work_of(&mut self, length: usize, cell: Cell) {
        let mut work = Work::new(length, Dirt::Noise);
        let place = format_args!("{}, after command {}", self.label, self.commands);
        let (lent, reading) = (&mut self.lent, &mut self.reading);
        let output = lent.insert(reading, &mut work, cell, 0, place);
        assert_eq!(output.answer, 2, "{place}: work area of {length}");
        self.tally.count(insert_kind(2, self.size(), self.size()));
    }

    /// Removes all entries in any order; the index is then all zeros.
    pub fn remove_all(&mut self, random: &mut Random) {
        while !self.record.is_empty() {
            let cell = random.pick(&self.record).cell;
            self.expect(Command::Remove(cell), 0);
        }
    }
}

#[derive(Clone, Copy)]
struct Size {
    nodes: usize,
    height: usize,
}

fn insert_kind(answer: u32, before: Size, after: Size) -> &'static str {
    match answer {
        0 if before.height == 0 => "insert accepted, index was empty",
        0 if after.height > before.height => "insert accepted, new root",
        0 => match after.nodes - before.nodes {
            0 => "insert accepted, no split",
            1 => "insert accepted, one node more",
            _ => "insert accepted, more nodes",
        },
        1 => "insert refused 1",
        2 => "insert refused 2",
        3 => "insert refused 3",
        4 => "insert refused 4",
        5 => "insert refused 5",
        7 => "insert refused 7",
        8 => "insert refused 8",
        _ => "insert, unknown answer",
    }
}

fn remove_kind(answer: u32, before: Size, after: Size) -> &'static str {
    match answer {
        0 if after.height == 0 => "remove accepted, index empty after",
        0 => match before.nodes - after.nodes {
            0 => "remove accepted, nodes kept",
            1 => "remove accepted, one node less",
            _ => "remove accepted, more nodes less",
        },
        1 => "remove refused 1",
        3 => "remove refused 3",
        4 => "remove refused 4",
        6 => "remove refused 6",
        _ => "remove, unknown answer",
    }
}
