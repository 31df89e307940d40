//! An index with its record: every command is checked against document 01.

use super::counts::Tally;
use super::kinds::{accepted_kinds, refused_kind};
use super::sound::{check_sound, held_entries, polygon_has, polygon_meets, views};
use super::splitting::settle;
use super::trace::{differs_by_area, trace, Sizes, Trace};
use super::GRID_END;
use reference::geometry::{Cell, Rectangle};
use reference::tree::{Entry, Index, InsertAnswer, Refusal, Tree};

/// A call of the index.
#[derive(Clone, Copy, Debug, PartialEq, Eq)]
pub enum Command {
    Insert(Cell, u32),
    Remove(Cell),
    Point(Cell),
    /// A window and the length of the result list.
    Window(Rectangle, usize),
    Clear,
}

/// The index, the record kept from kind, arguments and acceptance alone, and counts.
pub struct Checked {
    pub index: Index,
    record: Vec<Entry>,
    pub tally: Tally,
    /// The largest lists of step 2 over all accepted insertions.
    pub largest: Sizes,
    label: String,
    /// The commands so far.
    pub commands: Vec<Command>,
}

/// What the result list holds before a window query.
const FILL: u32 = 0xdead_beef;

fn is_cell([x, y]: Cell) -> bool {
    x < GRID_END && y < GRID_END
}

impl Checked {
    /// A fresh index. The label says how to make the stream again.
    pub fn new(n: usize, label: String) -> Checked {
        Checked::from_tree(n, None, label)
    }

    /// An index with a sound tree.
    pub fn from_tree(n: usize, tree: Option<Tree>, label: String) -> Checked {
        let record = tree
            .as_ref()
            .map_or_else(Vec::new, |t| held_entries(&views(t)));
        let checked = Checked {
            index: Index::with_tree(n, tree),
            record,
            tally: Tally::default(),
            largest: Sizes::default(),
            label,
            commands: Vec::new(),
        };
        checked.check_tree("as given");
        checked
    }

    pub fn held(&self) -> &[Entry] {
        &self.record
    }

    fn place(&self, command: &str) -> String {
        let n = self.index.n();
        format!(
            "{}, N = {n}, command {}: {command}",
            self.label,
            self.commands.len()
        )
    }

    fn check_tree(&self, command: &str) {
        let sound = match self.index.tree() {
            Some(tree) => check_sound(tree, self.index.n(), &self.record),
            None if self.record.is_empty() => Ok(()),
            None => Err("empty, but the record is not".to_string()),
        };
        if let Err(clause) = sound {
            panic!("{}: {clause}", self.place(command));
        }
    }

    /// Makes the call and checks everything about it. Returns the refusal, if it is one.
    pub fn apply(&mut self, command: Command) -> Result<(), Refusal> {
        self.commands.push(command);
        self.tally.count("commands");
        let before = self.index.clone();
        let answer = match command {
            Command::Insert(cell, tag) => self.insert(&before, Entry { cell, tag }),
            Command::Remove(cell) => self.remove(&before, cell),
            Command::Point(cell) => self.point(cell),
            Command::Window(window, length) => self.window(window, length),
            Command::Clear => self.clear(),
        };
        let changing = !matches!(command, Command::Point(_) | Command::Window(..));
        if answer.is_err() || !changing {
            assert!(
                self.index == before,
                "{}: changed",
                self.place(&format!("{command:?}"))
            );
        } else {
            self.check_tree(&format!("{command:?}"));
        }
        if let Err(refusal) = answer {
            self.tally.count(refused_kind(command, refusal));
        }
        answer
    }

    fn insert(&mut self, before: &Index, entry: Entry) -> Result<(), Refusal> {
        let answer = self.index.insert(entry.cell, entry.tag);
        let place = self.place(&format!("{entry:?}"));
        let held = self.record.iter().any(|e| e.cell == entry.cell);
        if !is_cell(entry.cell) {
            assert_eq!(answer, Err(Refusal::Invalid), "{place}");
        } else if held {
            assert_eq!(answer, Err(Refusal::Held), "{place}");
        } else if let Some(tree) = before.tree() {
            self.check_insert(tree, entry, answer, &place);
        } else {
            assert_eq!(answer.map(|a| a.removed), Ok(0), "{place}");
            self.tally.count("I accepted, index was empty");
        }
        let held_after = answer?.held;
        self.record.push(entry);
        assert_eq!(held_after, self.record.len(), "{place}: entries held");
        Ok(())
    }

    /// Refusal 7 exactly if step 2 passes a limit, with the limit it passes first; refusal 8 only
    /// if the tree after has more than N nodes.
    fn check_insert(
        &mut self,
        tree: &Tree,
        entry: Entry,
        answer: Result<InsertAnswer, Refusal>,
        place: &str,
    ) {
        let trace = trace(tree, entry);
        if differs_by_area(&trace, tree, entry) {
            self.tally.count("I not as by area alone");
        }
        if trace.sizes.inside > 0 {
            self.tally.count("I with a sibling's rectangle inside");
        }
        let expected = trace.limit.map(Refusal::OverLimit);
        let passed = answer
            .err()
            .filter(|refusal| matches!(refusal, Refusal::OverLimit(_)));
        assert_eq!(passed, expected, "{place}: limits of step 2");
        match answer {
            Ok(answer) => self.check_accepted(tree, &trace, answer, place),
            Err(Refusal::TooManyNodes) => self.check_too_many_nodes(&trace, place),
            Err(Refusal::OverLimit(_)) => {}
            Err(refusal) => panic!("{place}: {refusal:?}"),
        }
    }

    /// The tree after and the total are those that the tests' own steps give.
    fn check_accepted(&mut self, before: &Tree, trace: &Trace, answer: InsertAnswer, place: &str) {
        let after = self.index.tree().expect("a tree");
        assert!(*after == settle(&trace.unsplit), "{place}: tree after");
        let removed = trace.removed.iter().sum();
        assert_eq!(answer.removed, removed, "{place}: cells removed");
        self.largest = self.largest.max(trace.sizes);
        for kind in accepted_kinds(before, after, trace) {
            self.tally.count(kind);
        }
    }

    /// The tree that the insertion would give has more than N nodes.
    fn check_too_many_nodes(&self, trace: &Trace, place: &str) {
        let (nodes, n) = (views(&settle(&trace.unsplit)).len(), self.index.n());
        assert!(nodes > n, "{place}: refused 8 with {nodes} nodes");
    }

    fn remove(&mut self, before: &Index, cell: Cell) -> Result<(), Refusal> {
        let answer = self.index.remove(cell);
        let place = self.place(&format!("Remove {cell:?}"));
        let recorded = self.record.iter().position(|e| e.cell == cell);
        if !is_cell(cell) {
            assert_eq!(answer, Err(Refusal::Invalid), "{place}");
        } else if recorded.is_none() {
            assert_eq!(answer, Err(Refusal::NotHeld), "{place}");
        }
        let held_after = answer?;
        self.record.remove(recorded.expect("held"));
        assert_eq!(held_after, self.record.len(), "{place}: entries held");
        self.check_removal(before, cell, &place);
        Ok(())
    }

    /// Polygons stay, and the other entries and their order.
    fn check_removal(&mut self, before: &Index, cell: Cell, place: &str) {
        let before = views(before.tree().expect("held before"));
        let Some(after) = self.index.tree() else {
            assert!(self.record.is_empty(), "{place}: no tree");
            self.tally.count("R accepted, index empty after");
            return;
        };
        let after = views(after);
        let mut left = held_entries(&before);
        left.retain(|e| e.cell != cell);
        assert_eq!(held_entries(&after), left, "{place}: order of the entries");
        let mut old_polygons = before.iter().map(|v| (v.depth, v.polygon));
        for view in &after {
            let kept = old_polygons.any(|old| old == (view.depth, view.polygon));
            assert!(kept, "{place}: polygon {:?} is new", view.polygon);
        }
        self.tally.count(match before.len() - after.len() {
            0 => "R accepted, nodes kept",
            1 => "R accepted, leaf removed",
            _ => "R accepted, nodes above removed",
        });
    }

    fn clear(&mut self) -> Result<(), Refusal> {
        let held_after = self.index.clear();
        self.record.clear();
        assert_eq!(held_after, 0, "{}", self.place("Clear"));
        assert!(self.index.tree().is_none(), "{}", self.place("Clear"));
        self.tally.count("C accepted");
        Ok(())
    }

    fn point(&mut self, cell: Cell) -> Result<(), Refusal> {
        let answer = self.index.point(cell);
        let place = self.place(&format!("Point {cell:?}"));
        if !is_cell(cell) {
            assert_eq!(answer, Err(Refusal::Invalid), "{place}");
        }
        let answer = answer?;
        let views = self.index.tree().map_or_else(Vec::new, views);
        let visits = views.iter().filter(|v| polygon_has(v.polygon, cell));
        let height = views.iter().map(|v| v.depth + 1).max().unwrap_or(0);
        assert_eq!(answer.visits, visits.count(), "{place}: visits");
        assert!(answer.visits <= height, "{place}: visits over the height");
        let recorded = self.record.iter().find(|e| e.cell == cell);
        assert_eq!(answer.tag, recorded.map(|e| e.tag), "{place}: tag");
        if recorded.is_some() {
            assert_eq!(answer.visits, height, "{place}: visits of a held cell");
        }
        assert_eq!(self.index.height(), height, "{place}: height");
        self.tally.count(match (recorded, answer.visits) {
            (Some(_), _) => "P held",
            (None, 0) => "P not held, no visit",
            (None, visits) if visits < height => "P not held, some levels visited",
            (None, _) => "P not held, all levels visited",
        });
        Ok(())
    }

    fn window(&mut self, window: Rectangle, length: usize) -> Result<(), Refusal> {
        let mut list = vec![FILL; length];
        let answer = self.index.window(window, &mut list);
        let place = self.place(&format!("Window {window:?}, list of {length}"));
        let views = self.index.tree().map_or_else(Vec::new, views);
        let mut expected = held_entries(&views);
        expected.retain(|e| polygon_has(&[window], e.cell));
        let matches = expected.len();
        let refusal = window_refusal(window, length, matches);
        assert_eq!(answer.err(), refusal, "{place}");
        if answer.is_err() {
            assert!(list.iter().all(|&n| n == FILL), "{place}: list written");
        }
        let answer = answer?;
        let recorded = self.record.iter();
        let recorded = recorded.filter(|e| polygon_has(&[window], e.cell)).count();
        assert_eq!((answer.matches, matches), (recorded, recorded), "{place}");
        let visits = views.iter().filter(|v| polygon_meets(v.polygon, window));
        assert_eq!(answer.visits, visits.count(), "{place}: visits");
        let numbers = expected.iter().flat_map(|e| [e.cell[0], e.cell[1], e.tag]);
        let mut numbers: Vec<u32> = numbers.collect();
        numbers.resize(length, FILL);
        assert_eq!(list, numbers, "{place}: result list");
        self.tally.count(match matches {
            0 => "S accepted, no match",
            _ if matches == self.record.len() => "S accepted, all match",
            _ => "S accepted, some match",
        });
        Ok(())
    }
}

/// Refusals 3 and 9 of a window query.
fn window_refusal(window: Rectangle, length: usize, matches: usize) -> Option<Refusal> {
    let Rectangle { ll, ur } = window;
    if (0..2).any(|d| ll[d] >= ur[d] || ur[d] > GRID_END) {
        Some(Refusal::Invalid)
    } else if length < 3 * matches {
        Some(Refusal::ShortList { matches })
    } else {
        None
    }
}
