//! A session whose index has gaps between its parts, and whose work area holds other numbers before
//! each insertion. The whole index is tested after each insertion and after some removals.

use super::after_call::{check_whole, has_gap, parts_in_use};
use super::calls::Session;
use super::changes::any_cell;
use super::full_path::full_leaf_cells;
use super::images::any_image;
use super::trees::random_tree;
use super::work_areas::Dirt;
use crate::support::checked::Command;
use crate::support::counts::Tally;
use reference::geometry::Cell;
use reference::random::Random;
use reference::tree::Tree;
use std::fmt::Arguments;

pub struct Gaps {
    session: Session,
    label: String,
    /// What the insertions met, beside the session's own counts.
    tally: Tally,
}

impl Gaps {
    pub fn new(image: &[u32], label: String) -> Gaps {
        Gaps {
            session: Session::of_image(image, Dirt::Zeros, label.clone()),
            label,
            tally: Tally::default(),
        }
    }

    pub fn tree(&self) -> Option<&Tree> {
        self.session.tree()
    }

    pub fn tally(&self) -> Tally {
        let mut all = Tally::default();
        all.add_all(&self.session.tally);
        all.add_all(&self.tally);
        all
    }

    fn check(&self, place: Arguments) {
        let place = format!("{}: {place}", self.label);
        check_whole(self.session.numbers(), self.session.held(), &place);
    }

    /// Removals of neighbours in the tree, so that leaves and nodes above them become empty.
    pub fn remove_run(&mut self, random: &mut Random) {
        let entries = self.tree().map_or_else(Vec::new, Tree::entries);
        let count = random.between(0, entries.len() as u32 * 3 / 4) as usize;
        let first = random.between(0, (entries.len() - count) as u32) as usize;
        for entry in &entries[first..first + count] {
            self.session.expect(Command::Remove(entry.cell), 0);
        }
        self.check(format_args!("{count} removals"));
    }

    /// Writes the tree to any parts.
    pub fn scatter(&mut self, random: &mut Random) {
        let n = (self.session.numbers().len() - 64) / 128;
        let image = any_image(n, self.tree(), random);
        self.session.take_image(&image);
    }

    /// Insertions of cells in, near and far from the polygons, and of cells between the entries of a
    /// full leaf, which is then split.
    pub fn insert_some(&mut self, count: usize, random: &mut Random) {
        for _ in 0..count {
            let cell = match random.one_in(3) {
                true => self.cell_of_full_leaf(random),
                false => any_cell(self.tree(), random),
            };
            if random.one_in(2) {
                self.scatter(random);
            }
            self.insert(cell, random);
        }
    }

    fn cell_of_full_leaf(&self, random: &mut Random) -> Cell {
        let full = self.tree().map_or_else(Vec::new, full_leaf_cells);
        if full.is_empty() {
            return any_cell(self.tree(), random);
        }
        let leaf = 8 * random.between(0, full.len() as u32 / 8 - 1) as usize;
        let [a, b] = [0, 1].map(|_| random.pick(&full[leaf..leaf + 8]));
        [a[0], b[1]]
    }

    /// Inserts the cell, and counts what the insertion did where there were gaps.
    pub fn insert(&mut self, cell: Cell, random: &mut Random) -> u32 {
        self.soil(random);
        let before = self.session.numbers().to_vec();
        let command = Command::Insert(cell, random.number() as u32);
        let answer = self.session.apply(command);
        self.check(format_args!("{command:?}"));
        if answer == 0 && has_gap(&before) {
            let [old, new] = [&before, self.session.numbers()].map(parts_in_use);
            let more = new.len() - old.len();
            self.tally.count(match more {
                0 => "among gaps, no split",
                1 => "among gaps, one node more",
                _ => "among gaps, more nodes",
            });
            if more == 0 && old == new {
                self.tally.count("among gaps, no split, all parts kept");
            }
        }
        answer
    }

    /// Other numbers for the work area: any, those of the index, or those of another index.
    fn soil(&mut self, random: &mut Random) {
        let numbers = self.session.numbers();
        let n = (numbers.len() - 64) / 128;
        let numbers: Vec<u32> = match random.between(0, 3) {
            0 => numbers.to_vec(),
            1 => any_image(n, Some(&random_tree(n, random)), random),
            _ => numbers.iter().map(|_| random.number() as u32).collect(),
        };
        self.session.soil_with(&numbers);
    }
}
