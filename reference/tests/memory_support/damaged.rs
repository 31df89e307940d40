//! An image that is damaged again and again; each time a few queries are compared.

use super::damage::Change;
use super::lent::Lent;
use super::queries::any_window;
use crate::support::counts::Tally;
use reference::geometry::{Cell, Rectangle};
use reference::random::Random;
use reference::tree::Tree;
use std::fmt::Arguments;

pub struct Damaged {
    lent: Lent,
    image: Vec<u32>,
    /// A held cell, where there is one, and another.
    cells: [Cell; 2],
    window: [u32; 4],
    pub tally: Tally,
}

impl Damaged {
    /// The image of the tree, not yet damaged. The cells and the window are near the tree.
    pub fn new(image: Vec<u32>, tree: Option<&Tree>, random: &mut Random) -> Damaged {
        let near = tree.map_or(Rectangle::new(3, 3, 6, 6), |t| t.rectangle);
        let entries = tree.map_or(Vec::new(), Tree::entries);
        let other = [0, 1].map(|d| random.between(near.ll[d], near.ur[d] - 1));
        let held = match entries.is_empty() {
            true => near.ll,
            false => random.pick(&entries).cell,
        };
        Damaged {
            lent: Lent::new(&image),
            image,
            cells: [held, other],
            window: any_window(near, random),
            tally: Tally::default(),
        }
    }

    /// Makes the changes, compares, and takes the changes back. True where the image is accepted.
    pub fn compare(&mut self, changes: &[Change], place: Arguments) -> bool {
        for &(i, number) in changes {
            self.lent.set(i, number);
        }
        let is_accepted = self.query(format_args!("{place}, {changes:?}"));
        for &(i, _) in changes {
            self.lent.set(i, self.image[i]);
        }
        is_accepted
    }

    /// Compares the queries of the image as it is. True where it is accepted.
    pub fn query(&mut self, place: Arguments) -> bool {
        let reading = self.lent.reading();
        let is_accepted = reading.index().is_some();
        self.tally.count(match is_accepted {
            true => "images accepted",
            false => "images refused",
        });
        for cell in self.cells {
            let output = self.lent.point(&reading, cell, place);
            self.tally.count(output.kind());
        }
        let output = self.lent.window(&reading, self.window, 12, place);
        self.tally.count(output.kind());
        let emptiness = self.lent.is_empty(&reading, self.window, place);
        emptiness.compare(&output, &mut self.tally, place);
        let output = self.lent.nearest(&reading, self.cells[1], place);
        self.tally.count(output.kind());
        is_accepted
    }
}
