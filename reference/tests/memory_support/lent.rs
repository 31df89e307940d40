//! Calls on a lent index, made to both implementations and compared.

use super::asked::{number, Asked, Proved, Second};
use super::emptiness::EmptinessOutput;
use super::guard::{fill, guarded, GUARD};
use super::nearest::NearestOutput;
use super::outcome::{ClearOutput, InsertOutput, PointOutput, RemoveOutput, WindowOutput};
use super::work_areas::Work;
use reference::geometry::Cell;
use reference::memory::{self, read_back, Reading};
use reference::proved_index;
use std::fmt::{Arguments, Debug};
use std::ops::Range;

/// A lent index. The guarded list is there twice, so that a change is seen.
pub struct Lent {
    numbers: Vec<u32>,
    copy: Vec<u32>,
}

impl Lent {
    pub fn new(index: &[u32]) -> Lent {
        let numbers = guarded(index.iter().copied());
        let copy = numbers.clone();
        Lent { numbers, copy }
    }

    pub fn index(&self) -> &[u32] {
        &self.numbers[self.range()]
    }

    /// The places of the index in the guarded list.
    fn range(&self) -> Range<usize> {
        GUARD..self.numbers.len() - GUARD
    }

    pub fn set(&mut self, place: usize, number: u32) {
        self.numbers[GUARD + place] = number;
        self.copy[GUARD + place] = number;
    }

    /// The second implementation's reading, for several queries.
    pub fn reading(&self) -> Reading {
        Reading::of(self.index())
    }

    /// Fails where the outputs differ or the lent index was changed.
    fn check<T: Debug + PartialEq>(&self, second: &T, proved: &T, call: Arguments) {
        if second != proved || self.numbers != self.copy {
            let index = &self.copy[self.range()];
            panic!(
                "{call}\nsecond: {second:?}\nproved: {proved:?}\n{}{}",
                changes(&self.copy, &self.numbers),
                described(index)
            );
        }
    }

    pub fn point(&self, reading: &Reading, cell: Cell, place: Arguments) -> PointOutput {
        let second = Second(reading).point(cell);
        let proved = Proved(self.index()).point(cell);
        self.check(&second, &proved, format_args!("{place}: point {cell:?}"));
        second.check_untouched(place);
        second
    }

    /// The list has the given length.
    pub fn window(
        &self,
        reading: &Reading,
        window: [u32; 4],
        length: usize,
        place: Arguments,
    ) -> WindowOutput {
        let before = WindowOutput::before(guarded((0..length).map(fill)));
        let second = Second(reading).window(window, &before);
        let proved = Proved(self.index()).window(window, &before);
        self.check(
            &second,
            &proved,
            format_args!("{place}: window {window:?}, list of {length}"),
        );
        second.check_untouched(&before, GUARD, place);
        second
    }

    pub fn nearest(&self, reading: &Reading, cell: Cell, place: Arguments) -> NearestOutput {
        let second = Second(reading).nearest(cell);
        let proved = Proved(self.index()).nearest(cell);
        self.check(&second, &proved, format_args!("{place}: nearest {cell:?}"));
        second.check_untouched(place);
        second
    }

    pub fn is_empty(
        &self,
        reading: &Reading,
        window: [u32; 4],
        place: Arguments,
    ) -> EmptinessOutput {
        let second = Second(reading).is_empty(window);
        let proved = Proved(self.index()).is_empty(window);
        let call = format_args!("{place}: is_empty {window:?}");
        self.check(&second, &proved, call);
        second.check_untouched(place);
        second
    }

    /// Clears the index, which stays cleared where the call accepts.
    pub fn clear(&mut self, place: Arguments) -> ClearOutput {
        let (mut second, mut proved) = (ClearOutput::before(), ClearOutput::before());
        let range = self.range();
        let copy = &mut self.copy[range.clone()];
        second.answer = number(memory::clear(copy, &mut second.held));
        proved.answer = proved_index::clear(&mut self.numbers[range], &mut proved.held);
        self.check(&second, &proved, format_args!("{place}: clear"));
        second
    }

    /// Puts the entry in where the call accepts; the reading follows.
    pub fn insert(
        &mut self,
        reading: &mut Reading,
        work: &mut Work,
        cell: Cell,
        tag: u32,
        place: Arguments,
    ) -> InsertOutput {
        let fits = work.length() == self.index().len();
        let second = InsertOutput::of(|held, removed| {
            number(reading.insert(fits, cell, tag, held, removed))
        });
        let range = self.range();
        let index = &mut self.numbers[range];
        let proved = InsertOutput::of(|held, removed| {
            proved_index::insert(index, work.lend(), cell, tag, held, removed)
        });
        let call = format_args!(
            "{place}: insert {cell:?} {tag}, work area of {}",
            work.length()
        );
        second.check_untouched(call);
        self.check_change(reading, second.answer, &second, &proved, call);
        work.check(proved.answer, call);
        proved
    }

    /// Takes the entry out where the call accepts; the reading follows.
    pub fn remove(&mut self, reading: &mut Reading, cell: Cell, place: Arguments) -> RemoveOutput {
        let second = RemoveOutput::of(|held| number(reading.remove(cell, held)));
        let range = self.range();
        let index = &mut self.numbers[range];
        let proved = RemoveOutput::of(|held| proved_index::remove(index, cell, held));
        let call = format_args!("{place}: remove {cell:?}");
        second.check_untouched(call);
        self.check_change(reading, second.answer, &second, &proved, call);
        proved
    }

    /// After acceptance the index reads back as the second implementation's tree, and nothing next
    /// to it was changed; else all is as it was. `reading` is the second implementation's after.
    fn check_change<T: Debug + PartialEq>(
        &mut self,
        reading: &Reading,
        answer: u32,
        second: &T,
        proved: &T,
        call: Arguments,
    ) {
        if answer != 0 || second != proved {
            self.check(second, proved, call);
            return;
        }
        let expected = reading.index().expect("the call was accepted").tree();
        let tree = read_back(self.index());
        if tree.as_ref().map(Option::as_ref) != Some(expected) {
            panic!(
                "{call}\nsecond: {expected:?}\nread back: {tree:?}\nbefore: {}\nafter: {}",
                described(&self.copy[self.range()]),
                described(self.index())
            );
        }
        let range = self.range();
        self.copy[range.clone()].copy_from_slice(&self.numbers[range]);
        self.check(second, proved, call);
    }
}

/// The numbers that a call changed, those before the index with a negative place.
fn changes(before: &[u32], after: &[u32]) -> String {
    let mut text = String::new();
    for (i, (a, b)) in before.iter().zip(after).enumerate() {
        if a != b {
            let at = i as i64 - GUARD as i64;
            text += &format!("lent index, number {at}: expected {a}, is {b}\n");
        }
    }
    text
}

/// The numbers of an index that are not zero.
fn described(index: &[u32]) -> String {
    let mut text = format!("index of {} numbers, not zero:", index.len());
    for (i, number) in index.iter().enumerate().filter(|(_, &n)| n != 0) {
        text += &format!(" [{i}]={number}");
    }
    text
}
