//! Work areas lent to insertions, with anything in them.

use super::guard::{fill, guarded, GUARD};
use std::fmt::Arguments;

/// What a work area holds before each call.
#[derive(Clone, Copy, Debug, PartialEq, Eq)]
pub enum Dirt {
    Zeros,
    Ones,
    /// Numbers without a pattern.
    Noise,
    /// Small numbers that could be counts, parts or coordinates.
    Small,
}

pub const DIRTS: [Dirt; 4] = [Dirt::Zeros, Dirt::Ones, Dirt::Noise, Dirt::Small];

impl Dirt {
    fn number(self, place: usize) -> u32 {
        match self {
            Dirt::Zeros => 0,
            Dirt::Ones => u32::MAX,
            Dirt::Noise => fill(place),
            Dirt::Small => 1 + place as u32 % 9,
        }
    }
}

/// A work area, which holds the same before every call.
pub struct Work {
    numbers: Vec<u32>,
    before: Vec<u32>,
}

impl Work {
    pub fn new(length: usize, dirt: Dirt) -> Work {
        Work::of((0..length).map(|place| dirt.number(place)))
    }

    /// A work area with these numbers.
    pub fn of(numbers: impl Iterator<Item = u32>) -> Work {
        let before = guarded(numbers);
        Work {
            numbers: before.clone(),
            before,
        }
    }

    pub fn length(&self) -> usize {
        self.before.len() - 2 * GUARD
    }

    /// The work area, dirty again.
    pub fn lend(&mut self) -> &mut [u32] {
        self.numbers.copy_from_slice(&self.before);
        let end = self.numbers.len() - GUARD;
        &mut self.numbers[GUARD..end]
    }

    /// 'All zeros after acceptance and after refusals 7 and 8; other refusals don't touch it.'
    pub fn check(&self, answer: u32, call: Arguments) {
        let end = self.numbers.len() - GUARD;
        let (before, after) = (&self.before, &self.numbers);
        assert_eq!(
            before[..GUARD],
            after[..GUARD],
            "{call}: before the work area"
        );
        assert_eq!(before[end..], after[end..], "{call}: after the work area");
        let (before, after) = (&before[GUARD..end], &after[GUARD..end]);
        if matches!(answer, 0 | 7 | 8) {
            let place = after.iter().position(|&number| number != 0);
            assert_eq!(place, None, "{call}: answer {answer}, work area not zero");
        } else {
            let place = (0..after.len()).find(|&i| before[i] != after[i]);
            assert_eq!(place, None, "{call}: answer {answer}, work area changed");
        }
    }
}
