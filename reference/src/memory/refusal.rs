//! Document 01, 'Causes for saying no', and document 02's.

use crate::tree;

/// Why a call on memory refuses.
#[derive(Clone, Copy, Debug, PartialEq, Eq)]
pub enum Refusal {
    /// 'Index length isn't 64 + 128 x N for an N from 1 to 256.'
    WrongLength,
    /// 'Work area length differs from the index (insertion).'
    WorkLength,
    /// 'Coordinate over 65535; window with ll >= ur in a dimension or ur over 65536.'
    Invalid,
    /// 'Memory reads as no sound tree.'
    NoSoundTree,
    /// 'Cell already held (insertion).'
    Held,
    /// 'Cell not held (removal).'
    NotHeld,
    /// In step 2 a list passed its limit.
    OverLimit,
    /// 'Tree after would exceed N nodes.'
    TooManyNodes,
    /// 'List shorter than 3 x matches.'
    ShortList,
    /// 'Nothing is held' (nearest query).
    NothingHeld,
}

impl Refusal {
    /// The documents' number of the refusal.
    pub fn number(self) -> u32 {
        match self {
            Refusal::WrongLength => 1,
            Refusal::WorkLength => 2,
            Refusal::Invalid => 3,
            Refusal::NoSoundTree => 4,
            Refusal::Held => 5,
            Refusal::NotHeld => 6,
            Refusal::OverLimit => 7,
            Refusal::TooManyNodes => 8,
            Refusal::ShortList => 9,
            Refusal::NothingHeld => 10,
        }
    }

    /// 'Index; work area zeroed': refusals 7 and 8. Others leave everything as it was.
    pub fn zeroes_work(self) -> bool {
        matches!(self, Refusal::OverLimit | Refusal::TooManyNodes)
    }
}

impl From<tree::Refusal> for Refusal {
    fn from(refusal: tree::Refusal) -> Refusal {
        match refusal {
            tree::Refusal::Invalid => Refusal::Invalid,
            tree::Refusal::Held => Refusal::Held,
            tree::Refusal::NotHeld => Refusal::NotHeld,
            tree::Refusal::OverLimit(_) => Refusal::OverLimit,
            tree::Refusal::TooManyNodes => Refusal::TooManyNodes,
            tree::Refusal::ShortList { .. } => Refusal::ShortList,
            tree::Refusal::NothingHeld => Refusal::NothingHeld,
        }
    }
}
