//! Document 01, 'Causes for saying no', and document 02's, as far as they do not speak of memory.

/// Why a call refuses. The numbers 1, 2 and 4 speak of lengths and of memory that reads as no
/// sound tree; an owned tree has neither.
#[derive(Clone, Copy, Debug, PartialEq, Eq)]
pub enum Refusal {
    /// 'Coordinate over 65535; window with ll >= ur in a dimension or ur over 65536.'
    Invalid,
    /// 'Cell already held (insertion).'
    Held,
    /// 'Cell not held (removal).'
    NotHeld,
    /// In step 2 a list passed its limit.
    OverLimit(Limit),
    /// 'Tree after would exceed N nodes.'
    TooManyNodes,
    /// 'List shorter than 3 x matches'; reports the matches.
    ShortList { matches: usize },
    /// 'Nothing is held' (nearest query).
    NothingHeld,
}

/// The three limits of step 2, in the order of the work.
#[derive(Clone, Copy, Debug, PartialEq, Eq)]
pub enum Limit {
    /// 'Pieces over 256 after a cut by one rectangle.'
    AfterCut,
    /// 'Pieces over 256 .. after the common parts.'
    AfterCommonParts,
    /// 'The refined polygon over 16.'
    Refined,
}

impl Refusal {
    /// The documents' number of the refusal.
    pub fn number(self) -> u32 {
        match self {
            Refusal::Invalid => 3,
            Refusal::Held => 5,
            Refusal::NotHeld => 6,
            Refusal::OverLimit(_) => 7,
            Refusal::TooManyNodes => 8,
            Refusal::ShortList { .. } => 9,
            Refusal::NothingHeld => 10,
        }
    }
}
