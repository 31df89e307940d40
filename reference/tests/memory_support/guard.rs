//! Lent lists with numbers around them where no call may write.

/// Numbers before and after each lent list.
pub const GUARD: usize = 16;

/// What stands in a lent list before the call, and next to it.
pub fn fill(place: usize) -> u32 {
    0x8765_4321 ^ (place as u32).wrapping_mul(0x9e37_79b9)
}

/// A list with guard numbers around it.
pub fn guarded(list: impl Iterator<Item = u32>) -> Vec<u32> {
    let before = (0..GUARD).map(fill);
    before.chain(list).chain((0..GUARD).map(fill)).collect()
}
