//! What every index has after a call, tested on its numbers and on the tree read back.

use crate::support::sound::check_sound;
use reference::memory::{is_sound, read_back};
use reference::tree::{Entry, Tree};

/// The parts in use, in rising order.
pub fn parts_in_use(numbers: &[u32]) -> Vec<usize> {
    (0..256)
        .filter(|k| numbers[k / 32] >> (k % 32) & 1 == 1)
        .collect()
}

/// A part before the last one in use is not in use.
pub fn has_gap(numbers: &[u32]) -> bool {
    let parts = parts_in_use(numbers);
    parts.last().is_some_and(|last| last + 1 > parts.len())
}

/// The index reads back as a sound tree with the record's entries, and the numbers of its head are
/// those that the tree and its parts fix.
pub fn check_whole(numbers: &[u32], record: &[Entry], place: &str) {
    let n = (numbers.len() - 64) / 128;
    let tree = read_back(numbers).unwrap_or_else(|| panic!("{place}: no tree is read back"));
    let Some(tree) = tree else {
        assert!(record.is_empty(), "{place}: empty, but the record is not");
        return;
    };
    assert!(is_sound(&tree), "{place}: not sound");
    assert!(holds(&tree, record), "{place}: other entries");
    check_head(numbers, &tree, place);
    // Tall trees take long to be painted.
    if tree.height() <= 12 {
        check_sound(&tree, n, record).unwrap_or_else(|clause| panic!("{place}: {clause}"));
    }
}

/// The tree's entries are those of the record, in any order.
fn holds(tree: &Tree, record: &[Entry]) -> bool {
    let sorted = |entries: &[Entry]| {
        let mut all: Vec<_> = entries.iter().map(|e| (e.cell, e.tag)).collect();
        all.sort_unstable();
        all
    };
    sorted(&tree.entries()) == sorted(record)
}

/// As many bits as nodes; then the height and the root's part, which is the last in use; then zeros.
fn check_head(numbers: &[u32], tree: &Tree, place: &str) {
    let parts = parts_in_use(numbers);
    assert_eq!(parts.len(), tree.nodes(), "{place}: bits");
    assert_eq!(numbers[8] as usize, tree.height(), "{place}: height");
    assert_eq!(Some(&(numbers[9] as usize)), parts.last(), "{place}: root");
    let rest = numbers[10..64].iter().all(|&number| number == 0);
    assert!(rest, "{place}: the head's unused numbers are zero");
}
