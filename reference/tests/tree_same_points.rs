//! Request A.14 on the second implementation's own trees: more entries on larger squares, and trees
//! of different heights.

mod memory_support;
mod support;

use memory_support::asked::Second;
use memory_support::orders::{entries_in, rearranged};
use memory_support::same_points::{Pair, COMPARED, OTHER_ORDER, OTHER_VISITS};
use reference::geometry::Rectangle;
use reference::memory::Reading;
use reference::random::Random;
use reference::tree::{Entry, Index, Refusal};
use support::counts::Tally;
use support::{say, seed};

/// The entries in a fresh index.
fn entered(list: &[Entry]) -> Result<Index, Refusal> {
    let mut index = Index::new(256);
    for entry in list {
        index.insert(entry.cell, entry.tag)?;
    }
    Ok(index)
}

/// Up to 250 entries.
#[test]
fn two_orders() {
    let seed = seed();
    let mut all = Tally::default();
    for case in 0..300 {
        let mut random = Random::for_case(seed, 2880, case);
        let label = format!("LINTZOGER_SEED={seed}, case {case}");
        let side = random.pick(&[9, 12, 16, 30, 60]);
        let square = Rectangle::new(100, 7, 100 + side, 7 + side);
        let list = entries_in(square, 250, &mut random);
        let other = rearranged(&list, &mut random);
        let (Ok(first), Ok(second)) = (entered(&list), entered(&other)) else {
            all.count("left out");
            continue;
        };
        if first.height() != second.height() {
            all.count("pairs of other heights");
        }
        if first.height().max(second.height()) >= 3 {
            all.count("pairs with three levels or more");
        }
        let readings = [first, second].map(Reading::of_index);
        let pair = Pair::new(readings.each_ref().map(Second), &list, random, &label);
        all.add_all(&pair.ask_some(square, 100));
    }
    say(&format!("trees of two orders: {all}"));
    all.require(250, &[COMPARED]);
    all.require(100, &OTHER_VISITS);
    all.require(100, &["pairs with three levels or more"]);
    all.require(5, &["pairs of other heights"]);
    all.require(5_000, &[OTHER_ORDER]);
}
