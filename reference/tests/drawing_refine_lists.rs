//! Refine where it takes many steps, or where the next step is easily missed: the drawing exercise's
//! call, compared with the second implementation.

mod support;

use reference::geometry::{refine, Rectangle};
use reference::random::Random;
use support::case::{Call, Case};
use support::counts::Tally;
use support::joins::{list, JOINS};
use support::shapes::ORDERS;
use support::{say, seed};

fn case_of(list: Vec<u32>) -> Case {
    let mut case = Case::new(Call::Refine);
    case.list = list;
    case
}

/// The call and the second implementation's rule give this list.
fn expect(name: &str, list: &[[u32; 4]], refined: &[[u32; 4]]) {
    let rectangles = |list: &[[u32; 4]]| -> Vec<Rectangle> {
        let one = |&[a, b, c, d]: &[u32; 4]| Rectangle::new(a, b, c, d);
        list.iter().map(one).collect()
    };
    assert_eq!(refine(&rectangles(list)), rectangles(refined), "{name}");
    let output = case_of(list.concat()).expect(0, name);
    assert_eq!(output.list(), refined.concat(), "{name}");
}

/// What a refine that goes on after a join must still look for; worked out by hand.
#[test]
fn after_a_join() {
    let list = [[1, 2, 3, 3], [0, 1, 2, 3], [2, 1, 3, 3]];
    expect("an earlier one in the union", &list, &[[0, 1, 3, 3]]);
    let list = [[1, 0, 2, 2], [0, 0, 1, 1], [0, 1, 1, 2]];
    expect("an earlier one fits the union", &list, &[[0, 0, 2, 2]]);
    let list = [[2, 1, 3, 4], [3, 3, 4, 4], [3, 1, 4, 3], [3, 0, 4, 2]];
    let refined = [[2, 1, 4, 4], [3, 0, 4, 2]];
    expect("an earlier one before a later one", &list, &refined);
    let list = [[3, 1, 4, 4], [0, 3, 2, 4], [2, 2, 4, 4], [2, 1, 4, 3]];
    let refined = [[0, 3, 2, 4], [2, 1, 4, 4]];
    expect("a drop before the next join", &list, &refined);
}

/// The search for a pair goes on behind rectangles that are joined with none: the place moves down
/// where one of them is joined after all, or lies in a union.
#[test]
fn search_after_a_join() {
    let square = [[2, 2, 4, 3], [1, 2, 2, 4], [2, 3, 3, 4]];
    let list = [&square[..], &[[0, 0, 1, 2], [3, 3, 4, 4], [0, 2, 1, 3]]].concat();
    let refined = [[1, 2, 4, 4], [0, 0, 1, 3]];
    expect("earlier ones are joined", &list, &refined);
    let square = [[4, 2, 5, 4], [3, 0, 6, 3], [3, 3, 5, 5]];
    let list = [&square[..], &[[1, 1, 4, 2], [0, 1, 3, 2], [5, 3, 6, 5]]].concat();
    let refined = [[3, 0, 6, 5], [0, 1, 4, 2]];
    expect("an earlier one is dropped", &list, &refined);
}

/// Lists that join to few, in each order and direction: the shortest, and around the limit of 256.
#[test]
fn long_lists() {
    let seed = seed();
    let mut tally = Tally::default();
    for (group, joins) in JOINS.into_iter().enumerate() {
        let mut random = Random::for_case(seed, 1720, group as u64);
        for count in (1..=40).chain([128, 250, 256]) {
            for order in ORDERS {
                for is_turned in [false, true] {
                    let list = list(joins, count, order, is_turned, &mut random);
                    let label = format!(
                        "LINTZOGER_SEED={seed}, {joins:?} of {count}, {order:?}, {is_turned}"
                    );
                    let case = case_of(list);
                    tally.add(&case, &case.expect(0, &label));
                }
            }
        }
    }
    say(&format!("refine, long lists: {tally}"));
    tally.require(JOINS.len() as u64 * 43 * 8, &["cases"]);
    tally.require(1000, &["joined"]);
    tally.require(50, &["accepted, list of 256", "only dropped"]);
}

/// Lists of 7 to 16 small rectangles on small grids, so that there are many joins and some drops after
/// them.
#[test]
fn random_lists() {
    let seed = seed();
    let mut tally = Tally::default();
    for number in 0..200_000 {
        let mut random = Random::for_case(seed, 1721, number);
        let side = random.between(4, 6);
        let longest = random.pick(&[2, 2, 3]);
        let count = random.between(7, 16);
        let list = (0..count).flat_map(|_| small_rectangle(side, longest, &mut random));
        let case = case_of(list.collect());
        let label = format!("LINTZOGER_SEED={seed}, list {number}");
        tally.add(&case, &case.expect(0, &label));
    }
    say(&format!("refine, random lists: {tally}"));
    tally.require(100_000, &["joined"]);
}

/// Up to `longest` cells a side, on a grid of that side.
fn small_rectangle(side: u32, longest: u32, random: &mut Random) -> [u32; 4] {
    let [(llx, urx), (lly, ury)] = [0, 1].map(|_| {
        let from = random.between(0, side - 1);
        (from, random.between(from + 1, side.min(from + longest)))
    });
    [llx, lly, urx, ury]
}
