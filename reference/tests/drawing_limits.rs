//! Built cases at the limit of 256 rectangles: refused with 7 exactly if a list is over it after a
//! single cut.

mod support;

use reference::random::Random;
use support::case::{Call, Case, Output};
use support::{seed, LIST_LIMIT};

/// Cuts the rectangles below into as many pieces as their names say.
const CUTTER: [u32; 4] = [100, 100, 200, 200];

/// The whole grid.
const ALL: [u32; 4] = [0, 0, 65536, 65536];

/// Rectangles by the number of pieces that CUTTER leaves of them.
const PIECES: [[u32; 4]; 5] = [
    [120, 120, 130, 130],
    [50, 120, 150, 130],
    [50, 120, 250, 130],
    [50, 50, 250, 150],
    [50, 50, 250, 250],
];

/// A rectangle that CUTTER does not meet.
const APART: [u32; 4] = [300, 300, 310, 310];

fn cut(list: Vec<u32>) -> Case {
    let mut case = Case::new(Call::Cut);
    case.list = list;
    case.rectangle = CUTTER;
    case.fill = 2;
    case
}

fn cut_by(list: Vec<u32>, polygon: Vec<u32>) -> Case {
    let mut case = Case::new(Call::CutPolygon);
    case.list = list;
    case.polygon = polygon;
    case.fill = 3;
    case
}

/// Cut by CUTTER, as a rectangle and as a polygon, the list gives so many pieces.
fn check(list: &[u32], pieces: usize, place: &str) {
    let place = format!("{place}, {pieces} pieces");
    let written = |output: Output| output.written as usize;
    for case in [cut(list.to_vec()), cut_by(list.to_vec(), CUTTER.to_vec())] {
        if pieces <= LIST_LIMIT {
            assert_eq!(written(case.expect(0, &place)), pieces, "{place}");
        } else {
            case.expect(7, &place);
        }
    }
}

/// `cut` rectangles with so many pieces each, then rectangles that CUTTER does not meet.
fn list_of(each: usize, cut: usize, apart: usize) -> Vec<u32> {
    let mut list = PIECES[each].repeat(cut);
    list.extend(APART.repeat(apart));
    list
}

#[test]
fn pieces_around_the_limit() {
    for each in 2..=4 {
        for cut in [
            LIST_LIMIT / each - 1,
            LIST_LIMIT / each,
            LIST_LIMIT / each + 1,
        ] {
            for pieces in LIST_LIMIT - 2..=LIST_LIMIT + 3 {
                if each * cut <= pieces && pieces - each * cut + cut <= LIST_LIMIT {
                    let list = list_of(each, cut, pieces - each * cut);
                    check(&list, pieces, &format!("{cut} rectangles of {each} pieces"));
                }
            }
        }
    }
}

/// The order of a list does not matter for the limit.
#[test]
fn pieces_around_the_limit_in_any_order() {
    let seed = seed();
    let (mut accepted, mut refused) = (0, 0);
    for number in 0..2000 {
        let mut random = Random::for_case(seed, 300, number);
        let wanted = random.between(253, 260) as usize;
        let (mut list, mut pieces) = (Vec::new(), 0);
        while pieces < wanted && list.len() < 4 * LIST_LIMIT {
            let each = random.between(0, 4).min((wanted - pieces) as u32) as usize;
            list.extend(PIECES[each]);
            pieces += each;
        }
        check(
            &list,
            pieces,
            &format!("LINTZOGER_SEED={seed}, case {number}"),
        );
        accepted += usize::from(pieces == LIST_LIMIT);
        refused += usize::from(pieces == LIST_LIMIT + 1);
    }
    assert!(accepted >= 50 && refused >= 50, "{accepted} {refused}");
}

/// Pieces written plus rectangles waiting pass 256, but the list after the cut does not.
#[test]
fn limit_is_tested_after_the_whole_list() {
    for (four, none) in [(64, 192), (63, 193), (40, 216), (65, 191)] {
        let mut list = PIECES[4].repeat(four);
        list.extend(PIECES[0].repeat(none));
        check(&list, 4 * four, "covered rectangles last");
        let mut list = PIECES[0].repeat(none);
        list.extend(PIECES[4].repeat(four));
        check(&list, 4 * four, "covered rectangles first");
    }
}

/// A list over the limit after one rectangle of the polygon is refused, also where a later
/// rectangle would leave nothing of it.
#[test]
fn limit_is_tested_after_every_rectangle() {
    let nothing_met = [400, 400, 401, 401];
    for before in 0..15 {
        for after in 1..=15 - before {
            let mut polygon = nothing_met.repeat(before);
            polygon.extend(CUTTER);
            polygon.extend(ALL.repeat(after));
            let place = format!("{before} rectangles before, {after} after");
            cut_by(list_of(4, 64, 1), polygon.clone()).expect(7, &place);
            cut_by(list_of(2, 129, 0), polygon.clone()).expect(7, &place);
            let output = cut_by(list_of(4, 64, 0), polygon.clone()).expect(0, &place);
            assert_eq!(output.written, 0, "{place}");
            let output = cut_by(list_of(2, 128, 0), polygon).expect(0, &place);
            assert_eq!(output.written, 0, "{place}");
        }
    }
}

/// As above with thin bars: the first rectangle divides 129 bars, the second one covers all of
/// them but the first.
#[test]
fn bars_over_the_limit_in_the_middle() {
    let bars = |count: u32| -> Vec<u32> {
        (0..count)
            .flat_map(|i| [2 * i, 0, 2 * i + 1, 100])
            .collect()
    };
    let polygon = vec![0, 40, 1000, 60, 1, 0, 1000, 100];
    let output = cut_by(bars(128), polygon.clone()).expect(0, "128 bars");
    assert_eq!(output.list(), [0, 60, 1, 100, 0, 0, 1, 40]);
    cut_by(bars(129), polygon.clone()).expect(7, "129 bars");
    let other_order = [&polygon[4..], &polygon[..4]].concat();
    let output = cut_by(bars(129), other_order).expect(0, "129 bars, other order");
    assert_eq!(output.list(), [0, 60, 1, 100, 0, 0, 1, 40]);
}

/// One rectangle cut by n bars, each longer than the one before, gives (n + 1)^2 pieces: exactly
/// 256 with 15 bars, and 289 with 16.
#[test]
fn one_rectangle_cut_by_nested_bars() {
    let bars = |count: u32| -> Vec<u32> {
        (1..=count)
            .flat_map(|i| [500 - 10 * i, 10 * i, 500 + 10 * i, 10 * i + 1])
            .collect()
    };
    for count in 1..=15 {
        let place = format!("{count} nested bars");
        let output = cut_by(vec![0, 0, 1000, 1000], bars(count)).expect(0, &place);
        assert_eq!(output.written, (count + 1) * (count + 1), "{place}");
    }
    cut_by(vec![0, 0, 1000, 1000], bars(16)).expect(7, "16 nested bars");
}
