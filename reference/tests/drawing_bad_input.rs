//! Each fault of an argument is refused with 3: alone, with others, and where 7 or 11 is possible.

mod support;

use reference::random::Random;
use support::case::{Call, Case, CALLS};
use support::fault::faults;
use support::lists::random_case_of_size;
use support::{say, seed, LIST_LIMIT, POLYGON_LIMIT};

/// Cases without a fault at the bounds of the sizes and between.
fn valid_cases(call: Call, seed: u64) -> Vec<Case> {
    let list_sizes = [1, 2, 3, 16, LIST_LIMIT - 1, LIST_LIMIT];
    let polygon_sizes = [1, 2, 3, POLYGON_LIMIT - 1, POLYGON_LIMIT];
    let mut cases = Vec::new();
    for list_size in list_sizes {
        for polygon_size in polygon_sizes {
            let number = cases.len() as u64;
            let mut random = Random::for_case(seed, 200 + call as u64, number);
            let case = random_case_of_size(call, list_size, polygon_size, &mut random);
            cases.push(case);
        }
    }
    cases
}

/// A valid case that is refused with 7: one cut gives four pieces of each rectangle.
fn case_over_limit(call: Call) -> Case {
    let mut case = Case::new(call);
    case.list = [0, 0, 30, 30].repeat(LIST_LIMIT / 4 + 1);
    case.rectangle = [10, 10, 20, 20];
    case.polygon = vec![10, 10, 20, 20, 40, 40, 50, 50];
    case.cell = [5, 5];
    case.fill = 1;
    case
}

#[test]
fn one_fault() {
    let seed = seed();
    for call in CALLS {
        let mut count = 0;
        for (number, valid) in valid_cases(call, seed).iter().enumerate() {
            let place = format!("LINTZOGER_SEED={seed}, {call:?}, case {number}");
            let answer = valid.compare(&place).answer;
            assert_ne!(answer, 3, "{place}, no fault");
            for fault in faults(call) {
                let mut case = valid.clone();
                fault.apply(&mut case);
                case.expect(3, &format!("{place}, {fault:?}"));
                count += 1;
            }
        }
        say(&format!("one fault, {call:?}: {count} cases refused 3"));
        assert!(count >= 500);
    }
}

#[test]
fn one_fault_where_the_limit_is_passed_too() {
    for call in [Call::Cut, Call::CutPolygon] {
        let over_limit = case_over_limit(call);
        over_limit.expect(7, &format!("{call:?}, over the limit"));
        for fault in faults(call) {
            let mut case = over_limit.clone();
            fault.apply(&mut case);
            case.expect(3, &format!("{call:?}, over the limit, {fault:?}"));
        }
    }
}

#[test]
fn one_fault_where_the_output_is_short_too() {
    for polygon in [vec![0, 0, 2, 2], [0, 0, 2, 2].repeat(POLYGON_LIMIT)] {
        let mut short = Case::new(Call::Wkb);
        short.polygon = polygon;
        for output_length in [0, 8, 101] {
            short.output_length = output_length;
            short.expect(11, "a short output");
            for fault in faults(Call::Wkb) {
                let mut case = short.clone();
                fault.apply(&mut case);
                case.expect(3, &format!("a short output, {fault:?}"));
            }
        }
    }
}

/// (The call for Well-Known Binary has only one argument that a fault can be in.)
#[test]
fn two_faults() {
    for call in CALLS.into_iter().filter(|&call| call != Call::Wkb) {
        let base = case_over_limit(call);
        let mut count = 0;
        for first in faults(call) {
            for second in faults(call) {
                let mut case = base.clone();
                first.apply(&mut case);
                second.apply(&mut case);
                let place = format!("{call:?}, {first:?}, {second:?}");
                if first.argument() == second.argument() {
                    case.compare(&place);
                } else {
                    case.expect(3, &place);
                    count += 1;
                }
            }
        }
        say(&format!("two faults, {call:?}: {count} cases refused 3"));
        assert!(count >= 100);
    }
}

/// The first and last cells and corners of the grid are no faults.
#[test]
fn bounds_of_the_grid_are_accepted() {
    for call in CALLS {
        for rectangle in [
            [0, 0, 65536, 65536],
            [0, 0, 1, 1],
            [65535, 65535, 65536, 65536],
            [0, 65535, 65536, 65536],
            [65535, 0, 65536, 65536],
        ] {
            for cell in [[0, 0], [65535, 65535], [0, 65535], [65535, 0]] {
                let mut case = Case::new(call);
                case.list = rectangle.to_vec();
                case.rectangle = rectangle;
                case.polygon = rectangle.to_vec();
                case.cell = cell;
                case.expect(0, "bounds of the grid");
            }
        }
    }
}
