//! Random lists, valid and with faults, through both implementations.

mod support;

use reference::random::Random;
use support::case::Call;
use support::counts::{accepted_kinds, Tally, REMOVED};
use support::fault::faults;
use support::lists::random_case;
use support::{say, seed};

/// Cases of valid arguments for each call.
const VALID: u64 = 200_000;

/// Cases with one to three faults for each call.
const FAULTY: u64 = 40_000;

/// How often each outcome must be seen.
const LEAST: u64 = 50;

fn compare_random_cases(call: Call) {
    let test = format!("random lists, {call:?}");
    let seed = seed();
    let faults = faults(call);
    let (mut valid, mut faulty) = (Tally::default(), Tally::default());
    for number in 0..VALID + FAULTY {
        let mut random = Random::for_case(seed, call as u64, number);
        let mut case = random_case(call, &mut random);
        if number >= VALID {
            for _ in 0..random.between(1, 3) {
                random.pick(&faults).apply(&mut case);
            }
        }
        let output = case.compare(&format!("LINTZOGER_SEED={seed}, {call:?}, case {number}"));
        let tally = if number < VALID {
            &mut valid
        } else {
            &mut faulty
        };
        tally.add(&case, &output);
    }
    say(&format!("{test}: valid arguments: {valid}"));
    say(&format!("{test}: with faults: {faulty}"));
    valid.require(VALID, &["cases"]);
    valid.require(LEAST, accepted_kinds(call));
    if call.takes_list() {
        valid.require(LEAST, &["accepted, list of 1", "accepted, list of 256"]);
    }
    if call.takes_polygon() {
        valid.require(
            LEAST,
            &["accepted, polygon of 1", "accepted, polygon of 16"],
        );
    }
    if matches!(call, Call::Cut | Call::CutPolygon) {
        valid.require(LEAST, &["refused 7"]);
    }
    if call == Call::CutPolygon {
        valid.require(LEAST, &REMOVED);
    }
    if call.writes_bytes() {
        valid.require(LEAST, &["refused 11"]);
    }
    faulty.require(FAULTY * 9 / 10, &["refused 3"]);
}

#[test]
fn common() {
    compare_random_cases(Call::Common);
}

#[test]
fn grow() {
    compare_random_cases(Call::Grow);
}

#[test]
fn extra_area() {
    compare_random_cases(Call::ExtraArea);
}

#[test]
fn cut() {
    compare_random_cases(Call::Cut);
}

#[test]
fn cut_polygon() {
    compare_random_cases(Call::CutPolygon);
}

#[test]
fn refine() {
    compare_random_cases(Call::Refine);
}

#[test]
fn contains() {
    compare_random_cases(Call::Contains);
}

#[test]
fn wkb() {
    compare_random_cases(Call::Wkb);
}
