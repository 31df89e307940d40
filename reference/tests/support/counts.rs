//! Counts of what the cases of a test reached, so that a test cannot pass without its cases.

use super::case::{Call, Case, Output};
use std::collections::BTreeMap;

/// How often each kind of outcome was seen.
#[derive(Default)]
pub struct Tally(BTreeMap<&'static str, u64>);

impl Tally {
    /// Counts the case under its outcome, and under the sizes of its lists where they are bounds.
    pub fn add(&mut self, case: &Case, output: &Output) {
        self.count("cases");
        self.count(outcome(case, output));
        if output.answer == 0 && case.call.takes_list() {
            match case.list.len() {
                4 => self.count("accepted, list of 1"),
                1024 => self.count("accepted, list of 256"),
                _ => {}
            }
        }
        if output.answer == 0 && case.call.takes_polygon() {
            match case.polygon.len() {
                4 => self.count("accepted, polygon of 1"),
                64 => self.count("accepted, polygon of 16"),
                _ => {}
            }
        }
        if output.answer == 0 && case.call == Call::CutPolygon {
            self.count(removed_kind(output.removed));
            if removed_areas(case, output) != i128::from(output.removed) {
                self.count(REMOVED[3]);
            }
        }
    }

    /// The counts of one case of that kind.
    pub fn of(kind: &'static str) -> Tally {
        Tally(BTreeMap::from([(kind, 1)]))
    }

    pub fn count(&mut self, kind: &'static str) {
        *self.0.entry(kind).or_default() += 1;
    }

    /// Adds the counts of another tally.
    pub fn add_all(&mut self, other: &Tally) {
        for (kind, n) in &other.0 {
            *self.0.entry(kind).or_default() += n;
        }
    }

    /// How often the kind was seen.
    pub fn seen(&self, kind: &str) -> u64 {
        self.0.get(kind).copied().unwrap_or(0)
    }

    /// Fails where a kind was seen less often than required.
    pub fn require(&self, least: u64, kinds: &[&'static str]) {
        for kind in kinds {
            let seen = self.seen(kind);
            assert!(
                seen >= least,
                "'{kind}' seen {seen} times, not {least}: {self}"
            );
        }
    }
}

impl std::fmt::Display for Tally {
    fn fmt(&self, f: &mut std::fmt::Formatter) -> std::fmt::Result {
        let counts: Vec<String> = self
            .0
            .iter()
            .map(|(kind, n)| format!("{kind} {n}"))
            .collect();
        write!(f, "{}", counts.join("; "))
    }
}

/// The kinds of acceptance that a test of the call must reach.
pub fn accepted_kinds(call: Call) -> &'static [&'static str] {
    match call {
        Call::Common => &[
            "nothing written",
            "some rectangles left",
            "all rectangles left",
        ],
        Call::Grow => &["list as before", "rectangles changed"],
        Call::ExtraArea => &["no extra area", "extra area", "extra area of 2^31 or more"],
        Call::Cut | Call::CutPolygon => &[
            "nothing written",
            "list as before",
            "fewer rectangles",
            "as many, changed",
            "more rectangles",
        ],
        Call::Refine => &["list as before", "only dropped", "joined"],
        Call::Contains => &[
            "the first has the cell",
            "one between has the cell",
            "the last has the cell",
            "none has the cell",
        ],
        Call::Wkb => &["output as long as needed", "output longer"],
    }
}

fn outcome(case: &Case, output: &Output) -> &'static str {
    match output.answer {
        0 => accepted_kind(case, output),
        3 => "refused 3",
        7 => "refused 7",
        11 => "refused 11",
        _ => "unknown answer",
    }
}

fn accepted_kind(case: &Case, output: &Output) -> &'static str {
    match case.call {
        Call::ExtraArea => match output.extra {
            0 => "no extra area",
            1..=0x7fff_ffff => "extra area",
            _ => "extra area of 2^31 or more",
        },
        Call::Contains => containment_kind(case.polygon.len() / 4, output),
        Call::Wkb if output.length as usize == case.output_length => "output as long as needed",
        Call::Wkb => "output longer",
        Call::Common => match output.list().len() {
            0 => "nothing written",
            length if length < case.list.len() => "some rectangles left",
            _ => "all rectangles left",
        },
        _ if output.list() == case.list => "list as before",
        Call::Grow => "rectangles changed",
        Call::Cut | Call::CutPolygon => cut_kind(case.list.len(), output.list().len()),
        Call::Refine => refine_kind(case, output),
    }
}

/// The kinds of a count of removed cells.
pub const REMOVED: [&str; 4] = [
    "no cell removed",
    "cells removed",
    "2^31 cells removed or more",
    "removed, not the difference of the areas",
];

fn removed_kind(removed: u64) -> &'static str {
    match removed {
        0 => REMOVED[0],
        1..=0x7fff_ffff => REMOVED[1],
        _ => REMOVED[2],
    }
}

/// The areas of the list's rectangles minus those of the rectangles written. It is not the number
/// of cells removed where rectangles overlap.
fn removed_areas(case: &Case, output: &Output) -> i128 {
    let sides = |r: &[u32]| [r[2] - r[0], r[3] - r[1]].map(i128::from);
    let area = |r: &[u32]| sides(r).iter().product::<i128>();
    let areas = |list: &[u32]| list.chunks(4).map(area).sum::<i128>();
    areas(&case.list) - areas(output.list())
}

fn cut_kind(before: usize, after: usize) -> &'static str {
    if after == 0 {
        "nothing written"
    } else if after < before {
        "fewer rectangles"
    } else if after == before {
        "as many, changed"
    } else {
        "more rectangles"
    }
}

/// By the first rectangle that has the cell. The only one counts as the first.
fn containment_kind(count: usize, output: &Output) -> &'static str {
    match output.compared as usize {
        _ if output.has == 0 => "none has the cell",
        1 => "the first has the cell",
        compared if compared < count => "one between has the cell",
        _ => "the last has the cell",
    }
}

/// A rectangle that was not in the list came from joining two.
fn refine_kind(case: &Case, output: &Output) -> &'static str {
    let given: Vec<&[u32]> = case.list.chunks(4).collect();
    if output.list().chunks(4).all(|r| given.contains(&r)) {
        "only dropped"
    } else {
        "joined"
    }
}
