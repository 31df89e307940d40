//! The calls that are timed: the proved one and the second implementation's, or what else the proved
//! one is compared with.

use crate::input::Input;
use reference::geometry::Cell;
use reference::memory::{self, Refusal};
use reference::proved_index;
use reference::tree::squared_distance;

/// A call with the i-th arguments, which returns the call's number.
pub type Call = fn(&mut Input, usize) -> u32;

pub struct Job {
    pub name: &'static str,
    pub proved: Call,
    pub second: Call,
    /// The call needs the index as it was, which is given anew before each.
    pub changes: bool,
    /// Some of the calls may be refused with 8.
    pub may_refuse: bool,
    /// The point queries and passes that its time is set against; none where both are 0.
    pub against: [f64; 2],
}

impl Job {
    /// Calls that are accepted on the index as the call before left it.
    const fn new(name: &'static str, [proved, second]: [Call; 2], against: [f64; 2]) -> Job {
        Job {
            name,
            proved,
            second,
            changes: false,
            may_refuse: false,
            against,
        }
    }

    /// Calls that change the index.
    const fn changing(name: &'static str, calls: [Call; 2], against: [f64; 2]) -> Job {
        Job {
            changes: true,
            ..Job::new(name, calls, against)
        }
    }

    /// There are arguments for it.
    pub fn has_input(&self, input: &Input) -> bool {
        match self.name {
            "insert" => !input.fitting.is_empty(),
            "split" => !input.splitting.is_empty(),
            "half" => !input.half_refused.is_empty(),
            "empty" => !input.empty_windows.is_empty(),
            _ => true,
        }
    }
}

/// What a job is set against: nothing, a point query, or for an insertion two point queries and six
/// passes, for a removal a point query and two passes.
const NOTHING: [f64; 2] = [0.0, 0.0];
const POINT: [f64; 2] = [1.0, 0.0];
const INSERTION: [f64; 2] = [2.0, 6.0];
const REMOVAL: [f64; 2] = [1.0, 2.0];

pub const JOBS: [Job; 13] = [
    Job::new(
        "point",
        [
            |input, i| proved_point(input, input.held[i]),
            |input, i| second_point(input, input.held[i]),
        ],
        NOTHING,
    ),
    Job::new("window", [proved_window, second_window], NOTHING),
    Job::new("nearest", [proved_nearest, second_nearest], POINT),
    Job::new("look", [proved_nearest, look_at_all], NOTHING),
    Job::new(
        "emptiness",
        [
            |input, i| proved_is_empty(input, input.windows[i]),
            |input, i| second_is_empty(input, input.windows[i]),
        ],
        POINT,
    ),
    Job::new(
        "occupied",
        [
            |input, i| is_yes(input, input.windows[i]),
            |input, i| has_no_match(input, input.windows[i]),
        ],
        NOTHING,
    ),
    Job::new(
        "empty",
        [
            |input, i| is_yes(input, input.empty_windows[i]),
            |input, i| has_no_match(input, input.empty_windows[i]),
        ],
        NOTHING,
    ),
    Job::new(
        "soundness",
        [
            |input, _| proved_point(input, OFF),
            |input, _| second_point(input, OFF),
        ],
        NOTHING,
    ),
    Job::changing(
        "insert",
        [
            |input, i| proved_insert(input, input.fitting[i]),
            |input, i| second_insert(input, input.fitting[i]),
        ],
        INSERTION,
    ),
    Job::changing(
        "split",
        [
            |input, i| proved_insert(input, input.splitting[i]),
            |input, i| second_insert(input, input.splitting[i]),
        ],
        INSERTION,
    ),
    Job {
        may_refuse: true,
        ..Job::changing(
            "half",
            [
                |input, i| proved_insert(input, input.half_refused[i]),
                |input, i| second_insert(input, input.half_refused[i]),
            ],
            INSERTION,
        )
    },
    Job::changing("remove", [proved_remove, second_remove], REMOVAL),
    Job::new("clear", [proved_clear, second_clear], NOTHING),
];

/// A cell that no tree of this program has in its root's rectangle: the queries of it do little but
/// the soundness test.
const OFF: Cell = [0, 0];

/// The tag of each insertion.
const TAG: u32 = 7;

fn number(answer: Result<(), Refusal>) -> u32 {
    answer.map_or_else(Refusal::number, |()| 0)
}

fn proved_point(input: &mut Input, cell: Cell) -> u32 {
    let [held, visits, tag] = &mut input.stored;
    proved_index::point(&input.index, cell, held, visits, tag)
}

fn second_point(input: &mut Input, cell: Cell) -> u32 {
    let [held, visits, tag] = &mut input.stored;
    number(memory::point(&input.index, cell, held, visits, tag))
}

fn proved_window(input: &mut Input, i: usize) -> u32 {
    let [matches, visits, _] = &mut input.stored;
    let list = &mut input.list;
    proved_index::window(&input.index, input.windows[i], list, matches, visits)
}

fn second_window(input: &mut Input, i: usize) -> u32 {
    let [matches, visits, _] = &mut input.stored;
    let (index, list) = (&input.index, &mut input.list);
    number(memory::window(
        index,
        input.windows[i],
        list,
        matches,
        visits,
    ))
}

fn proved_nearest(input: &mut Input, i: usize) -> u32 {
    let ([tag, visits, _], near) = (&mut input.stored, &mut input.near);
    let (cell, distance) = (input.asked[i], &mut input.distance);
    proved_index::nearest(&input.index, cell, near, tag, distance, visits)
}

fn second_nearest(input: &mut Input, i: usize) -> u32 {
    let ([tag, visits, _], near) = (&mut input.stored, &mut input.near);
    let (cell, distance) = (input.asked[i], &mut input.distance);
    let answer = memory::nearest(&input.index, cell, near, tag, distance, visits);
    number(answer)
}

/// The nearest entry by a look at all of them in a plain list. It tests nothing, and counts no
/// visits.
fn look_at_all(input: &mut Input, i: usize) -> u32 {
    let cell = input.asked[i];
    let (mut least, mut near) = (u64::MAX, input.entries[0]);
    for &entry in &input.entries {
        let distance = squared_distance(entry.cell, cell);
        if distance < least || distance == least && entry.cell < near.cell {
            (least, near) = (distance, entry);
        }
    }
    input.stored[0] = near.tag;
    (input.near, input.distance) = (near.cell, least);
    0
}

fn proved_is_empty(input: &mut Input, window: [u32; 4]) -> u32 {
    let [empty, visits, _] = &mut input.stored;
    proved_index::is_empty(&input.index, window, empty, visits)
}

fn second_is_empty(input: &mut Input, window: [u32; 4]) -> u32 {
    let [empty, visits, _] = &mut input.stored;
    number(memory::is_empty(&input.index, window, empty, visits))
}

/// The yes or no by the emptiness query, without its visits.
fn is_yes(input: &mut Input, window: [u32; 4]) -> u32 {
    proved_index::is_empty(&input.index, window, &mut input.stored[0], &mut 0)
}

/// The same yes or no by the window query: no matches.
fn has_no_match(input: &mut Input, window: [u32; 4]) -> u32 {
    let (list, mut matches) = (&mut input.unread, 0);
    let answer = proved_index::window(&input.index, window, list, &mut matches, &mut 0);
    input.stored[0] = u32::from(matches == 0);
    answer
}

fn proved_insert(input: &mut Input, cell: Cell) -> u32 {
    let (index, work) = (&mut input.changed, &mut input.work);
    let (held, removed) = (&mut input.stored[0], &mut input.removed);
    proved_index::insert(index, work, cell, TAG, held, removed)
}

fn second_insert(input: &mut Input, cell: Cell) -> u32 {
    let (index, work) = (&mut input.changed, &mut input.work);
    let (held, removed) = (&mut input.stored[0], &mut input.removed);
    number(memory::insert(index, work, cell, TAG, held, removed))
}

fn proved_remove(input: &mut Input, i: usize) -> u32 {
    proved_index::remove(&mut input.changed, input.held[i], &mut input.stored[0])
}

fn second_remove(input: &mut Input, i: usize) -> u32 {
    let held = &mut input.stored[0];
    number(memory::remove(&mut input.changed, input.held[i], held))
}

fn proved_clear(input: &mut Input, _: usize) -> u32 {
    proved_index::clear(&mut input.changed, &mut input.stored[0])
}

fn second_clear(input: &mut Input, _: usize) -> u32 {
    number(memory::clear(&mut input.changed, &mut input.stored[0]))
}
