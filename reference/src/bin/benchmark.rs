//! The proved calls' time over the plain Rust calls' time for the same job: numbers in, numbers
//! out, arguments tested. Both are called on the same inputs, in turns; the result list and the
//! output are not cleared between calls. The times are illustrations, the ratio is the figure.

use reference::drawing::{self, RESULT_LENGTH};
use reference::geometry::{GRID_END, POLYGON_LIMIT};
use reference::measure::median;
use reference::proved;
use reference::random::Random;
use std::hint::black_box;
use std::time::Instant;

/// Different inputs for each size.
const INPUTS: usize = 64;

/// Rounds for each size; the median round counts.
const ROUNDS: usize = 15;

/// The least time of a round, in nanoseconds.
const ROUND_TIME: u128 = 10_000_000;

/// The bytes of a polygon of 16 rectangles as Well-Known Binary.
const OUTPUT_LENGTH: usize = 9 + 93 * POLYGON_LIMIT;

/// The arguments of one call, which takes some of them. The rectangle is the polygon's first.
struct Input {
    list: Vec<u32>,
    polygon: Vec<u32>,
    cell: [u32; 2],
}

/// What is lent to a call to be written: a result list, an output, and two numbers to store. It
/// uses some of them.
#[derive(Debug, PartialEq, Eq)]
struct Lent {
    result: [u32; RESULT_LENGTH],
    out: [u8; OUTPUT_LENGTH],
    written: u32,
    removed: u64,
}

impl Lent {
    fn new() -> Lent {
        Lent {
            result: [0; RESULT_LENGTH],
            out: [0; OUTPUT_LENGTH],
            written: 0,
            removed: 0,
        }
    }
}

/// A call on an input, which returns the call's number.
type Job = fn(&Input, &mut Lent) -> u32;

fn first(polygon: &[u32]) -> [u32; 4] {
    [polygon[0], polygon[1], polygon[2], polygon[3]]
}

fn number(answer: Result<(), drawing::Refusal>) -> u32 {
    answer.map_or_else(drawing::Refusal::number, |()| 0)
}

/// Name, proved call, plain call.
const JOBS: [(&str, Job, Job); 3] = [
    (
        "cut by a rectangle",
        |input, lent| {
            let rectangle = first(&input.polygon);
            proved::cut(&input.list, rectangle, &mut lent.result, &mut lent.written)
        },
        |input, lent| {
            let rectangle = first(&input.polygon);
            let (result, written) = (&mut lent.result, &mut lent.written);
            number(drawing::cut(&input.list, rectangle, result, written))
        },
    ),
    (
        "cut by a polygon of 4",
        |input, lent| {
            proved::cut_polygon(
                &input.list,
                &input.polygon,
                &mut lent.result,
                &mut lent.written,
                &mut lent.removed,
            )
        },
        |input, lent| {
            number(drawing::cut_polygon(
                &input.list,
                &input.polygon,
                &mut lent.result,
                &mut lent.written,
                &mut lent.removed,
            ))
        },
    ),
    (
        "refine",
        |input, lent| proved::refine(&input.list, &mut lent.result, &mut lent.written),
        |input, lent| {
            number(drawing::refine(
                &input.list,
                &mut lent.result,
                &mut lent.written,
            ))
        },
    ),
];

/// The containment test stores `has` in the result list's first place, and `compared` as written.
const CONTAINS: [Job; 2] = [
    |input, lent| {
        let (has, compared) = (&mut lent.result[0], &mut lent.written);
        proved::contains(&input.polygon, input.cell, has, compared)
    },
    |input, lent| {
        let (has, compared) = (&mut lent.result[0], &mut lent.written);
        number(drawing::contains(&input.polygon, input.cell, has, compared))
    },
];

/// The call that writes Well-Known Binary stores its length as written.
const WKB: [Job; 2] = [
    |input, lent| proved::wkb(&input.polygon, &mut lent.out, &mut lent.written),
    |input, lent| {
        number(drawing::wkb(
            &input.polygon,
            &mut lent.out,
            &mut lent.written,
        ))
    },
];

/// Where the cell is in a polygon of 16: name, `has`, `compared`.
const CONTAINMENTS: [(&str, u32, u32); 3] = [
    ("contains, in the first", 1, 1),
    ("contains, in the last", 1, POLYGON_LIMIT as u32),
    ("contains, in none", 0, POLYGON_LIMIT as u32),
];

/// A rectangle of up to `largest` cells a side on a grid of `side` cells a side.
fn rectangle(random: &mut Random, side: u32, largest: u32) -> [u32; 4] {
    let [width, height] = [0, 1].map(|_| random.between(1, largest));
    let llx = random.between(0, side - width);
    let lly = random.between(0, side - height);
    [llx, lly, llx + width, lly + height]
}

/// Rectangles on a grid with some four cells a rectangle, so that some are contained and some
/// join, and a polygon that meets a good part of them and leaves an accepted list.
fn input(random: &mut Random, count: usize) -> Input {
    let side = 2 * (1..).find(|n| n * n >= count as u32).unwrap_or(1) + 2;
    loop {
        let list: Vec<u32> = (0..count)
            .flat_map(|_| rectangle(random, side, 4))
            .collect();
        let polygon: Vec<u32> = (0..4)
            .flat_map(|_| rectangle(random, side, side * 3 / 4))
            .collect();
        let cell = [0, 0];
        let input = Input {
            list,
            polygon,
            cell,
        };
        let mut lent = Lent::new();
        if JOBS.iter().all(|job| job.2(&input, &mut lent) == 0) {
            return input;
        }
    }
}

/// A polygon of 16 rectangles and a cell of which the containment test reports this.
fn containment_input(random: &mut Random, has: u32, compared: u32) -> Input {
    let [_, plain] = CONTAINS;
    let mut lent = Lent::new();
    loop {
        let polygon = (0..POLYGON_LIMIT).flat_map(|_| rectangle(random, 10, 4));
        let input = Input {
            list: Vec::new(),
            polygon: polygon.collect(),
            cell: [0, 1].map(|_| random.between(0, 9)),
        };
        plain(&input, &mut lent);
        if [lent.result[0], lent.written] == [has, compared] {
            return input;
        }
    }
}

/// A polygon of so many rectangles anywhere on the grid.
fn wkb_input(random: &mut Random, count: usize) -> Input {
    let polygon = (0..count).flat_map(|_| rectangle(random, GRID_END, GRID_END));
    Input {
        list: Vec::new(),
        polygon: polygon.collect(),
        cell: [0, 0],
    }
}

/// What the call gives: its number, and all that it was lent to be written.
fn outcome(input: &Input, job: Job) -> (u32, Lent) {
    let mut lent = Lent::new();
    let answer = job(input, &mut lent);
    (answer, lent)
}

/// Both calls give the same, so the comparison is about the same job.
fn check(inputs: &[Input], proved: Job, plain: Job) {
    for input in inputs {
        assert_eq!(outcome(input, proved), outcome(input, plain));
    }
}

/// Nanoseconds a call, over `repeats` passes through the inputs.
fn time(inputs: &[Input], job: Job, repeats: u32) -> f64 {
    let mut lent = Lent::new();
    let start = Instant::now();
    for _ in 0..repeats {
        for input in inputs {
            black_box(job(black_box(input), &mut lent));
            black_box(&mut lent);
        }
    }
    start.elapsed().as_nanos() as f64 / f64::from(repeats) / inputs.len() as f64
}

/// Passes through the inputs that make a round long enough to be timed.
fn repeats(inputs: &[Input], job: Job) -> u32 {
    let mut repeats = 1;
    loop {
        let start = Instant::now();
        time(inputs, job, repeats);
        if start.elapsed().as_nanos() >= ROUND_TIME {
            return repeats;
        }
        repeats *= 2;
    }
}

/// Times both calls in turns, and prints a row.
fn compare(name: &str, count: usize, inputs: &[Input], proved: Job, plain: Job) {
    check(inputs, proved, plain);
    let (proved_repeats, plain_repeats) = (repeats(inputs, proved), repeats(inputs, plain));
    let (mut proved_times, mut plain_times) = (Vec::new(), Vec::new());
    for _ in 0..ROUNDS {
        proved_times.push(time(inputs, proved, proved_repeats));
        plain_times.push(time(inputs, plain, plain_repeats));
    }
    let (a, b) = (median(proved_times), median(plain_times));
    println!("{name:<22} {count:>10} {a:>10.0} {b:>10.0} {:>6.2}", a / b);
}

fn main() {
    let mut random = Random::new(1);
    println!("job                    rectangles  proved ns   plain ns  ratio");
    for (name, proved, plain) in JOBS {
        for count in [4, 16, 64, 256] {
            let inputs: Vec<Input> = (0..INPUTS).map(|_| input(&mut random, count)).collect();
            compare(name, count, &inputs, proved, plain);
        }
    }
    let [proved, plain] = CONTAINS;
    for (name, has, compared) in CONTAINMENTS {
        let inputs: Vec<Input> = (0..INPUTS)
            .map(|_| containment_input(&mut random, has, compared))
            .collect();
        compare(name, POLYGON_LIMIT, &inputs, proved, plain);
    }
    let [proved, plain] = WKB;
    for count in [1, 4, POLYGON_LIMIT] {
        let inputs: Vec<Input> = (0..INPUTS).map(|_| wkb_input(&mut random, count)).collect();
        compare("well-known binary", count, &inputs, proved, plain);
    }
}
