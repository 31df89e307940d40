//! Times of single calls. The calls are made in turns, and the median counts for each of the
//! arguments, so that other work on the machine does little to the figures.

use crate::input::{Input, CALLS};
use crate::jobs::{Call, Job};
use reference::measure::median;
use reference::memory::read_back;
use std::hint::black_box;
use std::time::{Duration, Instant};

/// Rounds for each row.
const ROUNDS: usize = 25;

/// The least time that is measured at once, where the call changes nothing.
const LEAST_TIME: Duration = Duration::from_micros(20);

/// Both calls give the same, so the comparison is about the same job. Which parts the nodes take is
/// free, so the trees are compared.
pub fn check(input: &mut Input, job: &Job) {
    for i in 0..CALLS {
        let [given, expected] = [job.proved, job.second].map(|call| {
            input.changed.copy_from_slice(&input.index);
            let answer = call(input, i);
            let is_expected = answer == 0 || job.may_refuse && answer == 8;
            assert!(is_expected, "{}: answer {answer}", job.name);
            let tree = read_back(&input.changed).expect("the layout is kept");
            let stored = (input.stored, input.near, input.distance, input.removed);
            (answer, stored, input.list.clone(), tree)
        });
        assert!(given == expected, "{}: the calls differ", job.name);
    }
}

/// The times of the proved call and of the second implementation's, in nanoseconds: the mean over
/// the arguments of the median time of each call.
pub fn times(input: &mut Input, job: &Job) -> [f64; 2] {
    let calls = [job.proved, job.second];
    let repeats = calls.map(|call| match job.changes {
        true => 1,
        false => repeats(input, call),
    });
    let mut times = [(); 2].map(|()| vec![Vec::new(); CALLS]);
    for _ in 0..ROUNDS {
        for k in 0..2 {
            for (i, samples) in times[k].iter_mut().enumerate() {
                samples.push(time(input, calls[k], i, repeats[k]));
            }
        }
    }
    times.map(|samples| samples.into_iter().map(median).sum::<f64>() / CALLS as f64)
}

/// Nanoseconds of the call with the i-th arguments. The index is given anew outside the time.
fn time(input: &mut Input, call: Call, i: usize, repeats: u32) -> f64 {
    input.changed.copy_from_slice(&input.index);
    let start = Instant::now();
    for _ in 0..repeats {
        black_box(call(black_box(input), i));
    }
    start.elapsed().as_nanos() as f64 / f64::from(repeats)
}

/// Calls that take long enough to be timed.
fn repeats(input: &mut Input, call: Call) -> u32 {
    let mut repeats = 1;
    loop {
        let start = Instant::now();
        time(input, call, 0, repeats);
        if start.elapsed() >= LEAST_TIME {
            return repeats;
        }
        repeats *= 2;
    }
}
