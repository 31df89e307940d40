//! A stream is made again and again from its beginning, and each call is timed by itself. The least
//! time of a call counts, so that other work on the machine does not.

use crate::streams::{Command, Stream};
use reference::proved_index::{insert, remove};
use std::hint::black_box;
use std::time::Instant;

/// How often a stream is made.
const REPLAYS: usize = 15;

/// The answer and the least time of a call, in nanoseconds.
pub struct Timed {
    pub answer: u32,
    pub time: f64,
}

/// The call's answer.
fn call(command: Command, index: &mut [u32], work: &mut [u32]) -> u32 {
    match command {
        Command::Insert(cell) => insert(index, work, cell, 7, &mut 0, &mut 0),
        Command::Remove(cell) => remove(index, cell, &mut 0),
    }
}

/// The answers to all calls, and the index after them.
pub fn answers(stream: &Stream) -> (Vec<u32>, Vec<u32>) {
    let mut index = stream.index.clone();
    let mut work = vec![0; index.len()];
    let commands = stream.commands.iter();
    let answers = commands.map(|&command| call(command, &mut index, &mut work));
    (answers.collect(), index)
}

/// The answers alone. A function of its own, so that instructions can be collected in it and not where
/// a stream is made up.
#[inline(never)]
pub fn counted_answers(stream: &Stream) -> Vec<u32> {
    answers(stream).0
}

/// All calls with their least times.
pub fn times(stream: &Stream) -> Vec<Timed> {
    let (answers, _) = answers(stream);
    let mut work = vec![0; stream.index.len()];
    let mut least = vec![f64::INFINITY; answers.len()];
    for _ in 0..REPLAYS {
        let mut index = stream.index.clone();
        for (i, &command) in stream.commands.iter().enumerate() {
            let start = Instant::now();
            let answer = call(black_box(command), &mut index, &mut work);
            least[i] = least[i].min(start.elapsed().as_nanos() as f64);
            assert_eq!(answer, answers[i], "equal streams have equal answers");
        }
    }
    let timed = answers.into_iter().zip(least);
    timed.map(|(answer, time)| Timed { answer, time }).collect()
}
