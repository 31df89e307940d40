//! The proved calls' time on an index, over a pass over the same memory (`reference::measure`), and
//! over the second implementation doing the same work on it. Insertion and removal are also put beside what
//! they at least do: an insertion looks for the cell, builds the tree after and copies it, which is
//! set against two point queries and six passes; a removal against a point query and two passes.
//! The job 'half' is insertion into a full index: half of its cells are refused with 8.
//! The jobs 'nearest' and 'look' are the same nearest queries. The first is also set against a point
//! query. In the second a look at all entries in a plain list, which tests nothing, has the place of
//! the second implementation.
//! The job 'emptiness' asks for the windows of the job 'window', and is also set against a point
//! query. 'occupied' asks for the same windows, 'empty' for windows that have no entry though nodes
//! below the root share cells with them; in both the proved window query of the same windows has the
//! place of the second implementation, as its matches tell the same yes or no.
//! The times are illustrations, the ratios are the figures.

mod input;
mod jobs;
mod timing;

use input::{filled, Input, Points};
use jobs::{Job, JOBS};
use reference::measure::pass_time;
use reference::random::Random;
use reference::tree::Index;
use timing::{check, times};

/// Times each job on one index and prints a row for each.
fn print_rows(index: &Index, points: Points, random: &mut Random) {
    let mut input = Input::new(index, points, random);
    let row = format!(
        "{:>3} {:<7} {:>5} {:>7}",
        index.n(),
        points.name(),
        index.tree().map_or(0, |t| t.nodes()),
        index.held()
    );
    let pass = pass_time(&input.index);
    let mut point = 0.0;
    for job in &JOBS {
        if !job.has_input(&input) {
            continue;
        }
        check(&mut input, job);
        let [proved, second] = times(&mut input, job);
        if job.name == "point" {
            point = proved;
        }
        let (to_pass, to_second) = (proved / pass, proved / second);
        println!(
            "{row} {:<9} {proved:>9.0} {pass:>9.0} {second:>9.0} {to_pass:>7.2} {to_second:>7.2} {}",
            job.name,
            share(job, proved, point, pass)
        );
    }
}

/// The time over that of the point queries and passes that the job is set against.
fn share(job: &Job, proved: f64, point: f64, pass: f64) -> String {
    let [points, passes] = job.against;
    if points + passes == 0.0 {
        return String::new();
    }
    format!("{:>7.2}", proved / (points * point + passes * pass))
}

fn main() {
    let mut random = Random::new(1);
    println!("{:>36}{:>19}{:>35}", "", "nanoseconds", "proved over");
    println!(
        "  N points  nodes entries job          proved      pass    second    pass  second  against"
    );
    for n in [16, 64, 256] {
        for is_full in [true, false] {
            for points in [Points::Random, Points::Sorted, Points::Crowded] {
                let index = filled(n, is_full, points, &mut random);
                print_rows(&index, points, &mut random);
            }
        }
    }
}
