//! Streams of calls through the proved library: the mean and the median time of a call, and the
//! worst call, also over a pass over the memory (`reference::measure`). The streams are always the
//! same, so that two libraries can be compared in two runs. The times are illustrations, the ratios
//! are the figures.
//!
//! With an N and the name of a stream as arguments that stream is made once, and no time is taken: a
//! run in which instructions can be counted, by callgrind with
//! `--toggle-collect='*counted_answers*'`.

mod cells;
mod replay;
mod streams;

use reference::measure::{median, pass_time};
use reference::memory::layout::length_of;
use replay::{counted_answers, times, Timed};
use std::env;
use streams::{kinds, Kind};

/// Times a stream and prints its row.
fn print_row(n: usize, kind: Kind, pass: f64) {
    let stream = kind.stream(n);
    let timed = times(&stream);
    let all: Vec<f64> = timed.iter().map(|t| t.time).collect();
    let mean = all.iter().sum::<f64>() / all.len() as f64;
    let refused = timed.iter().filter(|t| t.answer != 0).count();
    let worst = (0..all.len()).max_by(|&a, &b| all[a].total_cmp(&all[b]));
    let worst = worst.expect("a stream has calls");
    let Timed { answer, time } = timed[worst];
    let middle = median(all);
    let times = format!("{mean:>8.0} {middle:>8.0} {time:>10.0}");
    let ratios = [mean, middle, pass].map(|other| format!("{:>8.1}", time / other));
    println!(
        "{n:>3} {:<17} {:>5} {refused:>7} {times} {}  {} {:?}: {answer}",
        kind.name(),
        timed.len(),
        ratios.join(" "),
        worst + 1,
        stream.commands[worst],
    );
}

/// Makes the stream of that name once, and prints how many calls were accepted.
fn make_once(n: &str, name: &str) {
    let n = n.parse().expect("N is a decimal number");
    let kind = kinds().into_iter().find(|kind| kind.name() == name);
    let stream = kind.expect("the name of a stream").stream(n);
    let answers = counted_answers(&stream);
    let accepted = answers.iter().filter(|&&answer| answer == 0).count();
    println!("{n} {name}: {} calls, {accepted} accepted", answers.len());
}

fn print_all() {
    println!("{:>45}nanoseconds{:>24}worst over", "", "");
    println!(
        "  N stream            calls refused     mean   median      worst\
         \u{20}    mean   median     pass  worst call: answer"
    );
    for n in [64, 256] {
        let pass = pass_time(&vec![0; length_of(n)]);
        for kind in kinds() {
            print_row(n, kind, pass);
        }
        println!("{n:>3} a pass: {pass:.0} nanoseconds");
    }
}

fn main() {
    let arguments: Vec<String> = env::args().skip(1).collect();
    match &arguments[..] {
        [] => print_all(),
        [n, name] => make_once(n, name),
        _ => panic!("no arguments, or an N and the name of a stream"),
    }
}
