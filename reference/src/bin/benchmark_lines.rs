//! A million lines through the proved line program and through the second implementation's, both as
//! processes that read a file and write a file. Their processor time is taken, so that other work on
//! the machine does little to it. The times are illustrations, the ratio is the figure.

use reference::lines::Bench;
use reference::proved_bench;
use reference::random::Random;
use std::env;
use std::fs::{self, File};
use std::io::{BufWriter, Write};
use std::path::{Path, PathBuf};
use std::process::{Command, Stdio};

const LINES: usize = 1_000_000;

/// Rounds for each row; the median round counts.
const ROUNDS: usize = 3;

/// Queries of an empty index: little but the lines themselves.
fn queries(random: &mut Random) -> Vec<String> {
    let cell = |random: &mut Random| [0, 1].map(|_| random.between(0, 65535));
    (0..LINES)
        .map(|_| cell(random))
        .map(|[x, y]| format!("P {x} {y}"))
        .collect()
}

/// Insertions, removals, queries and other lines on an index of up to 100 entries.
fn session(random: &mut Random) -> Vec<String> {
    let mut bench = Bench::default();
    let mut held: Vec<[u32; 2]> = Vec::new();
    let mut lines = Vec::new();
    while lines.len() < LINES {
        let [x, y] = [0, 1].map(|_| random.between(0, 65535));
        let any = (!held.is_empty()).then(|| random.number() as usize % held.len());
        let line = match (random.between(0, 9), any) {
            (0..=2, _) if held.len() < 100 => format!("I {x} {y} {}", random.number() as u32),
            (3..=4, Some(i)) => format!("R {} {}", held[i][0], held[i][1]),
            (5..=7, Some(i)) => format!("P {} {}", held[i][0], held[i][1]),
            (8, _) => format!("S {x} {y} {} {}", x + 2000, y + 2000),
            _ => format!("P {x} {y}"),
        };
        let answer = bench.answer(line.as_bytes());
        if answer.starts_with("I 0") {
            held.push([x, y]);
        }
        if let (true, Some(i)) = (answer.starts_with("R 0"), any) {
            held.swap_remove(i);
        }
        lines.push(line);
    }
    lines
}

/// Seconds of processor time that the program takes with the file as input.
fn seconds(program: &Path, input: &Path, output: &Path) -> f64 {
    let before = children_ticks();
    let status = Command::new(program)
        .stdin(Stdio::from(File::open(input).expect("the input")))
        .stdout(Stdio::from(File::create(output).expect("the output")))
        .status()
        .expect("the program runs");
    assert!(status.success(), "{} ends with {status}", program.display());
    (children_ticks() - before) as f64 / TICKS
}

/// The clock ticks of a second in /proc.
const TICKS: f64 = 100.0;

/// The processor time, in ticks, of the processes that were started here and have ended.
fn children_ticks() -> u64 {
    let stat = fs::read_to_string("/proc/self/stat").expect("/proc is there");
    let fields = stat.rsplit_once(')').expect("the program's name").1;
    // User and system time of the children: the 14th and 15th field after the name.
    let times = fields.split_whitespace().skip(13).take(2);
    times.map(|t| t.parse::<u64>().expect("a number")).sum()
}

fn median(mut times: Vec<f64>) -> f64 {
    times.sort_by(f64::total_cmp);
    times[times.len() / 2]
}

fn write_lines(file: &Path, lines: &[String]) {
    let mut writer = BufWriter::new(File::create(file).expect("a file for the lines"));
    for line in lines {
        writeln!(writer, "{line}").expect("the lines are written");
    }
    writer.flush().expect("the lines are written");
}

/// The second implementation's program lies beside this one.
fn second_program() -> PathBuf {
    let this = env::current_exe().expect("this program's file");
    this.with_file_name("bench_reference")
}

/// Prints the row of one file.
fn print_row(name: &str, lines: &[String], folder: &Path) {
    let files = ["input", "proved", "second"].map(|f| folder.join(f));
    write_lines(&files[0], lines);
    let programs = [proved_bench::program(), second_program()];
    let mut times = [Vec::new(), Vec::new()];
    for _ in 0..ROUNDS {
        for k in 0..2 {
            times[k].push(seconds(&programs[k], &files[0], &files[k + 1]));
        }
    }
    let outputs = [1, 2].map(|k| fs::read(&files[k]).expect("the output"));
    assert!(outputs[0] == outputs[1], "the outputs differ");
    let [proved, second] = times.map(median);
    println!(
        "{name:<8} {:>8} {proved:>8.2} {second:>8.2} {:>6.2}",
        lines.len(),
        proved / second
    );
}

fn main() {
    let folder = env::temp_dir().join(format!("lintzoger-lines-{}", std::process::id()));
    fs::create_dir_all(&folder).expect("a folder for the files");
    let mut random = Random::new(1);
    println!("file        lines proved s second s  ratio");
    print_row("queries", &queries(&mut random), &folder);
    print_row("session", &session(&mut random), &folder);
    fs::remove_dir_all(&folder).expect("the folder is removed");
}
