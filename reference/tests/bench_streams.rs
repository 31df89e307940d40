//! Long streams of commands through the proved line program, compared with the second implementation
//! byte by byte.

mod support;

use reference::geometry::Rectangle;
use reference::lines::Bench;
use reference::random::Random;
use reference::tree::Entry;
use support::checked::{Checked, Command};
use support::compared::{compare, expect, WHOLE};
use support::limits::{
    filled_bars, over_bars, rungs, INSIDE_257, PIECES_256, PIECES_257, REFINED_16, REFINED_17,
};
use support::lines::{answers, line};
use support::streams::Stream;
use support::{say, seed};

/// 'N = 64, a result list for all 512 entries': a full index is printed again and again, which is
/// far more output than a pipe holds.
#[test]
fn full_index() {
    let inserts: String = (0..600)
        .map(|i| format!("I {} {} {i}\n", 97 * i % 1009, 31 * i % 911))
        .collect();
    let windows = "S 0 0 65536 65536\nS 0 0 500 500\n".repeat(1500);
    let removals: String = (0..600)
        .map(|i| format!("R {} {}\n", 97 * i % 1009, 31 * i % 911))
        .collect();
    let input = format!("{inserts}{windows}{removals}S 0 0 65536 65536\n");
    let expected = answers(input.as_bytes());
    assert!(expected.contains("I ! 8\n") && expected.ends_with("R ! 6\nS 0 0\n"));
    compare(input.as_bytes(), &WHOLE, "full index");
}

/// Refusal 7 after built streams, and the streams just below the limit.
#[test]
fn limits_of_polygons() {
    let mut input = String::new();
    let mut add = |(built, cell): (Checked, [u32; 2])| {
        let commands = built.commands.iter().map(line);
        input += &commands.collect::<String>();
        input += &line(&Command::Insert(cell, 1));
        input += "S 0 0 65536 65536\nC\n";
    };
    add(filled_bars(&PIECES_256));
    add(filled_bars(&PIECES_257));
    add(rungs());
    add(over_bars(&REFINED_16));
    add(over_bars(&REFINED_17));
    add(over_bars(&INSIDE_257));
    assert_eq!(answers(input.as_bytes()).matches("I ! 7\n").count(), 4);
    compare(input.as_bytes(), &WHOLE, "limits of polygons");
}

/// A stream of commands as lines, with the second implementation's answers, by which it goes.
struct Lines {
    bench: Bench,
    stream: Stream,
    record: Vec<Entry>,
    accepted: bool,
    input: Vec<u8>,
    output: String,
}

impl Lines {
    fn new(random: Random) -> Lines {
        Lines {
            bench: Bench::default(),
            stream: Stream::new(600, random),
            record: Vec::new(),
            accepted: true,
            input: Vec::new(),
            output: String::new(),
        }
    }

    /// Adds a line, which is given without its LF, and returns the answer.
    fn add(&mut self, line: &[u8]) -> String {
        let answer = self.bench.answer(line);
        self.input.extend(line);
        self.input.push(b'\n');
        self.output += &answer;
        answer
    }

    /// Adds the stream's next command.
    fn next(&mut self) {
        let command = self.stream.next(&self.record, self.accepted);
        let answer = self.add(line(&command).trim_end().as_bytes());
        self.accepted = !answer.contains('!');
        match command {
            Command::Insert(cell, tag) if self.accepted => self.record.push(Entry { cell, tag }),
            Command::Remove(cell) if self.accepted => self.record.retain(|e| e.cell != cell),
            Command::Clear => self.record.clear(),
            _ => {}
        }
    }
}

/// Streams of the kinds that the library gets, some with other lines among them; read in large and in
/// small parts.
#[test]
fn streams() {
    let seed = seed();
    let mut lines = 0;
    for case in 0..STREAMS {
        let mut stream = Lines::new(Random::for_case(seed, 1500, case));
        let mut random = Random::for_case(seed, 1501, case);
        for _ in 0..STREAM_LENGTH {
            if case % 4 == 3 && random.one_in(10) {
                let others: [&[u8]; 5] = [b"", b"C ", b"I 1 2", b"P 1 2\r", b"S 0 0 65536 65536"];
                stream.add(random.pick(&others));
                lines += 1;
            }
            stream.next();
            lines += 1;
        }
        let sizes: &[usize] = match case % 3 {
            0 => &WHOLE,
            1 => &[65_536, 1, 4096, 77],
            _ => &[13_000, 5],
        };
        let label = format!("LINTZOGER_SEED={seed}, stream {case}");
        expect(&stream.input, &stream.output, sizes, &label);
    }
    say(&format!("bench: {STREAMS} streams, {lines} lines"));
}

const STREAMS: u64 = 30;
const STREAM_LENGTH: usize = 8_000;

/// Lines that are commands but for a byte or two.
#[test]
fn damaged_lines() {
    let seed = seed();
    let mut random = Random::for_case(seed, 1503, 0);
    let mut stream = Stream::new(600, Random::for_case(seed, 1502, 0));
    let bytes = b" 0123456789IRPSCE?\r\t\0-+.x\xff";
    let mut input = Vec::new();
    for _ in 0..60_000 {
        let mut line = line(&stream.next(&[], true)).into_bytes();
        line.pop();
        for _ in 0..random.pick(&[0, 1, 1, 2]) {
            let at = random.between(0, line.len() as u32) as usize;
            match random.between(0, 2) {
                0 => line.insert(at, random.pick(bytes)),
                1 if at < line.len() => line[at] = random.pick(bytes),
                2 if at < line.len() => drop(line.remove(at)),
                _ => {}
            }
        }
        input.extend(line);
        input.push(b'\n');
    }
    compare(&input, &WHOLE, &format!("LINTZOGER_SEED={seed}"));
}

/// Windows of every size on one index.
#[test]
fn windows() {
    let seed = seed();
    let mut random = Random::for_case(seed, 1504, 0);
    let mut input = String::new();
    for tag in 0..300 {
        let cell = [0, 1].map(|_| random.between(0, 400));
        input += &line(&Command::Insert(cell, tag));
    }
    for _ in 0..5_000 {
        let [llx, lly] = [0, 1].map(|_| random.between(0, 410));
        let [urx, ury] = [0, 1].map(|_| random.between(0, 410));
        input += &line(&Command::Window(Rectangle::new(llx, lly, urx, ury), 0));
    }
    compare(input.as_bytes(), &WHOLE, &format!("LINTZOGER_SEED={seed}"));
}
