//! The lines of `bench` in the second implementation: the paper's sample, other lines of every
//! shape, and streaming.

mod support;

use reference::lines::{read_command, run, Command};
use std::cell::RefCell;
use std::io::{self, ErrorKind, Read, Write};
use std::iter::Cycle;
use std::path::Path;
use std::rc::Rc;
use std::slice::Iter;
use support::lines::{answers, OTHER_LINES, SAMPLE_INPUT, SAMPLE_OUTPUT};
use support::program::check_answers_at_once;
use support::tables::{
    check_ends, check_long_lines, check_other_lines, check_sample, check_session, CELLS_GAINED,
    FIELDS, G10, MANY_CELLS, REFUSALS,
};

/// Gives the input in parts of these sizes, again and again, with an interruption before each.
struct Parts<'a> {
    input: &'a [u8],
    sizes: Cycle<Iter<'a, usize>>,
    interrupted: bool,
}

impl Read for Parts<'_> {
    fn read(&mut self, bytes: &mut [u8]) -> io::Result<usize> {
        self.interrupted = !self.interrupted;
        if self.interrupted {
            return Err(ErrorKind::Interrupted.into());
        }
        let size = *self.sizes.next().expect("a size");
        let count = size.min(self.input.len()).min(bytes.len());
        bytes[..count].copy_from_slice(&self.input[..count]);
        self.input = &self.input[count..];
        Ok(count)
    }
}

fn answers_in_parts(input: &[u8], sizes: &[usize]) -> String {
    let mut parts = Parts {
        input,
        sizes: sizes.iter().cycle(),
        interrupted: false,
    };
    let mut output = Vec::new();
    run(&mut parts, &mut output).expect("no error in memory");
    String::from_utf8(output).expect("answers are text")
}

#[test]
fn sample() {
    assert_eq!(answers(SAMPLE_INPUT.as_bytes()), SAMPLE_OUTPUT);
    check_sample(answers_in_parts);
}

#[test]
fn other_lines() {
    for line in OTHER_LINES {
        assert_eq!(read_command(line), None, "{}", line.escape_ascii());
    }
    check_other_lines(answers_in_parts);
}

#[test]
fn fields() {
    let cell = [1, 22];
    let commands: [(&[u8], Command); 5] = [
        (
            b"I 1 22 4294967295",
            Command::Insert {
                cell,
                tag: u32::MAX,
            },
        ),
        (b"I 0000000001 00022 0", Command::Insert { cell, tag: 0 }),
        (b"R 1 22", Command::Remove { cell }),
        (b"P 1 0000000022", Command::Point { cell }),
        (b"C", Command::Clear),
    ];
    for (line, command) in commands {
        assert_eq!(read_command(line), Some(command), "{}", line.escape_ascii());
    }
    let window = reference::geometry::Rectangle::new(1, 2, 65536, 4294967295);
    let line = b"S 1 2 65536 4294967295";
    assert_eq!(read_command(line), Some(Command::Window { window }));
    check_session(&FIELDS, answers_in_parts);
}

#[test]
fn ends_of_the_input() {
    check_ends(answers_in_parts);
}

#[test]
fn long_lines() {
    check_long_lines(answers_in_parts);
}

#[test]
fn refusals() {
    check_session(&REFUSALS, answers_in_parts);
}

#[test]
fn cells_gained() {
    check_session(&CELLS_GAINED, answers_in_parts);
}

#[test]
fn cells_removed() {
    check_session(&G10, answers_in_parts);
    check_session(&MANY_CELLS, answers_in_parts);
}

/// 'N = 64, a result list for all 512 entries': a full index is printed, the next is refused 8.
#[test]
fn full_index() {
    let inserts: String = (0..600).map(|i| format!("I {} 7 {i}\n", 3 * i)).collect();
    let output = answers(format!("{inserts}S 0 0 65536 65536\n").as_bytes());
    let lines: Vec<&str> = output.lines().collect();
    let accepted = lines.iter().filter(|l| l.starts_with("I 0 ")).count();
    assert_eq!(lines[accepted - 1], format!("I 0 {accepted} 0"));
    assert!(lines[accepted..600].iter().all(|&l| l == "I ! 8"));
    assert!(accepted > 100 && accepted <= 448, "{accepted} accepted");
    assert!(lines[600].starts_with(&format!("S {accepted} ")));
    let entries = &lines[601..];
    assert_eq!(entries.len(), accepted);
    let expected = |i: usize| format!("E {} 7 {i}", 3 * i);
    assert!((0..accepted).all(|i| entries.contains(&expected(i).as_str())));
}

/// What was written and flushed when a read asked for more.
#[derive(Default)]
struct Seen {
    written: Vec<u8>,
    flushed: usize,
}

struct Asking {
    lines: Vec<&'static str>,
    expected: Vec<&'static str>,
    seen: Rc<RefCell<Seen>>,
}

impl Read for Asking {
    fn read(&mut self, bytes: &mut [u8]) -> io::Result<usize> {
        let seen = self.seen.borrow();
        let flushed = &seen.written[..seen.flushed];
        assert_eq!(flushed, self.expected.remove(0).as_bytes());
        let Some(line) = self.lines.pop() else {
            return Ok(0);
        };
        bytes[..line.len()].copy_from_slice(line.as_bytes());
        Ok(line.len())
    }
}

struct Written(Rc<RefCell<Seen>>);

impl Write for Written {
    fn write(&mut self, bytes: &[u8]) -> io::Result<usize> {
        self.0.borrow_mut().written.extend(bytes);
        Ok(bytes.len())
    }

    fn flush(&mut self) -> io::Result<()> {
        let mut seen = self.0.borrow_mut();
        seen.flushed = seen.written.len();
        Ok(())
    }
}

/// Before each read the answers to all complete lines are out.
#[test]
fn answers_before_the_next_read() {
    let seen = Rc::new(RefCell::new(Seen::default()));
    let mut asking = Asking {
        lines: vec![" 2", "P 1", "3\nI 1 2 4\n", "I 1 2 "],
        expected: vec![
            "",
            "",
            "I 0 1 0\nI ! 5\n",
            "I 0 1 0\nI ! 5\n",
            "I 0 1 0\nI ! 5\n",
        ],
        seen: Rc::clone(&seen),
    };
    run(&mut asking, &mut Written(Rc::clone(&seen))).expect("no error");
    assert_eq!(asking.expected.len(), 0);
    let seen = seen.borrow();
    assert_eq!(seen.written, b"I 0 1 0\nI ! 5\nP 1 1 3\n");
    assert_eq!(seen.flushed, seen.written.len());
}

/// The program answers each line while its standard input stays open.
#[test]
fn program_answers_at_once() {
    let program = Path::new(env!("CARGO_BIN_EXE_bench_reference"));
    check_answers_at_once(program);
}
