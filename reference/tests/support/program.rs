//! The line program as a process with pipes.

use super::lines::{SAMPLE_INPUT, SAMPLE_OUTPUT};
use std::io::{BufRead, BufReader, Read, Write};
use std::path::Path;
use std::process::{Child, ChildStdin, Command, Stdio};
use std::sync::mpsc::{channel, Receiver};
use std::thread;
use std::time::Duration;

/// How long an answer may take that does not wait for more input.
const PATIENCE: Duration = Duration::from_secs(20);

fn start(program: &Path) -> Child {
    Command::new(program)
        .stdin(Stdio::piped())
        .stdout(Stdio::piped())
        .stderr(Stdio::piped())
        .spawn()
        .expect("the program starts")
}

/// The program ends with success and prints no error.
fn check_end(mut program: Child) {
    let status = program.wait().expect("the program ends");
    assert!(status.success(), "the program ends with {status}");
    let mut errors = String::new();
    let stderr = program.stderr.as_mut().expect("a pipe");
    stderr.read_to_string(&mut errors).expect("errors are text");
    assert_eq!(errors, "");
}

/// What the program prints for the input, which is written in parts of these sizes, again and again.
pub fn output_of(program: &Path, input: &[u8], sizes: &[usize]) -> Vec<u8> {
    let mut child = start(program);
    let mut stdin = child.stdin.take().expect("a pipe");
    let (input, sizes) = (input.to_vec(), sizes.to_vec());
    let writer = thread::spawn(move || {
        let mut rest = &input[..];
        for &size in sizes.iter().cycle() {
            if rest.is_empty() {
                break;
            }
            let (part, others) = rest.split_at(size.min(rest.len()));
            stdin.write_all(part).expect("the program reads");
            rest = others;
        }
    });
    let mut output = Vec::new();
    let stdout = child.stdout.as_mut().expect("a pipe");
    stdout.read_to_end(&mut output).expect("the program writes");
    writer.join().expect("all was written");
    check_end(child);
    output
}

/// A program whose standard input stays open.
pub struct Open {
    program: Child,
    input: Option<ChildStdin>,
    lines: Receiver<String>,
}

impl Open {
    pub fn start(program: &Path) -> Open {
        let mut program = start(program);
        let output = program.stdout.take().expect("a pipe");
        let (sender, lines) = channel();
        thread::spawn(move || {
            for line in BufReader::new(output).lines() {
                let line = line.expect("answers are text");
                if sender.send(line).is_err() {
                    break;
                }
            }
        });
        Open {
            input: program.stdin.take(),
            program,
            lines,
        }
    }

    /// Writes the bytes in one write.
    pub fn write(&mut self, bytes: &[u8]) {
        let input = self.input.as_mut().expect("the input is open");
        input.write_all(bytes).expect("the program reads");
    }

    /// The next line that it prints, while its input is open.
    pub fn line(&self) -> String {
        let line = self.lines.recv_timeout(PATIENCE);
        line.expect("an answer while the input is open")
    }

    /// It has printed no other line, as far as can be seen at once.
    pub fn expect_no_line(&self) {
        assert_eq!(self.lines.try_recv().ok(), None);
    }

    /// Closes the input; returns the lines that it prints until it ends.
    pub fn close(mut self) -> Vec<String> {
        drop(self.input.take());
        let rest = self.lines.iter().collect();
        check_end(self.program);
        rest
    }
}

/// The program answers each line of the paper's sample while its standard input stays open.
pub fn check_answers_at_once(program: &Path) {
    let mut program = Open::start(program);
    let mut expected = SAMPLE_OUTPUT.lines();
    for line in SAMPLE_INPUT.lines() {
        program.write(format!("{line}\n").as_bytes());
        let count = if line.starts_with('S') { 2 } else { 1 };
        for _ in 0..count {
            assert_eq!(Some(program.line().as_str()), expected.next());
        }
    }
    program.write(b"P 1 1");
    assert_eq!(program.close(), ["P 0 0"]);
}
