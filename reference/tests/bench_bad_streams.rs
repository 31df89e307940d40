//! The proved line program on streams that fail, are closed or do not wait: each answer arrives, or
//! a line on standard error says why not.

mod support;

use reference::proved_bench::program;
use std::fs::{File, OpenOptions};
use std::io::{pipe, BufRead, BufReader, PipeReader, PipeWriter, Read, Write};
use std::os::fd::{AsRawFd, RawFd};
use std::os::unix::process::CommandExt;
use std::process::{Child, Command, ExitStatus, Stdio};
use std::sync::{Mutex, MutexGuard, PoisonError};
use std::thread::{self, JoinHandle};
use std::time::{Duration, Instant};
use support::lines::{answers, SAMPLE_INPUT, SAMPLE_OUTPUT};

/// How long the program may take to its end; it takes far less.
const PATIENCE: Duration = Duration::from_secs(60);

/// Long enough, as a rule, that the program has found a pipe empty or full.
const PAUSE: Duration = Duration::from_millis(100);
const SHORT_PAUSE: Duration = Duration::from_millis(2);

extern "C" {
    fn close(descriptor: RawFd) -> i32;
    fn fcntl(descriptor: RawFd, command: i32, ...) -> i32;
    fn signal(number: i32, action: usize) -> usize;
}

// Linux's numbers.
const F_GETFL: i32 = 3;
const F_SETFL: i32 = 4;
const O_NONBLOCK: i32 = 0o4000;
const SIGPIPE: i32 = 13;
const SIG_IGN: usize = 1;

/// From now on a read or write at this end does not wait.
fn do_not_wait(end: &impl AsRawFd) {
    let descriptor = end.as_raw_fd();
    let flags = unsafe { fcntl(descriptor, F_GETFL) };
    assert!(flags >= 0, "the pipe's flags");
    let set = unsafe { fcntl(descriptor, F_SETFL, flags | O_NONBLOCK) };
    assert_eq!(set, 0, "the pipe's flags are set");
}

/// The program; its process does this first, which may do nothing but call the system.
fn program_after(act: fn()) -> Command {
    let mut command = Command::new(program());
    unsafe {
        command.pre_exec(move || {
            act();
            Ok(())
        });
    }
    command
}

/// The program where SIGPIPE is ignored, as some parents leave it: a write to a pipe that nobody
/// reads fails.
fn program_without_signal() -> Command {
    program_after(|| unsafe {
        signal(SIGPIPE, SIG_IGN);
    })
}

/// A program that starts has a copy of each open pipe for a moment. So none starts while a pipe
/// loses its reader.
fn no_other_start() -> MutexGuard<'static, ()> {
    static STARTS: Mutex<()> = Mutex::new(());
    STARTS.lock().unwrap_or_else(PoisonError::into_inner)
}

/// A pipe that nobody reads.
fn unread() -> PipeWriter {
    let _guard = no_other_start();
    let (reader, writer) = pipe().expect("a pipe");
    drop(reader);
    writer
}

/// A pipe that holds the text and ends behind it. An empty pipe takes so much at once.
fn holding(text: &str) -> PipeReader {
    assert!(text.len() <= 4096);
    let (reader, mut writer) = pipe().expect("a pipe");
    writer.write_all(text.as_bytes()).expect("room in a pipe");
    reader
}

/// Starts the program with these streams. This side's copies are closed with the command.
fn start(mut command: Command, input: impl Into<Stdio>, output: impl Into<Stdio>) -> Child {
    command.stdin(input).stdout(output).stderr(Stdio::piped());
    let _guard = no_other_start();
    command.spawn().expect("the program starts")
}

/// What is read from the stream to its end.
fn read_all(mut stream: impl Read + Send + 'static) -> JoinHandle<String> {
    thread::spawn(move || {
        let mut text = String::new();
        stream.read_to_string(&mut text).expect("text");
        text
    })
}

/// How the program ended, and what it wrote to pipes.
struct Ended {
    status: ExitStatus,
    output: String,
    errors: String,
}

impl Ended {
    /// It printed this and no error.
    fn expect_output(&self, output: &str) {
        assert_eq!(self.errors, "");
        assert_eq!(self.output, output);
        assert!(self.status.success(), "it ends with {}", self.status);
    }

    /// It printed this line on standard error and nothing else, and ended with status 1.
    fn expect_error(&self, line: &str) {
        assert_eq!(self.errors, format!("{line}\n"));
        assert_eq!(self.output, "");
        assert_eq!(self.status.code(), Some(1), "it ends with {}", self.status);
    }
}

/// Waits for the program's end. Its standard error is a pipe, its standard output may be one.
fn wait(mut child: Child) -> Ended {
    let output = child.stdout.take().map(read_all);
    let errors = read_all(child.stderr.take().expect("a pipe"));
    let start = Instant::now();
    let status = loop {
        if let Some(status) = child.try_wait().expect("the program is there") {
            break status;
        }
        if start.elapsed() > PATIENCE {
            child.kill().expect("the program is there");
            child.wait().expect("the program ends");
            panic!("the program did not end");
        }
        thread::sleep(SHORT_PAUSE);
    };
    let text = |reader: JoinHandle<String>| reader.join().expect("text");
    Ended {
        status,
        output: output.map_or_else(String::new, text),
        errors: text(errors),
    }
}

fn run(command: Command, input: impl Into<Stdio>, output: impl Into<Stdio>) -> Ended {
    wait(start(command, input, output))
}

fn full() -> File {
    let full = OpenOptions::new().write(true).open("/dev/full");
    full.expect("/dev/full")
}

/// Inputs that have an answer: whole lines, a last line without LF behind another, and alone.
const INPUTS: [&str; 3] = [SAMPLE_INPUT, "I 1 2 3\nP 1 2", "C"];

/// Input that ends as it should: nothing on standard error.
#[test]
fn ordinary_streams() {
    for input in INPUTS.into_iter().chain(["", "\n", "no command"]) {
        let ended = run(Command::new(program()), holding(input), Stdio::piped());
        ended.expect_output(&answers(input.as_bytes()));
    }
}

#[test]
fn full_output() {
    for input in INPUTS {
        let ended = run(Command::new(program()), holding(input), full());
        ended.expect_error("bench: standard output: No space left on device");
    }
}

/// Nothing is to be written, so nothing fails.
#[test]
fn full_output_without_answers() {
    run(Command::new(program()), Stdio::null(), full()).expect_output("");
}

#[test]
fn unread_output() {
    for input in INPUTS {
        let ended = run(program_without_signal(), holding(input), unread());
        ended.expect_error("bench: standard output: Broken pipe");
    }
}

/// A command starts with the signal's usual action, though this program ignores it. Each program of
/// today's Rattle ignores it too, from its start on, so the write fails here as well.
#[test]
fn unread_output_with_signal() {
    let ended = run(Command::new(program()), holding(SAMPLE_INPUT), unread());
    ended.expect_error("bench: standard output: Broken pipe");
}

#[test]
fn closed_output() {
    for input in INPUTS {
        let command = program_after(|| unsafe {
            close(1);
        });
        let ended = run(command, holding(input), Stdio::null());
        ended.expect_error("bench: standard output: Bad file descriptor");
    }
}

#[test]
fn closed_input() {
    let command = program_after(|| unsafe {
        close(0);
    });
    let ended = run(command, Stdio::null(), Stdio::piped());
    ended.expect_error("bench: standard input: Bad file descriptor");
}

#[test]
fn folder_as_input() {
    let folder = File::open("/").expect("a folder");
    let ended = run(Command::new(program()), folder, Stdio::piped());
    ended.expect_error("bench: standard input: Is a directory");
}

/// A pipe that does not wait is empty at first, and between the parts: all lines are answered.
#[test]
fn input_that_does_not_wait() {
    for size in [1, 7, 80] {
        let (reader, mut writer) = pipe().expect("a pipe");
        do_not_wait(&reader);
        let child = start(Command::new(program()), reader, Stdio::piped());
        thread::sleep(PAUSE);
        for part in SAMPLE_INPUT.as_bytes().chunks(size) {
            writer.write_all(part).expect("the program reads");
            thread::sleep(SHORT_PAUSE);
        }
        drop(writer);
        wait(child).expect_output(SAMPLE_OUTPUT);
    }
}

/// The program with an input whose answers are far more than a pipe holds, and the answers.
fn much_output(command: Command, output: impl Into<Stdio>) -> (Child, String) {
    let inserts: String = (0..600)
        .map(|i| format!("I {} {} {i}\n", 97 * i % 1009, 31 * i % 911))
        .collect();
    let input = inserts + &"S 0 0 65536 65536\n".repeat(200) + "P 0 0";
    let expected = answers(input.as_bytes());
    assert!(expected.len() > 500_000);
    let mut child = start(command, Stdio::piped(), output);
    let mut stdin = child.stdin.take().expect("a pipe");
    // The program may end before it has read all.
    thread::spawn(move || stdin.write_all(input.as_bytes()).ok());
    (child, expected)
}

/// A pipe that does not wait is full long before all is written: every answer arrives, once and in
/// order.
#[test]
fn output_that_does_not_wait() {
    let (mut reader, writer) = pipe().expect("a pipe");
    do_not_wait(&writer);
    let (child, expected) = much_output(Command::new(program()), writer);
    let ended = thread::spawn(move || wait(child));
    thread::sleep(PAUSE);
    let mut output: Vec<u8> = Vec::new();
    let mut part = [0; 5000];
    loop {
        match reader.read(&mut part).expect("the pipe is read") {
            0 => break,
            count => output.extend(&part[..count]),
        }
        thread::sleep(SHORT_PAUSE);
    }
    ended.join().expect("the program ends").expect_output("");
    let (given, all) = (output.len(), expected.len());
    assert!(output == expected.as_bytes(), "{given} of {all} bytes");
}

/// The reader leaves after some answers: those came, and that no others do is told.
#[test]
fn output_no_longer_read() {
    let (mut child, expected) = much_output(program_without_signal(), Stdio::piped());
    let stdout = child.stdout.take().expect("a pipe");
    let lines = BufReader::new(stdout).lines().take(1000);
    let lines: Vec<String> = lines.map(|line| line.expect("text")).collect();
    assert!(lines.iter().eq(expected.lines().take(1000)));
    wait(child).expect_error("bench: standard output: Broken pipe");
}
