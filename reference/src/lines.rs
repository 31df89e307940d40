//! The line program `bench`: commands read from lines, answers written as lines.

mod answer;
mod command;

pub use answer::Bench;
pub use command::{read_command, Command};

use std::io::{self, ErrorKind, Read, Write};

/// 'Lines over 80 bytes' are other lines, whatever they hold.
const LINE_LIMIT: usize = 80;

/// The bytes asked for in one read.
const READ_LENGTH: usize = 4096;

/// Puts lines together from parts of the input. Of a line over the limit it keeps one byte more
/// than the limit, so that a line of any length can pass.
#[derive(Default)]
struct LineBuffer {
    bytes: Vec<u8>,
}

impl LineBuffer {
    /// Takes a byte; returns the line that it ends, without the LF.
    fn take(&mut self, byte: u8) -> Option<Vec<u8>> {
        if byte == b'\n' {
            return Some(std::mem::take(&mut self.bytes));
        }
        if self.bytes.len() <= LINE_LIMIT {
            self.bytes.push(byte);
        }
        None
    }

    /// 'LF ends a line, the last may lack it': what follows the last LF, if it has a byte.
    fn last(self) -> Option<Vec<u8>> {
        Some(self.bytes).filter(|bytes| !bytes.is_empty())
    }
}

/// Answers all lines of the input. The answers to complete lines are written out before the next
/// read.
pub fn run(input: &mut impl Read, output: &mut impl Write) -> io::Result<()> {
    let mut bench = Bench::default();
    let mut buffer = LineBuffer::default();
    let mut bytes = [0; READ_LENGTH];
    loop {
        let count = match input.read(&mut bytes) {
            Ok(count) => count,
            Err(error) if error.kind() == ErrorKind::Interrupted => continue,
            Err(error) => return Err(error),
        };
        for &byte in &bytes[..count] {
            if let Some(line) = buffer.take(byte) {
                output.write_all(bench.answer(&line).as_bytes())?;
            }
        }
        if count == 0 {
            break;
        }
        output.flush()?;
    }
    if let Some(line) = buffer.last() {
        output.write_all(bench.answer(&line).as_bytes())?;
    }
    output.flush()
}
