//! The index of the line program and its answers.

use super::{read_command, Command};
use crate::tree::{Index, InsertAnswer, PointAnswer, Refusal, WindowAnswer};

/// `bench` has N = 64.
const BENCH_N: usize = 64;

/// 'A result list for all 512 entries': x, y, tag for each.
const RESULT_LENGTH: usize = 3 * 512;

/// The index and its result list.
pub struct Bench {
    index: Index,
    result: Vec<u32>,
}

impl Default for Bench {
    fn default() -> Bench {
        Bench {
            index: Index::new(BENCH_N),
            result: vec![0; RESULT_LENGTH],
        }
    }
}

impl Bench {
    /// The answer to one line without its LF; it ends with LF.
    pub fn answer(&mut self, line: &[u8]) -> String {
        match read_command(line) {
            None => "?\n".to_string(),
            Some(Command::Insert { cell, tag }) => insert_line(self.index.insert(cell, tag)),
            Some(Command::Remove { cell }) => held_line('R', self.index.remove(cell)),
            Some(Command::Point { cell }) => point_line(self.index.point(cell)),
            Some(Command::Window { window }) => {
                let answer = self.index.window(window, &mut self.result);
                window_lines(answer, &self.result)
            }
            Some(Command::Clear) => held_line('C', Ok(self.index.clear())),
        }
    }
}

/// 'A refusal prints the letter, `!`, the number.'
fn refusal_line(letter: char, refusal: Refusal) -> String {
    format!("{letter} ! {}\n", refusal.number())
}

/// 'I, R and C print 0 and entries held'; after it an accepted I prints the total of cells removed.
fn insert_line(answer: Result<InsertAnswer, Refusal>) -> String {
    match answer {
        Ok(InsertAnswer { held, removed }) => format!("I 0 {held} {removed}\n"),
        Err(refusal) => refusal_line('I', refusal),
    }
}

/// R and C print 0 and entries held.
fn held_line(letter: char, answer: Result<usize, Refusal>) -> String {
    match answer {
        Ok(held) => format!("{letter} 0 {held}\n"),
        Err(refusal) => refusal_line(letter, refusal),
    }
}

/// 'P prints 1 or 0, visits, then the tag if held.'
fn point_line(answer: Result<PointAnswer, Refusal>) -> String {
    match answer {
        Ok(PointAnswer {
            tag: Some(tag),
            visits,
        }) => format!("P 1 {visits} {tag}\n"),
        Ok(PointAnswer { tag: None, visits }) => format!("P 0 {visits}\n"),
        Err(refusal) => refusal_line('P', refusal),
    }
}

/// 'S prints matches and visits, then an E line per entry: x, y, tag.'
fn window_lines(answer: Result<WindowAnswer, Refusal>, result: &[u32]) -> String {
    match answer {
        Ok(WindowAnswer { matches, visits }) => {
            let mut lines = format!("S {matches} {visits}\n");
            for entry in result.chunks(3).take(matches) {
                lines += &format!("E {} {} {}\n", entry[0], entry[1], entry[2]);
            }
            lines
        }
        Err(refusal) => refusal_line('S', refusal),
    }
}
