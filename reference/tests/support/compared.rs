//! What the proved line program prints, compared byte by byte.

use super::lines::answers;
use super::program::output_of;
use reference::proved_bench::program;
use std::fs;
use std::path::Path;
use std::thread;

/// All input in one part.
pub const WHOLE: [usize; 1] = [usize::MAX];

pub fn printed(input: &[u8]) -> String {
    printed_in_parts(input, &WHOLE)
}

pub fn printed_in_parts(input: &[u8], sizes: &[usize]) -> String {
    let output = output_of(&program(), input, sizes);
    String::from_utf8(output).expect("answers are text")
}

/// The program prints what the second implementation prints.
pub fn compare(input: &[u8], sizes: &[usize], label: &str) {
    expect(input, &answers(input), sizes, label);
}

/// The program prints this. Where it does not, the first line that differs is shown, and the input is
/// kept.
pub fn expect(input: &[u8], expected: &str, sizes: &[usize], label: &str) {
    let given = printed_in_parts(input, sizes);
    if given == expected {
        return;
    }
    let mut pairs = given.lines().zip(expected.lines());
    let at = pairs.position(|(a, b)| a != b);
    let at = at.unwrap_or(given.lines().count().min(expected.lines().count()));
    let test = thread::current().name().unwrap_or("test").to_string();
    let file = Path::new(env!("CARGO_TARGET_TMPDIR")).join(format!("input of {test}"));
    fs::write(&file, input).expect("the input can be kept");
    panic!(
        "{label}: answer {at} is {:?}, not {:?}; the input is in {}",
        given.lines().nth(at),
        expected.lines().nth(at),
        file.display()
    );
}
