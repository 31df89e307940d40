//! The proved line program as a process: the paper's sample, other lines of every shape, and
//! streaming.

mod support;

use reference::proved_bench::program;
use std::fs;
use std::path::Path;
use support::compared::{compare, printed, printed_in_parts, WHOLE};
use support::lines::{answers, SAMPLE_INPUT, SAMPLE_OUTPUT};
use support::program::{check_answers_at_once, Open};
use support::tables::{
    check_ends, check_long_lines, check_other_lines, check_sample, check_session, CELLS_GAINED,
    FIELDS, G10, MANY_CELLS, REFUSALS,
};

#[test]
fn sample() {
    check_sample(printed_in_parts);
}

/// The input and output that are stored with the program: the second implementation gives the same.
#[test]
fn stored_session() {
    let folder = Path::new(env!("CARGO_MANIFEST_DIR")).join("../crates/bench");
    let input = fs::read(folder.join("stdin")).expect("crates/bench/stdin");
    let output = fs::read_to_string(folder.join("stdout")).expect("crates/bench/stdout");
    assert!(input.starts_with(SAMPLE_INPUT.as_bytes()));
    assert!(output.starts_with(SAMPLE_OUTPUT));
    let gained: String = CELLS_GAINED.map(|(line, _)| format!("{line}\n")).concat();
    let has_gained = input
        .windows(gained.len())
        .any(|part| part == gained.as_bytes());
    assert!(
        has_gained,
        "step 2 by area alone would give the same output"
    );
    assert_eq!(answers(&input), output);
    assert_eq!(printed(&input), output);
}

#[test]
fn ends_of_the_input() {
    check_ends(printed_in_parts);
}

#[test]
fn other_lines() {
    check_other_lines(printed_in_parts);
}

/// Every byte as the only one of a line, as a letter, after a letter, in a field and after a field.
#[test]
fn every_byte() {
    let mut input = Vec::new();
    for byte in 0..=255 {
        for line in [
            vec![byte],
            [&[byte][..], b" 1 2 3"].concat(),
            [&[byte][..], b" 1 2"].concat(),
            [&[byte][..], b" 1 2 3 4"].concat(),
            [b"C", &[byte][..]].concat(),
            [b"I", &[byte][..], b"1 2 3"].concat(),
            [b"I 1", &[byte][..], b"2 3"].concat(),
            [b"I 1 ", &[byte][..], b" 3"].concat(),
            [b"P 1 2", &[byte][..]].concat(),
            [b"R 1 ", &[byte][..], b"2"].concat(),
        ] {
            input.extend(line);
            input.push(b'\n');
        }
    }
    compare(&input, &WHOLE, "every byte");
}

/// Lines that end with CR LF are other lines.
#[test]
fn carriage_returns() {
    let input = SAMPLE_INPUT.replace('\n', "\r\n");
    assert_eq!(
        printed(input.as_bytes()),
        "?\n".repeat(SAMPLE_INPUT.lines().count())
    );
    let mixed = "I 1 2 3\r\nI 1 2 3\nP 1 2\r\n\r\nP 1 2\nC\r";
    assert_eq!(printed(mixed.as_bytes()), "?\nI 0 1 0\n?\n?\nP 1 1 3\n?\n");
}

#[test]
fn fields() {
    check_session(&FIELDS, printed_in_parts);
}

#[test]
fn refusals() {
    check_session(&REFUSALS, printed_in_parts);
}

#[test]
fn cells_gained() {
    check_session(&CELLS_GAINED, printed_in_parts);
}

#[test]
fn cells_removed() {
    check_session(&G10, printed_in_parts);
    check_session(&MANY_CELLS, printed_in_parts);
}

#[test]
fn long_lines() {
    check_long_lines(printed_in_parts);
}

/// Commands, the longest among them, followed by up to 160 bytes more: other lines, but for zeros
/// that make a field longer within its ten digits.
#[test]
fn commands_followed_by_more() {
    let longest = "S 0000000001 0000000002 0000000003 0000000004";
    let mut input = Vec::new();
    for command in ["C", "I 1 2 3", "R 1 2", "P 1 2", "S 0 0 9 9", longest] {
        for byte in [b' ', b'0', b'x', b'\r', 0] {
            for count in 0..=160 {
                input.extend(command.as_bytes());
                input.extend(vec![byte; count]);
                input.push(b'\n');
            }
        }
    }
    compare(&input, &WHOLE, "commands followed by more");
}

/// Commands at the places where a read of a power of two ends, from one byte before to one after.
#[test]
fn lines_across_reads() {
    for end in [512, 1024, 4096, 8192, 16_384, 32_768, 65_536, 131_072] {
        for shift in 0..12 {
            let mut input = b"I 12 34 56\n".to_vec();
            while input.len() + 81 < end - shift {
                input.extend(vec![b'x'; 80]);
                input.push(b'\n');
            }
            let rest = end - shift - input.len();
            input.extend(vec![b'y'; rest - 1]);
            input.push(b'\n');
            input.extend(b"P 12 34\nI 12 34 5\n");
            compare(&input, &WHOLE, &format!("end {end}, shift {shift}"));
        }
    }
}

/// The program answers each line while its standard input stays open.
#[test]
fn answers_at_once() {
    check_answers_at_once(&program());
}

/// The sample split at every byte: the answers to all complete lines come before the rest is sent.
#[test]
fn split_at_every_byte() {
    let lines_after = |input: &str| answers(input.as_bytes()).lines().count();
    for at in 0..=SAMPLE_INPUT.len() {
        let (first, rest) = SAMPLE_INPUT.split_at(at);
        let complete = first.rfind('\n').map_or("", |end| &first[..=end]);
        let mut program = Open::start(&program());
        program.write(first.as_bytes());
        let mut output: Vec<String> = (0..lines_after(complete)).map(|_| program.line()).collect();
        program.expect_no_line();
        program.write(rest.as_bytes());
        output.extend(program.close());
        assert_eq!(output, SAMPLE_OUTPUT.lines().collect::<Vec<_>>(), "at {at}");
    }
}

/// A line over 80 bytes that is not yet ended has no answer; its end has one.
#[test]
fn long_line_in_parts() {
    let mut program = Open::start(&program());
    program.write(b"I 1 2 3\n");
    assert_eq!(program.line(), "I 0 1 0");
    for _ in 0..50 {
        program.write(&[b'z'; 5000]);
    }
    program.expect_no_line();
    program.write(b"\nP 1");
    assert_eq!(program.line(), "?");
    program.write(b" 2\n");
    assert_eq!(program.line(), "P 1 1 3");
    assert!(program.close().is_empty());
}
