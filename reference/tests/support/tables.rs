//! Inputs of the line program with what document 01 says it prints. The second implementation and
//! the proved program are held to the same tables. `print` gives what a program prints for an input
//! that comes in parts of these sizes, again and again.

use super::compared::WHOLE;
use super::lines::{OTHER_LINES, SAMPLE_INPUT, SAMPLE_OUTPUT};

/// A line and its answer, both without the last LF.
type Row = (&'static str, &'static str);

/// Fields of every length and size, in one session.
pub const FIELDS: [Row; 15] = [
    ("I 0000000001 0000065535 4294967295", "I 0 1 0"),
    ("P 1 65535", "P 1 1 4294967295"),
    ("P 00001 065535", "P 1 1 4294967295"),
    ("I 4294967295 0 1", "I ! 3"),
    ("I 0 4294967295 1", "I ! 3"),
    ("R 4294967295 0", "R ! 3"),
    ("P 0 4294967295", "P ! 3"),
    (
        "S 0000000000 0 0000065536 65536",
        "S 1 1\nE 1 65535 4294967295",
    ),
    ("S 0 0 4294967295 4294967295", "S ! 3"),
    ("I 1 2 4294967296", "?"),
    ("I 00000000001 2 3", "?"),
    ("I 1 2 0", "I 0 2 0"),
    ("I 2 1 00", "I 0 3 0"),
    ("P 2 1", "P 1 1 0"),
    ("R 0000000001 65535", "R 0 2"),
];

/// Refusals of an empty index and of one with an entry, in one session.
pub const REFUSALS: [Row; 23] = [
    ("I 65536 0 1", "I ! 3"),
    ("I 0 65536 1", "I ! 3"),
    ("R 4294967295 0", "R ! 3"),
    ("R 0 65536", "R ! 3"),
    ("R 0 0", "R ! 6"),
    ("P 65536 0", "P ! 3"),
    ("P 65535 65535", "P 0 0"),
    ("S 0 0 65536 65536", "S 0 0"),
    ("S 1 0 1 1", "S ! 3"),
    ("S 0 2 1 1", "S ! 3"),
    ("S 5 5 4 6", "S ! 3"),
    ("S 0 0 65537 1", "S ! 3"),
    ("S 0 0 1 65537", "S ! 3"),
    ("I 3 4 5", "I 0 1 0"),
    ("I 3 4 6", "I ! 5"),
    ("R 4 3", "R ! 6"),
    ("S 3 4 3 5", "S ! 3"),
    ("S 3 4 4 4", "S ! 3"),
    ("S 4 4 3 5", "S ! 3"),
    ("S 0 0 65537 1", "S ! 3"),
    ("S 0 0 1 65537", "S ! 3"),
    ("S 3 4 4 5", "S 1 1\nE 3 4 5"),
    ("R 3 4", "R 0 0"),
];

/// The worked stream of document 02's requests A.2 and A.6. Step 2 by area alone would have two
/// visits of (0, 6), and no cell would be removed for (0, 3).
pub const CELLS_GAINED: [Row; 15] = [
    ("I 3 5 1", "I 0 1 0"),
    ("I 6 3 1", "I 0 2 0"),
    ("I 2 4 1", "I 0 3 0"),
    ("I 2 6 1", "I 0 4 0"),
    ("I 2 3 1", "I 0 5 0"),
    ("I 5 4 1", "I 0 6 0"),
    ("I 6 5 1", "I 0 7 0"),
    ("I 4 4 1", "I 0 8 0"),
    ("I 5 5 1", "I 0 9 0"),
    ("I 1 1 1", "I 0 10 0"),
    ("I 4 1 1", "I 0 11 4"),
    ("I 0 3 1", "I 0 12 1"),
    ("P 0 6", "P 0 1"),
    ("P 0 1", "P 0 2"),
    (
        "S 0 0 10 10",
        "S 12 3\n\
         E 3 5 1\n\
         E 2 4 1\n\
         E 2 6 1\n\
         E 2 3 1\n\
         E 1 1 1\n\
         E 4 1 1\n\
         E 0 3 1\n\
         E 6 3 1\n\
         E 5 4 1\n\
         E 6 5 1\n\
         E 4 4 1\n\
         E 5 5 1",
    ),
];

/// G10: the ninth cell splits the leaf, and the next two make leaves grow past no sibling.
pub const G10: [Row; 12] = [
    ("I 0 5 0", "I 0 1 0"),
    ("I 1 5 1", "I 0 2 0"),
    ("I 2 5 2", "I 0 3 0"),
    ("I 3 5 3", "I 0 4 0"),
    ("I 4 5 4", "I 0 5 0"),
    ("I 5 5 5", "I 0 6 0"),
    ("I 6 5 6", "I 0 7 0"),
    ("I 7 5 7", "I 0 8 0"),
    ("I 8 5 8", "I 0 9 0"),
    ("I 9 9 1", "I 0 10 0"),
    ("I 3 6 1", "I 0 11 0"),
    (
        "S 0 0 65536 65536",
        "S 11 3\n\
         E 0 5 0\n\
         E 1 5 1\n\
         E 2 5 2\n\
         E 3 5 3\n\
         E 4 5 4\n\
         E 3 6 1\n\
         E 5 5 5\n\
         E 6 5 6\n\
         E 7 5 7\n\
         E 8 5 8\n\
         E 9 9 1",
    ),
];

/// A total of ten digits. The leaf is split in y, at 3855; the upper half grows to
/// (0,3855)-(65536,34693). Then the lower one, which is half as wide, grows up to the grid's last
/// row, past all 30838 rows of the upper one.
pub const MANY_CELLS: [Row; 12] = [
    ("I 0 0 1", "I 0 1 0"),
    ("I 32767 0 2", "I 0 2 0"),
    ("I 16380 0 3", "I 0 3 0"),
    ("I 16381 0 4", "I 0 4 0"),
    ("I 16382 0 5", "I 0 5 0"),
    ("I 16383 0 6", "I 0 6 0"),
    ("I 16384 0 7", "I 0 7 0"),
    ("I 16385 0 8", "I 0 8 0"),
    ("I 16386 34692 9", "I 0 9 0"),
    ("I 65535 34692 10", "I 0 10 0"),
    ("I 0 65535 11", "I 0 11 1010499584"),
    ("I 0 65535 12", "I ! 5"),
];

/// The rows one after another.
pub fn check_session(rows: &[Row], print: impl Fn(&[u8], &[usize]) -> String) {
    let lines = |text: &[&str]| text.iter().map(|t| format!("{t}\n")).collect::<String>();
    let (input, output): (Vec<&str>, Vec<&str>) = rows.iter().copied().unzip();
    assert_eq!(print(lines(&input).as_bytes(), &WHOLE), lines(&output));
}

/// The paper's sample, in parts and without the last LF.
pub fn check_sample(print: impl Fn(&[u8], &[usize]) -> String) {
    assert_eq!(print(SAMPLE_INPUT.as_bytes(), &WHOLE), SAMPLE_OUTPUT);
    let without_last_lf = SAMPLE_INPUT.trim_end().as_bytes();
    assert_eq!(print(without_last_lf, &WHOLE), SAMPLE_OUTPUT);
    for size in 1..100 {
        let output = print(SAMPLE_INPUT.as_bytes(), &[size]);
        assert_eq!(output, SAMPLE_OUTPUT, "parts of {size}");
    }
}

/// 'LF ends a line, the last may lack it.'
pub fn check_ends(print: impl Fn(&[u8], &[usize]) -> String) {
    for (input, output) in [
        ("", ""),
        ("\n", "?\n"),
        ("\n\n", "?\n?\n"),
        ("C\n", "C 0 0\n"),
        ("C", "C 0 0\n"),
        ("C\nC", "C 0 0\nC 0 0\n"),
        ("C\nX", "C 0 0\n?\n"),
    ] {
        assert_eq!(print(input.as_bytes(), &WHOLE), output, "{input:?}");
    }
}

/// Each line that is no command: alone, as the last one without LF, and all of them among commands.
pub fn check_other_lines(print: impl Fn(&[u8], &[usize]) -> String) {
    let (mut among, mut expected) = (Vec::new(), String::new());
    for line in OTHER_LINES {
        let text = line.escape_ascii();
        let alone = [line, b"\n"].concat();
        assert_eq!(print(&alone, &WHOLE), "?\n", "{text}");
        let last = [b"C\n", line].concat();
        let answer = if line.is_empty() { "" } else { "?\n" };
        assert_eq!(print(&last, &WHOLE), format!("C 0 0\n{answer}"), "{text}");
        among.extend([b"I 5 6 7\n", line, b"\nP 5 6\nC\n"].concat());
        expected += "I 0 1 0\n?\nP 1 1 7\nC 0 0\n";
    }
    assert_eq!(print(&among, &WHOLE), expected);
}

/// Lengths of a line around the limit, around powers of two, and far beyond.
const LONG: [usize; 15] = [
    79, 80, 81, 82, 160, 161, 4095, 4096, 4097, 65_535, 65_536, 65_537, 131_072, 300_000, 3_000_000,
];

/// A line over 80 bytes gives one answer, however long it is and however it is read.
pub fn check_long_lines(print: impl Fn(&[u8], &[usize]) -> String) {
    for length in LONG {
        for byte in [b'C', b'1', b' ', 0] {
            let long = vec![byte; length];
            let input = [b"I 1 2 3\n", &long[..], b"\nP 1 2\n", &long[..]].concat();
            for sizes in [&WHOLE[..], &[1000, 1, 80]] {
                let label = format!("{length} bytes of {byte}, parts of {sizes:?}");
                let output = print(&input, sizes);
                assert_eq!(output, "I 0 1 0\n?\nP 1 1 3\n?\n", "{label}");
            }
        }
    }
    // A command followed by too much is no command, also where a line of 80 bytes ends with one.
    let padded = format!("{:0>80}\nC{:>90}\nI 1 2 3\n", "C", "");
    assert_eq!(print(padded.as_bytes(), &WHOLE), "?\n?\nI 0 1 0\n");
    let zeros = format!("{:\0<81}", "I 1 2 3");
    assert_eq!(print(zeros.as_bytes(), &WHOLE), "?\n");
}
