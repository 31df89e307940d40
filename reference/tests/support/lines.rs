//! What the tests of the line program share.

use super::checked::Command;
use reference::geometry::Rectangle;
use reference::lines::run;

/// The paper's sample.
pub const SAMPLE_INPUT: &str = "\
I 10 10 7
I 20 12 9
P 20 12
P 15 11
I 10 10 8
S 10 10 20 13
R 10 10
C
P 20 12
";

pub const SAMPLE_OUTPUT: &str = "\
I 0 1 0
I 0 2 0
P 1 1 9
P 0 1
I ! 5
S 1 1
E 10 10 7
R 0 1
C 0 0
P 0 0
";

/// The second implementation's answers.
pub fn answers(input: &[u8]) -> String {
    let mut output = Vec::new();
    run(&mut &input[..], &mut output).expect("no error in memory");
    String::from_utf8(output).expect("answers are text")
}

/// The line of a command, with its LF. The length of a window's list is not part of it.
pub fn line(command: &Command) -> String {
    match *command {
        Command::Insert([x, y], tag) => format!("I {x} {y} {tag}\n"),
        Command::Remove([x, y]) => format!("R {x} {y}\n"),
        Command::Point([x, y]) => format!("P {x} {y}\n"),
        Command::Window(Rectangle { ll, ur }, _) => {
            format!("S {} {} {} {}\n", ll[0], ll[1], ur[0], ur[1])
        }
        Command::Clear => "C\n".to_string(),
    }
}

/// Lines that are no commands.
pub const OTHER_LINES: [&[u8]; 61] = [
    b"",
    b" ",
    b"?",
    b"I",
    b"R",
    b"P",
    b"S",
    b"E",
    b"X",
    b"c",
    b"CC",
    b"C ",
    b"C 1",
    b"C\r",
    b"C\0",
    b"C\t",
    b" C",
    b"\0C",
    b"\xef\xbb\xbfC",
    b"I 1 2",
    b"I 1 2 ",
    b"I 1 2 3 ",
    b"I 1 2 3 4",
    b"I  1 2 3",
    b"I 1  2 3",
    b"I 1 2  3",
    b" I 1 2 3",
    b"I\t1 2 3",
    b"I 1\t2 3",
    b"I 1 2 3\r",
    b"I 1 2 3\t",
    b"I 1 2 3\0",
    b"I 1 2\x003",
    b"i 1 2 3",
    b"I1 2 3",
    b"I,1,2,3",
    b"I 1 2 x",
    b"I 1 2 0x3",
    b"I -1 2 3",
    b"I +1 2 3",
    b"I 1.0 2 3",
    b"I 1e1 2 3",
    b"I 1_0 2 3",
    b"I 12345678901 2 3",
    b"I 00000000001 2 3",
    b"I 4294967296 2 3",
    b"I 1 9999999999 3",
    b"I 1 2 4294967296",
    b"I 1 2 \xd9\xa3",
    b"I 1 2 \xff",
    b"R 1",
    b"R 1 ",
    b"R 1 2 3",
    b"P 1",
    b"P 1 2 ",
    b"P 1 2 3",
    b"S 1 2 3",
    b"S 1 2 3 4 5",
    b"S 1 2 3 ",
    b"E 1 2 3",
    b"I 1 2 3 I 1 2 3",
];
