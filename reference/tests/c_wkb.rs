//! The example wkb in C: what it prints, its two files, and how it ends where it cannot write them.

mod c_support;

use c_support::{compile, expected, kept, source};
use std::fs;
use std::os::unix::fs::symlink;
use std::path::PathBuf;
use std::process::{Command, Output};

/// The compiled example, and an empty folder to run it in.
struct Example {
    program: PathBuf,
    folder: PathBuf,
}

impl Example {
    /// For the test of that name.
    fn new(test: &str) -> Example {
        let all = kept(&format!("wkb_{test}"));
        let _ = fs::remove_dir_all(&all);
        let (program, folder) = (all.join("wkb"), all.join("folder"));
        fs::create_dir_all(&folder).expect("a folder");
        compile(&source("wkb"), &[env!("DRAWING_ARCHIVE")], &program);
        Example { program, folder }
    }

    /// Runs it with the arguments of a line. It must end with that status, and say that on standard
    /// error.
    fn run(&self, line: &str, status: i32, message: &str) -> Output {
        let output = Command::new(&self.program)
            .args(line.split_whitespace())
            .current_dir(&self.folder)
            .output()
            .expect("the program runs");
        assert_eq!(
            String::from_utf8_lossy(&output.stderr),
            message,
            "wkb {line}"
        );
        assert_eq!(output.status.code(), Some(status), "wkb {line}");
        output
    }

    /// As `run`, and nothing is printed.
    fn fails(&self, line: &str, status: i32, message: &str) {
        let output = self.run(line, status, message);
        assert!(output.stdout.is_empty(), "wkb {line}");
    }
}

/// It prints what is stored beside it, and both files have the same bytes.
#[test]
fn two_files() {
    let example = Example::new("two_files");
    let output = example.run("cross 4 0 6 10 0 4 10 6", 0, "");
    let expected = expected("wkb");
    assert_eq!(String::from_utf8_lossy(&output.stdout), expected);

    let read = |name| fs::read(example.folder.join(name)).expect("a file");
    let hex = expected.lines().nth(1).expect("the bytes");
    let table = format!("id,geometry\n1,{hex}\n");
    assert_eq!(String::from_utf8_lossy(&read("cross.csv")), table);
    let digits = read("cross.wkb")
        .into_iter()
        .map(|byte| format!("{byte:02X}"));
    assert_eq!(digits.collect::<String>(), hex);
    assert_eq!(fs::read_dir(&example.folder).expect("a folder").count(), 2);
}

/// No file is written where the library refuses the polygon, or where an argument is no number.
#[test]
fn no_polygon() {
    let example = Example::new("no_polygon");
    let seventeen = format!("x{}", " 0 0 1 1".repeat(17));
    for line in [
        "x",
        "x 4 0 6",
        "x 4 0 4 10",
        "x 0 0 1 4294967295",
        &seventeen,
    ] {
        let message = "refused 3: an invalid rectangle, or not 1 to 16 of them\n";
        example.fails(line, 1, message);
    }
    for line in [
        "",
        "x 4 0 6 y",
        "x 4 0 6 -10",
        "x 4 0 6 1.5",
        "x 0 0 1 4294967296",
    ] {
        example.fails(line, 2, "usage: wkb NAME LLX LLY URX URY ...\n");
    }
    assert_eq!(fs::read_dir(&example.folder).expect("a folder").count(), 0);
}

/// A link for as long as a test runs: rt ci takes none below the repository's root.
struct Link(PathBuf);

impl Link {
    fn new(to: &str, at: PathBuf) -> Link {
        symlink(to, &at).expect("a link");
        Link(at)
    }
}

impl Drop for Link {
    fn drop(&mut self) {
        fs::remove_file(&self.0).expect("the link can be removed");
    }
}

/// A folder that is not there, and a device that takes no bytes in the place of either file.
#[test]
fn no_file() {
    let example = Example::new("no_file");
    let message = "none/x.wkb: No such file or directory\n";
    example.fails("none/x 0 0 1 1", 1, message);
    for name in ["a.wkb", "b.csv"] {
        let _link = Link::new("/dev/full", example.folder.join(name));
        let message = format!("{name}: No space left on device\n");
        example.fails(&format!("{} 0 0 1 1", &name[..1]), 1, &message);
    }
}
