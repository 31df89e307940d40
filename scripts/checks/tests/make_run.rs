//! `make run` with an rt that only plays its part: what it says, what it shows and where, and who gets
//! standard input.

mod support;

use std::env;
use std::fs;
use std::io::Write;
use std::os::unix::fs::PermissionsExt;
use std::path::Path;
use std::process::{Command, Output, Stdio};
use support::Folder;

/// Reads all of its standard input, talks, and builds a program that prints what it reads.
const RT: &str = "#!/bin/sh
[ \"$1\" != version ] || { echo 'a kit'; exit; }
cat >>../../taken
echo \"said of $* in $(basename \"$PWD\")\" >>../../asked
echo \"said of $*\"
echo 'a warning' >&2
mkdir -p out
printf '#!/bin/sh\\nsed s/^/answer:/\\n' >out/bench
chmod +x out/bench
";

/// Refuses the proof.
const REFUSING: &str = "#!/bin/sh
[ \"$1\" != version ] || { echo 'a kit'; exit; }
echo 'rt: bench NOT PROVED'
echo 'an error' >&2
exit 1
";

/// What a file of the program's crate holds.
const CODE: &str = "its code";

/// A folder of that name with the Makefile, its scripts, a crate of the program and this rt.
fn repository(name: &str, rt: &str) -> Folder {
    let own = Path::new(env!("CARGO_MANIFEST_DIR")).join("../..");
    let root = Folder::new(name);
    fs::create_dir_all(root.join("scripts")).expect("a folder");
    for file in ["Makefile", "scripts/run-bench", "scripts/build"] {
        fs::copy(own.join(file), root.join(file)).expect("a copy");
    }
    fs::write(root.join("crates.txt"), "bench:\n").expect("a file");
    for part in ["src", "specs", "proofs"] {
        let folder = root.join("crates/bench").join(part);
        fs::create_dir_all(&folder).expect("a folder");
        fs::write(folder.join("code"), CODE).expect("a file");
    }
    let program = root.join("rt");
    fs::write(&program, rt).expect("a file");
    fs::set_permissions(&program, fs::Permissions::from_mode(0o755)).expect("a program");
    root
}

/// How often rt was asked there to build the program.
fn times_asked(root: &Path) -> usize {
    let asked = fs::read_to_string(root.join("asked")).expect("a file");
    assert!(asked.lines().all(|line| line == "said of run in bench"));
    asked.lines().count()
}

/// `make run` there, with that standard input.
fn make_run(root: &Path, input: &str) -> Output {
    let path = env::var("PATH").expect("a PATH");
    let mut make = Command::new("make")
        .arg("run")
        .current_dir(root)
        .env("PATH", format!("{}:{path}", root.display()))
        .env_remove("MAKEFLAGS")
        .env_remove("MAKELEVEL")
        .stdin(Stdio::piped())
        .stdout(Stdio::piped())
        .stderr(Stdio::piped())
        .spawn()
        .expect("make starts");
    let mut stdin = make.stdin.take().expect("a pipe");
    // a make that fails may end before it reads
    let _ = stdin.write_all(input.as_bytes());
    drop(stdin);
    make.wait_with_output().expect("make ends")
}

fn text(bytes: &[u8]) -> &str {
    std::str::from_utf8(bytes).expect("text")
}

#[test]
fn answers_alone_on_standard_output() {
    let root = repository("accepted", RT);
    let run = make_run(&root, "P 1 1\nC\n");
    assert!(run.status.success());
    assert_eq!(text(&run.stdout), "answer:P 1 1\nanswer:C\n");
    assert_eq!(
        text(&run.stderr).lines().count(),
        1,
        "{}",
        text(&run.stderr)
    );
    assert_eq!(fs::read_to_string(root.join("taken")).expect("a file"), "");
}

#[test]
fn refused_proof() {
    let run = make_run(&repository("refused", REFUSING), "P 1 1\n");
    assert!(!run.status.success());
    assert_eq!(text(&run.stdout), "");
    for line in ["rt: bench NOT PROVED", "an error"] {
        assert!(text(&run.stderr).contains(line), "{}", text(&run.stderr));
    }
}

/// The program is built again where it was deleted, or where a file of a crate or the list of the
/// crates has changed; else it is not.
#[test]
fn built_again() {
    let root = repository("again", RT);
    make_run(&root, "");
    make_run(&root, "");
    assert_eq!(times_asked(&root), 1);
    fs::remove_file(root.join("target/bin/bench")).expect("the program");
    make_run(&root, "");
    assert_eq!(times_asked(&root), 2);
    for (file, times) in [
        ("crates/bench/src/code", 3),
        ("crates/bench/specs/code", 4),
        ("crates/bench/proofs/code", 5),
        ("crates.txt", 6),
    ] {
        fs::write(root.join(file), "bench: io\n").expect("a file");
        make_run(&root, "");
        make_run(&root, "");
        assert_eq!(times_asked(&root), times, "{file}");
    }
}

/// A program of a text that is refused is not run.
#[test]
fn refused_change() {
    let root = repository("refused_change", RT);
    make_run(&root, "");
    fs::write(root.join("rt"), REFUSING).expect("a file");
    fs::write(root.join("crates/bench/src/code"), "a change").expect("a file");
    let run = make_run(&root, "P 1 1\n");
    assert!(!run.status.success());
    assert_eq!(text(&run.stdout), "");
}
