//! What README.md shows runs and is true: its programs in C and Rust, its commands, the line
//! program's example, the list of the crates.

mod readme_support;

use readme_support::{
    commands, copy_of_repository, fenced, file, is_here, root, run, table, texts,
};
use reference::proved_bench::program;
use reference::proved_index::{insert, point};
use std::fs;
use std::process::Command;

/// Commands that the gate itself runs, in this or a longer form.
const OF_THE_GATE: [&str; 5] = [
    "make test",
    "scripts/build drawing",
    "scripts/build lintzoger",
    "scripts/build",
    "cd reference && cargo test --release --offline",
];

/// Compiles first.c by these words, and runs it.
fn check_first(compiler: &str, words: &[&str]) {
    let copy = copy_of_repository(&format!("readme_{compiler}"));
    fs::write(copy.join("first.c"), file("first.c")).expect("a file");
    let library = ["-x", "none", "target/staticlib/liblintzoger.a"];
    run(Command::new(compiler)
        .current_dir(&copy)
        .args(["-Wall", "-Wextra", "-Wpedantic", "-Werror", "-Iinclude"])
        .args(words)
        .arg("first.c")
        .args(library)
        .args(["-o", "target/first"]));
    run(&mut Command::new(copy.join("target/first")));
}

#[test]
fn first_in_c() {
    check_first("gcc", &["-std=c11", "-x", "c"]);
}

#[test]
fn first_in_cpp() {
    check_first("g++", &["-std=c++17", "-x", "c++"]);
}

/// By the second C compiler, where there is one.
#[test]
fn first_by_clang() {
    if is_here("clang", "README.md's program in C was not tried with it") {
        check_first("clang", &["-std=c11", "-x", "c"]);
    }
}

/// All programs that the README shows are tried here.
#[test]
fn no_other_programs() {
    let languages: Vec<String> = fenced().into_iter().map(|block| block.language).collect();
    assert_eq!(languages, ["c", "rust", "rust"]);
}

/// Whether the command is run here. One that begins with 'ogr' is of GDAL, a library of map tools
/// that nothing else needs: it is run where its program is installed.
fn is_run_here(line: &str) -> bool {
    if OF_THE_GATE.contains(&line) {
        return false;
    }
    match line.split(' ').next() {
        Some(program) if program.starts_with("ogr") => {
            is_here(program, &format!("README.md's '{line}' was not tried"))
        }
        _ => true,
    }
}

/// The commands in their order, from a folder like the repository's root, the Rust project in that
/// edition. 'make run' is the program here: the gate tries make itself.
fn check_commands(edition: &str) {
    let copy = copy_of_repository(&format!("readme_{edition}"));
    fs::write(copy.join("first.c"), file("first.c")).expect("a file");
    let bench = program();
    for line in commands().iter().filter(|line| is_run_here(line)) {
        let line = line
            .replace("make run", &bench.display().to_string())
            .replace("--edition 2024", &format!("--edition {edition} --vcs none"));
        run(Command::new("sh")
            .args(["-ec", &line])
            .current_dir(&copy)
            .env("RUSTFLAGS", "-D warnings")
            .env_remove("CARGO_TARGET_DIR"));
        if line.starts_with("cargo new") {
            let project = copy.join("../cells");
            for name in ["build.rs", "src/main.rs"] {
                fs::write(project.join(name), file(name)).expect("a file");
            }
        }
    }
    assert!(copy.join("target/session").is_file());
    assert!(copy.join("target/cross.wkb").is_file());
    assert!(copy.join("../cells/target/debug/cells").is_file());
}

#[test]
fn commands_with_edition_2021() {
    check_commands("2021");
}

#[test]
fn commands_with_edition_2024() {
    check_commands("2024");
}

/// What the line program prints for a command 'printf '..' | make run'.
fn printed(command: &str) -> Vec<String> {
    let command = command.replace("make run", &program().display().to_string());
    let output = run(Command::new("sh").args(["-ec", &command]));
    let text = String::from_utf8(output.stdout).expect("text");
    text.lines().map(str::to_string).collect()
}

/// The two examples of the line program print what the README says.
#[test]
fn example_lines() {
    let commands = commands();
    let mut examples = commands.iter().filter(|line| line.ends_with("| make run"));
    let first = examples.next().expect("the first example");
    assert_eq!(printed(first), ["I 0 1 0", "P 1 1 7"]);

    let (mut input, mut output) = (String::new(), Vec::new());
    for row in table("| input | output |") {
        input += &format!("{}\\n", texts(&row[0])[0]);
        output.extend(texts(&row[1]));
    }
    let sample = examples.next().expect("the sample");
    assert_eq!(*sample, format!("printf '{input}' | make run"));
    assert_eq!(printed(sample), output);
    assert!(examples.next().is_none());
}

/// 'Sound is not intact': a changed tag and a moved cell are answered from.
#[test]
fn sound_is_not_intact() {
    let mut index = vec![0; 64 + 128];
    let mut work = index.clone();
    let [mut held, mut visits, mut tag] = [0; 3];
    for (cell, value) in [([10, 10], 7), ([20, 12], 9)] {
        let answer = insert(&mut index, &mut work, cell, value, &mut held, &mut 0);
        assert_eq!(answer, 0);
    }
    // the first entry's x and tag: the entries of part 0 start at its number 66
    index[64 + 66] += 1;
    index[64 + 68] = 70;
    assert_eq!(point(&index, [11, 10], &mut held, &mut visits, &mut tag), 0);
    assert_eq!([held, tag], [1, 70]);
    assert_eq!(point(&index, [10, 10], &mut held, &mut visits, &mut tag), 0);
    assert_eq!(held, 0);
}

/// Each crate has its row.
#[test]
fn rows_of_the_crates() {
    let rows = table("| crate |");
    let rows: Vec<String> = rows.iter().flat_map(|row| texts(&row[0])).collect();
    let list = fs::read_to_string(root().join("crates.txt")).expect("crates.txt");
    for line in list.lines().filter(|line| !line.starts_with('#')) {
        let (name, _) = line.split_once(':').expect("a crate and what it uses");
        let name = name.split(' ').next().expect("a name");
        assert!(rows.iter().any(|row| row == name), "no row for {name}");
    }
}
