//! The examples in C compile with the headers, link the proved libraries and print what is stored.

mod c_support;

use c_support::{compile, expected, kept, source};
use std::fs;
use std::path::Path;
use std::process::Command;

/// Runs the program, which must end with success; returns what it prints.
fn run(program: &Path) -> String {
    let run = Command::new(program).output().expect("the program runs");
    assert!(run.status.success(), "the program ends with {}", run.status);
    String::from_utf8(run.stdout).expect("the program prints text")
}

/// The example prints what is stored beside it.
fn check_example(name: &str, archive: &str) {
    let program = kept(name);
    compile(&source(name), &[archive], &program);
    assert_eq!(run(&program), expected(name));
}

#[test]
fn draw() {
    check_example("draw", env!("DRAWING_ARCHIVE"));
}

#[test]
fn query() {
    check_example("query", env!("LINTZOGER_ARCHIVE"));
}

#[test]
fn nearest() {
    check_example("nearest", env!("LINTZOGER_ARCHIVE"));
}

#[test]
fn empty() {
    check_example("empty", env!("LINTZOGER_ARCHIVE"));
}

#[test]
fn same_points() {
    check_example("same_points", env!("LINTZOGER_ARCHIVE"));
}

#[test]
fn crowding() {
    check_example("crowding", env!("LINTZOGER_ARCHIVE"));
}

#[test]
fn session() {
    check_example("session", env!("LINTZOGER_ARCHIVE"));
}

/// One program can include both headers and link both libraries.
#[test]
fn both_headers() {
    let (source, program) = (kept("both.c"), kept("both"));
    let text = "#include \"drawing.h\"\n#include \"lintzoger.h\"\n\
        int main(void) {\n\
        uint32_t index[LINTZOGER_INDEX_LEN(1)] = {0}, held;\n\
        uint64_t extra;\n\
        if (lintzoger_clear(index, LINTZOGER_INDEX_LEN(1), &held) != 0) return 1;\n\
        return lintzoger_extra_area(0, 0, 1, 1, 0, 0, &extra) != 0;\n\
        }\n";
    fs::write(&source, text).expect("the source can be written");
    compile(
        &source,
        &[env!("LINTZOGER_ARCHIVE"), env!("DRAWING_ARCHIVE")],
        &program,
    );
    assert_eq!(run(&program), "");
}
