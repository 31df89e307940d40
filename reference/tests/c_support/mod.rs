//! The examples in C: compiled with the headers, linked with the proved libraries.

use std::env;
use std::fs;
use std::path::{Path, PathBuf};
use std::process::Command;

fn root() -> PathBuf {
    Path::new(env!("CARGO_MANIFEST_DIR")).join("..")
}

/// Where the tests keep what they write.
pub fn kept(name: &str) -> PathBuf {
    Path::new(env!("CARGO_TARGET_TMPDIR")).join(name)
}

/// Compiles the source with the archives to the program.
pub fn compile(source: &Path, archives: &[&str], program: &Path) {
    let compiler = env::var("CC").unwrap_or_else(|_| "cc".to_string());
    let compiled = Command::new(&compiler)
        .args(["-std=c11", "-Wall", "-Wextra", "-Wpedantic", "-Werror"])
        .arg("-I")
        .arg(root().join("include"))
        .arg(source)
        .args(archives)
        .arg("-o")
        .arg(program)
        .output()
        .expect("the C compiler runs");
    let errors = String::from_utf8_lossy(&compiled.stderr);
    assert!(compiled.status.success(), "{compiler}: {errors}");
}

/// The example's source.
pub fn source(name: &str) -> PathBuf {
    root().join(format!("examples/c/{name}.c"))
}

/// What the example prints, as it is stored beside it.
pub fn expected(name: &str) -> String {
    let stored = root().join(format!("examples/c/{name}.expected"));
    fs::read_to_string(stored).expect("the stored answers can be read")
}
