//! The proved line program.

use std::env;
use std::path::{Path, PathBuf};

/// The program file: LINTZOGER_BENCH where it is set, to try a program of one's own, else the
/// repository's target/bin/bench.
pub fn program() -> PathBuf {
    let program = match env::var_os("LINTZOGER_BENCH") {
        Some(program) => PathBuf::from(program),
        None => Path::new(env!("CARGO_MANIFEST_DIR")).join("../target/bin/bench"),
    };
    let shown = program.display();
    assert!(
        program.is_file(),
        "{shown} is missing: run scripts/build bench first"
    );
    program
}
