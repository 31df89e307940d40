//! names ROOT: checks that every name in backticks in the pages is in the repository at ROOT; prints
//! those that are not, with page and line, and fails if there is one.

use checks::cited::missing;
use checks::known::Known;
use std::env;
use std::fs;
use std::path::PathBuf;
use std::process::ExitCode;

const PAGES: [&str; 7] = [
    "README.md",
    "CONTRIBUTING.md",
    "docs/ARCHITECTURE.md",
    "docs/LAYOUT.md",
    "docs/PROOF.md",
    "docs/RULES.md",
    "docs/TRACE.md",
];

fn main() -> ExitCode {
    let root = PathBuf::from(env::args().nth(1).expect("names ROOT"));
    let known = match Known::read(&root) {
        Ok(known) => known,
        Err(error) => {
            println!(
                "the repository at {} cannot be read: {error}",
                root.display()
            );
            return ExitCode::FAILURE;
        }
    };
    let mut lines = Vec::new();
    for path in PAGES {
        match fs::read_to_string(root.join(path)) {
            Ok(page) => lines.extend(missing(path, &page, &known)),
            Err(error) => lines.push(format!("{path}: {error}")),
        }
    }
    for line in &lines {
        println!("{line}");
    }
    if lines.is_empty() {
        ExitCode::SUCCESS
    } else {
        ExitCode::FAILURE
    }
}
