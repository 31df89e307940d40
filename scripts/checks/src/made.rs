//! Files that a program of these checks makes: written anew, or compared with what it would write.

use std::env;
use std::fs;
use std::path::{Path, PathBuf};
use std::process::ExitCode;

/// A file, and what should stand in it.
pub struct Made {
    pub path: PathBuf,
    pub text: String,
}

/// NAME ROOT: writes the files; with --check behind ROOT it writes nothing, and fails if a file is
/// not what it would write.
pub fn run(name: &str, made: impl Fn(&Path) -> Result<Vec<Made>, String>) -> ExitCode {
    let words: Vec<String> = env::args().skip(1).collect();
    let done = match words.iter().map(String::as_str).collect::<Vec<_>>()[..] {
        [root] => made(Path::new(root)).and_then(|files| files.iter().try_for_each(write)),
        [root, "--check"] => made(Path::new(root))
            .and_then(|files| files.iter().try_for_each(|one| check(name, one))),
        _ => Err(format!("usage: {name} ROOT [--check]")),
    };
    match done {
        Ok(()) => ExitCode::SUCCESS,
        Err(message) => {
            println!("{message}");
            ExitCode::FAILURE
        }
    }
}

fn write(made: &Made) -> Result<(), String> {
    if fs::read_to_string(&made.path).is_ok_and(|text| text == made.text) {
        return Ok(());
    }
    let shown = made.path.display();
    fs::write(&made.path, &made.text).map_err(|error| format!("{shown}: {error}"))
}

fn check(name: &str, made: &Made) -> Result<(), String> {
    if read(&made.path)? == made.text {
        return Ok(());
    }
    let shown = made.path.display();
    Err(format!(
        "{shown} is not what make {name} would write: run it"
    ))
}

pub fn read(path: &Path) -> Result<String, String> {
    fs::read_to_string(path).map_err(|error| format!("{}: {error}", path.display()))
}
