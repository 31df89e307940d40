//! rules ROOT: writes to the head of each file of definitions the numbers of the rules that it states,
//! as ROOT/docs/RULES.md has them. With --check behind ROOT it only compares.

use checks::made::{read, run, Made};
use checks::rules::{head_line, placed, rules_of};
use std::fs;
use std::path::{Path, PathBuf};
use std::process::ExitCode;

fn main() -> ExitCode {
    run("rules", made)
}

/// The files of definitions of all crates. One that a rule names and that is not there is an error.
fn made(root: &Path) -> Result<Vec<Made>, String> {
    let mut rules = rules_of(&read(&root.join("docs/RULES.md"))?);
    let mut files = Vec::new();
    for folder in entries(&root.join("crates"))? {
        let name = file_name(&folder);
        for path in entries(&folder.join("specs"))? {
            let Some(stem) = file_name(&path).strip_suffix(".antt").map(str::to_string) else {
                continue;
            };
            let stated = rules.remove(&format!("{name}/specs/{stem}"));
            let line = stated.map(|rules| head_line(&rules));
            let text = placed(&read(&path)?, line.as_deref());
            files.push(Made { path, text });
        }
    }
    match rules.keys().next() {
        Some(lost) => Err(format!("docs/RULES.md names {lost}, which is not there")),
        None => Ok(files),
    }
}

/// What a folder has; nothing where it is not there.
fn entries(folder: &Path) -> Result<Vec<PathBuf>, String> {
    let Ok(found) = fs::read_dir(folder) else {
        return Ok(Vec::new());
    };
    let paths = found.map(|entry| entry.map(|entry| entry.path()));
    paths
        .collect::<Result<_, _>>()
        .map_err(|error| format!("{}: {error}", folder.display()))
}

fn file_name(path: &Path) -> String {
    path.file_name()
        .unwrap_or_default()
        .to_string_lossy()
        .into_owned()
}
