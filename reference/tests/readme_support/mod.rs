//! README.md taken apart, and a folder to run it in.

use std::fs;
use std::io::Write;
use std::path::{Path, PathBuf};
use std::process::{Command, Output};

/// The repository's root.
pub fn root() -> PathBuf {
    Path::new(env!("CARGO_MANIFEST_DIR")).join("..")
}

pub fn readme() -> String {
    fs::read_to_string(root().join("README.md")).expect("README.md")
}

/// A fenced block: its language and its text.
pub struct Fenced {
    pub language: String,
    pub text: String,
}

/// The fenced blocks, in order.
pub fn fenced() -> Vec<Fenced> {
    let readme = readme();
    let inside = readme.split("```").skip(1).step_by(2);
    let block = |inside: &str| {
        let (language, text) = inside.split_once('\n').expect("a line");
        let (language, text) = (language.to_string(), text.to_string());
        Fenced { language, text }
    };
    inside.map(block).collect()
}

/// The fenced block whose first line names the file.
pub fn file(name: &str) -> String {
    let is_it = |block: &Fenced| block.text.lines().next().is_some_and(|l| l.contains(name));
    let mut blocks = fenced().into_iter().filter(is_it);
    let block = blocks.next();
    assert!(blocks.next().is_none(), "README.md has {name} twice");
    block
        .unwrap_or_else(|| panic!("README.md has no {name}"))
        .text
}

/// The lines of the blocks that are indented by four spaces: commands of a shell.
pub fn commands() -> Vec<String> {
    let (mut fenced, mut open) = (false, true);
    let mut commands = Vec::new();
    for line in readme().lines() {
        if line.starts_with("```") {
            fenced = !fenced;
        }
        let command = line.strip_prefix("    ").filter(|_| open && !fenced);
        commands.extend(command.map(str::to_string));
        open = line.is_empty() || command.is_some();
    }
    commands
}

/// The rows of the table that begins with these cells, each row as its cells.
pub fn table(first: &str) -> Vec<Vec<String>> {
    let readme = readme();
    let lines = readme.lines().skip_while(|line| !line.starts_with(first));
    let rows = lines.skip(2).take_while(|line| line.starts_with('|'));
    rows.map(|row| {
        row.trim_matches('|')
            .split(" | ")
            .map(|cell| cell.trim().to_string())
    })
    .map(Iterator::collect)
    .collect()
}

/// The texts in backticks of a cell.
pub fn texts(cell: &str) -> Vec<String> {
    cell.split('`')
        .skip(1)
        .step_by(2)
        .map(str::to_string)
        .collect()
}

/// A new folder of that name with a folder lintzoger in it, which has of the repository what the
/// commands use: headers, examples, the libraries. (Copies, since rt ci takes no links below the
/// repository's root.)
pub fn copy_of_repository(name: &str) -> PathBuf {
    let folder = Path::new(env!("CARGO_TARGET_TMPDIR")).join(name);
    let _ = fs::remove_dir_all(&folder);
    let copy = folder.join("lintzoger");
    for part in ["include", "examples/c"] {
        copy_files(&root().join(part), &copy.join(part));
    }
    let libraries = Path::new(env!("LINTZOGER_ARCHIVE")).parent();
    let libraries = libraries.expect("the archive is in a folder");
    copy_files(libraries, &copy.join("target/staticlib"));
    copy
}

/// Copies the files of a folder to a new one.
fn copy_files(from: &Path, to: &Path) {
    fs::create_dir_all(to).expect("a folder");
    for entry in fs::read_dir(from).expect("a folder") {
        let path = entry.expect("a file").path();
        if path.is_file() {
            let name = path.file_name().expect("a name");
            fs::copy(&path, to.join(name)).expect("a copy");
        }
    }
}

/// Whether the program is installed. Where it is not, that and what follows from it are said past
/// the test harness.
pub fn is_here(program: &str, else_say: &str) -> bool {
    let is_here = Command::new(program).arg("--version").output().is_ok();
    if !is_here {
        let line = format!("{program} is not here: {else_say}\n");
        let said = std::io::stderr().write_all(line.as_bytes());
        said.expect("standard error takes a line");
    }
    is_here
}

/// Runs the command, which must end with success.
pub fn run(command: &mut Command) -> Output {
    let output = command.output();
    let output = output.unwrap_or_else(|error| panic!("{command:?}: {error}"));
    let errors = String::from_utf8_lossy(&output.stderr);
    assert!(output.status.success(), "{command:?}: {errors}");
    output
}
