//! Files that a page names by their crate, as (geometry Cells) behind a name: whether they are there.

use crate::known::{stem, Known};

/// A line for each file that the page names by its crate and that the crate does not have.
pub fn lost(path: &str, page: &str, known: &Known) -> Vec<String> {
    let mut lines = Vec::new();
    for (at, line) in page.lines().enumerate() {
        for (owner, file) in named(line, known) {
            if !has_file(owner, file, known) {
                let line = at + 1;
                lines.push(format!("{path}:{line}: {owner} {file} is not there"));
            }
        }
    }
    lines
}

/// The files that a line names, each with its crate: behind the word of a crate, or behind any word
/// in parentheses that follow a name; more of them behind a comma.
fn named<'a>(line: &'a str, known: &Known) -> Vec<(&'a str, &'a str)> {
    let words: Vec<&str> = line.split_whitespace().collect();
    let mut files = Vec::new();
    let mut owner = None;
    for i in 1..words.len() {
        let before = words[i - 1].trim_start_matches('(');
        let behind_a_name = words[i - 1].starts_with('(') && i > 1 && words[i - 2].ends_with('`');
        let file = words[i].trim_end_matches([')', ',', ';', ':', '.']);
        if known.crates.has(before) || behind_a_name && is_crate_word(before) {
            owner = Some(before);
        } else if !(words[i - 1].ends_with(',') && files.last().map(|f: &(_, _)| f.0) == owner) {
            owner = None;
        }
        match owner {
            Some(owner) if is_file_word(file) => files.push((owner, file)),
            _ => owner = None,
        }
    }
    files
}

fn is_crate_word(word: &str) -> bool {
    word.chars()
        .all(|c| c.is_ascii_lowercase() || c.is_ascii_digit() || c == '_')
}

/// The name of a file of definitions or laws without its ending: a capital, then small letters too.
fn is_file_word(word: &str) -> bool {
    word.starts_with(|c: char| c.is_ascii_uppercase())
        && word.chars().all(|c| c.is_ascii_alphanumeric())
        && word.contains(|c: char| c.is_ascii_lowercase())
}

fn has_file(owner: &str, file: &str, known: &Known) -> bool {
    known.paths.iter().any(|way| match &way[..] {
        [crates, folder, _, name] => crates == "crates" && folder == owner && stem(name) == file,
        _ => false,
    })
}
