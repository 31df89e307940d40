//! What a text in backticks cites, and whether it is in the repository.

use crate::files;
use crate::known::{is_word, stem, Known};
use crate::page;

/// Programs that the pages name and that are not of this repository.
const PROGRAMS: [&str; 7] = ["rt", "cargo", "make", "cc", "gcc", "clang", "antt"];

/// A line for each name, and each file named by its crate, of the page that is not in the repository.
pub fn missing(path: &str, page: &str, known: &Known) -> Vec<String> {
    let found = page::spans(page);
    let mut lines: Vec<String> = found
        .spans
        .iter()
        .filter(|span| !is_there(&span.text, known))
        .map(|span| format!("{path}:{}: `{}` is not there", span.line, span.text))
        .collect();
    for line in found.unpaired {
        lines.push(format!("{path}:{line}: a backtick without its pair"));
    }
    lines.extend(files::lost(path, page, known));
    lines
}

/// Whether each name of the text is in the repository. A text that is no name, as one with
/// operators or only with digits, is not looked up.
pub fn is_there(text: &str, known: &Known) -> bool {
    if is_path(text) {
        return has_path(text, known);
    }
    if let Some(name) = crate_of_command(text) {
        return is_place(name) || known.crates.has(name);
    }
    if let Some(folder) = folder_of_command(text) {
        return has_path(folder, known);
    }
    if let Some(names) = imported(text) {
        return names.iter().all(|name| has_name(name, known));
    }
    let parts = parts(text);
    if parts.iter().all(|part| is_name(part)) {
        return parts.iter().all(|part| has_name(part, known));
    }
    true
}

/// The crate in a command like `rt ci NAME`. Behind an option of a command for one crate stands the
/// option's own word, as in `rt check --only FUNCTION`.
fn crate_of_command(text: &str) -> Option<&str> {
    let words: Vec<&str> = text.split(' ').collect();
    let name = match words[..] {
        ["rt", "check" | "lib" | "run" | "test" | "tidy" | "try" | "verdict", name, ..] => name,
        ["rt", "ci" | "must-fail", ..] => words[2..].iter().find(|w| !w.starts_with("--"))?,
        ["scripts/build", name] => name,
        _ => return None,
    };
    (!name.starts_with("--")).then_some(name)
}

/// The folder in a command like `cd crates/NAME && rt check`.
fn folder_of_command(text: &str) -> Option<&str> {
    text.strip_prefix("cd ")?.split(' ').next()
}

/// The names in a path by which antt imports, as `Rattle.sides.proofs.Laws.{one, other}`. What is of
/// operators is left out.
fn imported(text: &str) -> Option<Vec<&str>> {
    let names = text.strip_prefix("Rattle.")?;
    let names = names.split(['.', '{', '}', ',', ' ']);
    Some(names.filter(|name| is_name(name)).collect())
}

/// The names of a dotted form, as `Rect::has_cell` or `InsertCall .work`; else the text itself.
fn parts(text: &str) -> Vec<&str> {
    let separator = if text.contains("::") { "::" } else { " ." };
    text.split(separator).collect()
}

/// A name: words of a source, where `*` stands for any letters, and so does `..` at the end.
fn is_name(text: &str) -> bool {
    let text = text.strip_suffix("..").unwrap_or(text);
    text.starts_with(|c: char| c.is_alphabetic() || c == '_' || c == '*')
        && text.chars().all(|c| is_word(c) || c == '*')
        && text.contains(char::is_alphabetic)
}

fn has_name(name: &str, known: &Known) -> bool {
    match name.strip_suffix("..") {
        Some(start) => known.words.iter().any(|word| word.starts_with(start)),
        None if name.contains('*') => known.words.iter().any(|word| matches(name, word)),
        None => known.words.contains(name) || PROGRAMS.contains(&name),
    }
}

/// A path: names with `/` between them, or a file's name with its ending.
fn is_path(text: &str) -> bool {
    let is_part = |c: char| is_word(c) || matches!(c, '/' | '.' | '*' | '+');
    let ending = text.rsplit('.').next().unwrap_or("");
    let has_ending = text.contains('.') && !ending.is_empty();
    text.chars().all(is_part)
        && text.contains(char::is_alphabetic)
        && (text.contains('/') || has_ending)
}

fn has_path(text: &str, known: &Known) -> bool {
    let parts: Vec<&str> = text.split('/').filter(|part| !part.is_empty()).collect();
    if let Some(product) = product(&parts) {
        return is_place(product) || known.crates.has(product);
    }
    if let ["crates", name, "out", ..] = parts[..] {
        return is_place(name) || known.crates.has(name); // made by a build
    }
    if parts.first() == Some(&"target") {
        return true; // made by a build
    }
    if let [ending] = parts[..] {
        if let Some(field) = ending.strip_prefix('.') {
            return has_ending(ending, known) || has_name(field, known);
        }
    }
    let is_it = |way: &Vec<String>| ends_with(way, &parts) || is_edit(&parts, way);
    known.paths.iter().any(is_it) || is_module(text, known)
}

/// Whether the text is a module's name, as `std.specs.Prelude`.
fn is_module(text: &str, known: &Known) -> bool {
    text.split('.').all(|part| known.words.contains(part))
}

/// Whether some file's name ends so.
fn has_ending(ending: &str, known: &Known) -> bool {
    let last = |way: &Vec<String>| way[way.len() - 1].ends_with(ending);
    known.paths.iter().any(last)
}

/// The crate of a library `libNAME.a` or of a program `target/bin/NAME`.
fn product<'a>(parts: &[&'a str]) -> Option<&'a str> {
    let last = parts.last()?;
    match parts {
        ["target", "bin", name] => Some(name),
        _ => last.strip_prefix("lib")?.strip_suffix(".a"),
    }
}

/// Whether the way ends with the parts.
fn ends_with(way: &[String], parts: &[&str]) -> bool {
    way.len() >= parts.len()
        && way[way.len() - parts.len()..]
            .iter()
            .zip(parts)
            .all(|(name, part)| is_place(part) || matches(part, name))
}

/// Whether the part stands for any name, as `NAME` does.
fn is_place(part: &str) -> bool {
    part.chars().all(|c| c.is_ascii_uppercase())
}

/// Whether CRATE/EDIT names the must-fail edit at that way.
fn is_edit(parts: &[&str], way: &[String]) -> bool {
    match (parts, way) {
        ([owner, edit], [_, folder, kind, file]) => {
            owner == folder && kind == "must-fail" && *edit == stem(file)
        }
        _ => false,
    }
}

/// Whether the name is of the form, in which `*` stands for any letters.
fn matches(form: &str, name: &str) -> bool {
    match form.split_once('*') {
        None => form == name,
        Some((start, end)) => {
            name.len() >= start.len() + end.len() && name.starts_with(start) && name.ends_with(end)
        }
    }
}
