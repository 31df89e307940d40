//! The names that are in the repository: words of its sources, files, folders, crates.

use crate::crate_list::{self, CrateList};
use std::collections::HashSet;
use std::fs;
use std::io;
use std::path::Path;

pub struct Known {
    /// The words of the sources outside comments, the names of folders, the names of files
    /// without their endings, the crates and what they use of the kit.
    pub words: HashSet<String>,
    /// Each file and folder as its way from the root.
    pub paths: Vec<Vec<String>>,
    pub crates: CrateList,
}

impl Known {
    pub fn read(root: &Path) -> io::Result<Known> {
        let mut known = Known {
            words: HashSet::new(),
            paths: Vec::new(),
            crates: crate_list::read(&fs::read_to_string(root.join("crates.txt"))?),
        };
        for (name, used) in &known.crates.uses {
            known.words.insert(name.clone());
            known.words.extend(used.iter().cloned());
        }
        known.add_folder(root, &[])?;
        Ok(known)
    }

    fn add_folder(&mut self, folder: &Path, way: &[String]) -> io::Result<()> {
        for entry in fs::read_dir(folder)? {
            let entry = entry?;
            let name = entry.file_name().to_string_lossy().into_owned();
            let is_folder = entry.file_type()?.is_dir();
            let way = [way, &[name.clone()]].concat();
            if is_folder && is_made(&way) {
                continue;
            }
            self.words.insert(stem(&name).to_string());
            if is_folder {
                self.add_folder(&entry.path(), &way)?;
            } else if is_source(&way) {
                self.add_source(&fs::read_to_string(entry.path())?, name.ends_with(".antt"));
            }
            self.paths.push(way);
        }
        Ok(())
    }

    /// Adds the words of a source: what the checker or a compiler has seen, so no comments.
    pub fn add_source(&mut self, text: &str, is_antt: bool) {
        let comment = if is_antt { "--" } else { "//" };
        let text = without_block_comments(text, is_antt);
        for line in text.lines() {
            let code = line.split(comment).next().unwrap_or("");
            let words = code.split(|c| !is_word(c)).filter(|w| !w.is_empty());
            self.words.extend(words.map(str::to_string));
        }
    }
}

/// Whether the folder is git's, or one that a build makes.
fn is_made(way: &[String]) -> bool {
    let last = way[way.len() - 1].as_str();
    match last {
        "target" | ".git" => true,
        _ => way.len() == 3 && way[0] == "crates" && last == "out",
    }
}

/// A character of a name in antt, Rattle, Rust or C.
pub fn is_word(c: char) -> bool {
    c.is_alphanumeric() || matches!(c, '_' | '-' | '\'' | '′')
}

/// A file's name without its ending.
pub fn stem(name: &str) -> &str {
    match name.rfind('.') {
        Some(0) | None => name,
        Some(at) => &name[..at],
    }
}

/// Whether the file is code, a definition, a proof or a test of the product.
fn is_source(way: &[String]) -> bool {
    let (folder, name) = (way[0].as_str(), &way[way.len() - 1]);
    ["crates", "reference", "include", "examples"].contains(&folder)
        && [".antt", ".rt", ".rs", ".c", ".h"]
            .iter()
            .any(|ending| name.ends_with(ending))
}

/// The text without C's comments; antt has none of this form.
fn without_block_comments(text: &str, is_antt: bool) -> String {
    if is_antt {
        return text.to_string();
    }
    let mut kept = String::new();
    for (piece, place) in text.split("/*").zip(0..) {
        match piece.split_once("*/") {
            Some((_, after)) if place > 0 => kept.push_str(after),
            _ => kept.push_str(piece),
        }
    }
    kept
}
