//! The list of the crates, crates.txt.

use std::collections::BTreeMap;

/// The crates in the order of the list, and what each uses.
pub struct CrateList {
    pub names: Vec<String>,
    pub uses: BTreeMap<String, Vec<String>>,
}

/// Reads the lines 'NAME: USED USED ..', where words about the crate, as 'staticlib', may stand behind
/// its name; '#' starts a comment.
pub fn read(text: &str) -> CrateList {
    let mut list = CrateList {
        names: Vec::new(),
        uses: BTreeMap::new(),
    };
    for line in text.lines() {
        let line = line.split('#').next().unwrap_or("");
        if let Some((head, used)) = line.split_once(':') {
            let name = head.split_whitespace().next().unwrap_or("").to_string();
            let used = used.split_whitespace().map(str::to_string).collect();
            list.names.push(name.clone());
            list.uses.insert(name, used);
        }
    }
    list
}

impl CrateList {
    /// Whether the name is that of a crate of the repository, and not of the kit.
    pub fn has(&self, name: &str) -> bool {
        self.uses.contains_key(name)
    }
}
