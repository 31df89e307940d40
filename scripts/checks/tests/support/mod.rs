//! What several tests use.

use std::env;
use std::fs;
use std::ops::Deref;
use std::path::{Path, PathBuf};
use std::process;

/// A folder for as long as a test runs. It lies outside the repository, in which rt ci takes no
/// crates.txt but the one at the top, and no .rt or .antt file but those of the crates.
pub struct Folder(PathBuf);

impl Folder {
    /// An empty folder for the test of that name.
    pub fn new(test: &str) -> Folder {
        let folder = env::temp_dir().join(format!("checks_{test}_{}", process::id()));
        let _ = fs::remove_dir_all(&folder);
        fs::create_dir_all(&folder).expect("a folder");
        Folder(folder)
    }
}

impl Deref for Folder {
    type Target = Path;

    fn deref(&self) -> &Path {
        &self.0
    }
}

impl Drop for Folder {
    fn drop(&mut self) {
        fs::remove_dir_all(&self.0).expect("the folder can be removed");
    }
}
