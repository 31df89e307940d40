//! Links the proved libraries of the repository's target/staticlib, libdrawing.a and
//! liblintzoger.a.
//!
//! LINTZOGER_LIB_DIR names another folder that holds them, to try the tests against a library of
//! one's own (for instance one with a fault that the tests should find).

use std::env;
use std::path::{Path, PathBuf};
use std::process::exit;

fn main() {
    let folder = library_folder();
    println!("cargo:rerun-if-env-changed=LINTZOGER_LIB_DIR");
    println!("cargo:rustc-link-search=native={}", folder.display());
    link(&folder, "drawing", "DRAWING_ARCHIVE");
    link(&folder, "lintzoger", "LINTZOGER_ARCHIVE");
}

/// Links the folder's library of that name. The tests of the C examples link the same archive, by
/// the variable.
fn link(folder: &Path, name: &str, variable: &str) {
    let archive = folder.join(format!("lib{name}.a"));
    if !archive.is_file() {
        let archive = archive.display();
        eprintln!("{archive} is missing: run scripts/build {name} first");
        exit(1);
    }
    println!("cargo:rerun-if-changed={}", archive.display());
    println!("cargo:rustc-link-lib=static={name}");
    println!("cargo:rustc-env={variable}={}", archive.display());
}

fn library_folder() -> PathBuf {
    match env::var_os("LINTZOGER_LIB_DIR") {
        Some(folder) => PathBuf::from(folder),
        None => {
            let package = env::var_os("CARGO_MANIFEST_DIR").expect("cargo sets CARGO_MANIFEST_DIR");
            Path::new(&package).join("../target/staticlib")
        }
    }
}
