//! `scripts/build` with an rt that only plays its part: which crate each product comes from, where it
//! is put, and when it is built again.

mod support;

use std::env;
use std::fs;
use std::os::unix::fs::PermissionsExt;
use std::path::Path;
use std::process::{Command, Output};
use support::Folder;

/// Builds an archive that has the name of the crate's folder, and says so.
const RT: &str = "#!/bin/sh
[ \"$1\" != version ] || { cat kit; exit; }
name=$(basename \"$PWD\")
echo \"$1 $name\" >>../../asked
[ \"$1\" = lib ] && mkdir -p out && echo \"of $name\" >\"out/lib$name.a\"
";

/// A folder of that name with the script, the crates of the libraries, and this rt.
fn repository(name: &str) -> Folder {
    let own = Path::new(env!("CARGO_MANIFEST_DIR")).join("../..");
    let root = Folder::new(name);
    for folder in [
        "scripts",
        "crates/lintzoger/src",
        "crates/lintzoger/specs",
        "crates/drawing_c/proofs",
    ] {
        fs::create_dir_all(root.join(folder)).expect("a folder");
    }
    fs::copy(own.join("scripts/build"), root.join("scripts/build")).expect("a copy");
    for (file, text) in [
        ("crates.txt", "drawing_c staticlib:\nlintzoger staticlib:\n"),
        ("kit", "a kit\n"),
        ("rt", RT),
    ] {
        fs::write(root.join(file), text).expect("a file");
    }
    let executable = fs::Permissions::from_mode(0o755);
    fs::set_permissions(root.join("rt"), executable).expect("a program");
    root
}

/// `scripts/build` there with these words.
fn build(root: &Path, words: &[&str]) -> Output {
    let path = env::var("PATH").expect("a PATH");
    let mut command = Command::new(root.join("scripts/build"));
    command.args(words);
    command.env("PATH", format!("{}:{path}", root.display()));
    command.output().expect("the script runs")
}

fn text(root: &Path, file: &str) -> String {
    fs::read_to_string(root.join(file)).expect("a file")
}

#[test]
fn libraries() {
    let root = repository("libraries");
    let built = build(&root, &["drawing", "lintzoger"]);
    assert!(built.status.success());
    assert!(built.stdout.is_empty());
    let archive = |name| text(&root, &format!("target/staticlib/lib{name}.a"));
    assert_eq!(archive("drawing"), "of drawing_c\n");
    assert_eq!(archive("lintzoger"), "of lintzoger\n");
    assert_eq!(text(&root, "asked"), "lib drawing_c\nlib lintzoger\n");
}

/// A library is built again where a kit of another name is there, and else only once.
#[test]
fn another_kit() {
    let root = repository("another_kit");
    for (kit, asked) in [("a kit\n", 1), ("another kit\n", 2)] {
        fs::write(root.join("kit"), kit).expect("a file");
        for _ in 0..2 {
            assert!(build(&root, &["lintzoger"]).status.success());
            assert_eq!(text(&root, "asked").lines().count(), asked);
        }
    }
}

/// No product, and a program that is not built.
#[test]
fn no_product() {
    let root = repository("no_product");
    for word in ["drawing_c", "bench"] {
        assert_eq!(build(&root, &[word]).status.code(), Some(1));
    }
    assert!(!root.join("target").exists());
}
