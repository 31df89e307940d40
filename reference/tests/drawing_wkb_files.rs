//! Stored polygons for readers of Well-Known Binary (reference/gis): NAME.txt has the rectangles, a
//! line of four numbers each, and NAME.wkb the bytes that the library writes for them.

mod support;

use std::collections::BTreeSet;
use std::fs;
use std::path::{Path, PathBuf};
use support::wkb::{case, needed};

fn folder() -> PathBuf {
    Path::new(env!("CARGO_MANIFEST_DIR")).join("gis")
}

/// The names of the files that end so, without the ending.
fn names(ending: &str) -> BTreeSet<String> {
    let files = fs::read_dir(folder()).expect("the folder can be read");
    let names = files.map(|file| file.expect("a file").file_name());
    names
        .filter_map(|name| name.to_str()?.strip_suffix(ending).map(str::to_string))
        .collect()
}

/// The rectangle of a line.
fn rectangle(line: &str) -> [u32; 4] {
    let numbers = line.split(' ').map(|word| word.parse().expect("a number"));
    let numbers: Vec<u32> = numbers.collect();
    numbers.try_into().expect("four numbers a line")
}

/// The call and the second implementation write the bytes of each file.
#[test]
fn stored_bytes() {
    let stored = names(".txt");
    assert!(!stored.is_empty(), "no polygons are stored");
    assert_eq!(names(".wkb"), stored, "the names of .wkb and of .txt");
    for name in stored {
        let text = fs::read_to_string(folder().join(format!("{name}.txt")));
        let bytes = fs::read(folder().join(format!("{name}.wkb"))).expect("the bytes");
        let polygon: Vec<[u32; 4]> = text.expect("a text").lines().map(rectangle).collect();
        let output = case(&polygon, needed(polygon.len())).expect(0, &name);
        assert_eq!(output.written_bytes(), bytes, "{name}");
    }
}
