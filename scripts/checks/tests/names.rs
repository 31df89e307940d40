//! The check of names: what is in a small repository is found in every form, and a made-up name of
//! every form is reported.

mod support;

use checks::cited::missing;
use checks::known::Known;
use checks::page::{spans, Span};
use std::fs;
use support::Folder;

/// A small repository with a crate, an edit, a proof, a test, a page and what a build made, for the
/// test of that name.
fn repository(name: &str) -> Folder {
    let root = Folder::new(name);
    let files = [
        ("crates.txt", "sides staticlib: io # of lines\n"),
        (
            "crates/sides/src/lib.rt",
            "// old_name\npub fn line_of() {}\n",
        ),
        (
            "crates/sides/specs/Sides.antt",
            "-- gone\nuse Rattle.std.specs.Prelude.{ℕ}\npub side_of : ℕ\n",
        ),
        (
            "crates/sides/proofs/line_of/Answers.antt",
            "use Rattle.sides.proofs.line_of.Goals\nreturns c = search rules\n",
        ),
        ("crates/sides/must-fail/line_late.edit", "# late\n"),
        ("crates/sides/out/rlib/Built.antt", "pub built : ℕ\n"),
        ("reference/tests/limits.rs", "/* lost */ fn one_more() {}\n"),
        ("scripts/names.rs", "fn only_a_script() {}\n"),
        ("scripts/build", "only_a_word\n"),
        ("docs/LAYOUT.md", "never_cited\n"),
    ];
    for (path, text) in files {
        let path = root.join(path);
        fs::create_dir_all(path.parent().expect("a file has a folder")).expect("a folder");
        fs::write(path, text).expect("a file");
    }
    root
}

/// The lines that are reported of a page.
fn reported(name: &str, page: &str) -> Vec<String> {
    let known = Known::read(&repository(name)).expect("the repository can be read");
    missing("PAGE.md", page, &known)
}

#[test]
fn names_that_are_there() {
    let page = "`line_of`, `side_of`, `one_more`, `line_late`, `Sides`, `sides`, `io`, `limits`,\n\
        `sides::line_of`, `Sides .side_of`, `line_..`, `*_of`,\n\
        `crates/sides/src/lib.rt`, `specs/Sides.antt`, `Sides.antt`, `crates/NAME/specs/`, `*.edit`,\n\
        `.antt`, `.side_of`, `sides/line_late`, `docs/LAYOUT.md`, `crates/sides`,\n\
        `sides.lib`, `libsides.a`, `target/bin/sides`, `target/made/NAME`, `crates/sides/out/libsides.a`, `crates/NAME/out`,\n\
        `rt ci sides`, `rt ci --anew`, `rt must-fail NAME`, `scripts/build`, `scripts/build sides`, `cd crates/NAME && rt check`,\n\
        `proofs/line_of/Answers.antt`, `Answers.antt`, `std.specs.Prelude`, `Rattle.sides.specs.Sides.{side_of, ◌≡◌}`,\n\
        `rt check sides`, `rt check --only line_of`, `rt lemma made up`, `#![tactic(auto)]`\n";
    assert_eq!(reported("there", page), Vec::<String>::new());
}

#[test]
fn made_up_names() {
    for text in [
        "made_up",
        "old_name",
        "gone",
        "lost",
        "late",
        "only_a_script",
        "never_cited",
        "sides::made_up",
        "made_up::line_of",
        "Sides .made_up",
        "made_..",
        "*Made",
        "crates/sides/src/made.rt",
        "specs/Made.antt",
        "Made.antt",
        "crates/NAME/made/",
        "*.made",
        ".made",
        "sides.made",
        "sides/made_up",
        "made/line_late",
        "libmade.a",
        "target/bin/made",
        "rt check made",
        "rt try made",
        "rt ci made",
        "rt must-fail made",
        "scripts/build made",
        "crates/made/out",
        "cd crates/made && rt check",
        "proofs/line_of/Made.antt",
        "Invariants.antt",
        "built",
        "Built.antt",
        "only_a_word",
        "std.specs.Made",
        "Rattle.sides.specs.Sides.{side_of, made_up}",
        "Rattle.sides.specs.Made.{side_of}",
    ] {
        let page = format!("First.\n\nThen `line_of`\nand `{text}`.\n");
        let expected = vec![format!("PAGE.md:4: `{text}` is not there")];
        assert_eq!(reported("made_up", &page), expected);
    }
}

#[test]
fn files_by_their_crate() {
    let page = "`side_of` (sides Sides), `line_of` (sides), by sides Sides; `x` (as Before) and sides Of lines,\n";
    assert_eq!(
        reported("files", page),
        [
            "PAGE.md:1: `x` is not there",
            "PAGE.md:1: as Before is not there",
            "PAGE.md:1: sides Of is not there"
        ]
    );
    for (text, lost) in [
        ("`side_of` (sides Made)", "sides Made"),
        ("`side_of` (gone Sides)", "gone Sides"),
        ("laws: sides Sides, Made", "sides Made"),
    ] {
        assert_eq!(
            reported("files", text),
            [format!("PAGE.md:1: {lost} is not there")]
        );
    }
}

#[test]
fn other_texts() {
    let page =
        "`?`, `8`, `0.5`, `made up`, `made=`, `a + b`, `f(&made[a..e])`, `N passed, 0 failed`\n";
    assert_eq!(reported("other", page), Vec::<String>::new());
}

#[test]
fn lines_of_a_page() {
    let page = "a `b\nc` d\n\n```c\nint `no`;\n```\n| `e` | `f` |\nlast `g`\n";
    let span = |line, text: &str| Span {
        line,
        text: text.to_string(),
    };
    let found = spans(page);
    assert_eq!(
        found.spans,
        [span(1, "b c"), span(7, "e"), span(7, "f"), span(8, "g")]
    );
    assert!(found.unpaired.is_empty());
    assert_eq!(spans("first\n\none ` and\nno other\n").unpaired, [3]);
}
