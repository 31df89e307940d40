//! The numbers of the rules in the heads of the files of definitions.

use checks::rules::{head_line, placed, rules_of};

const PAGE: &str = concat!(
    "A page. (low/specs/Before) stands before the rules.\n",
    "**2.1** One. Definitions: `a` (low/specs/A); `b` (low/specs/B).\n",
    "**2.2** Two, which goes on\n",
    "in a second line. Definition: `c` (low/specs/A). Theorem: `t` (low/proofs/Laws).\n",
    "**10.3** Three. Definitions: `a`, `d` (low/specs/A).\n",
);

#[test]
fn rules_by_file() {
    let rules = rules_of(PAGE);
    let files: Vec<&str> = rules.keys().map(String::as_str).collect();
    assert_eq!(files, ["low/specs/A", "low/specs/B"]);
    assert_eq!(rules["low/specs/A"], [(2, 1), (2, 2), (10, 3)]);
    assert_eq!(rules["low/specs/B"], [(2, 1)]);
}

#[test]
fn numbers_in_a_row() {
    let line = head_line(&[(2, 1), (2, 2), (4, 1), (4, 2), (4, 3), (5, 4)]);
    assert_eq!(line, "-- docs/RULES.md 2.1, 2.2, 4.1 to 4.3, 5.4\n");
}

#[test]
fn line_in_the_head() {
    let bare = "-- A file.\n-- It goes on.\nuse x\n-- not the head\n";
    let with = "-- A file.\n-- It goes on.\n-- docs/RULES.md 2.1\nuse x\n-- not the head\n";
    let line = head_line(&[(2, 1)]);
    assert_eq!(placed(bare, Some(&line)), with);
    assert_eq!(placed(with, Some(&line)), with);
    assert_eq!(placed(with, None), bare);
    let other = head_line(&[(3, 7)]);
    assert_eq!(placed(with, Some(&other)), with.replace("2.1", "3.7"));
}
