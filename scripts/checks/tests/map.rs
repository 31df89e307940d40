//! The map of the crates: its layers, its text in the page, its picture.

use checks::crate_list::read;
use checks::layers::layers;
use checks::picture::picture;
use checks::rows::{placed, rows};

const LIST: &str = concat!(
    "# a comment\n",
    "low:\n",
    "other:\n",
    "middle: low\n",
    "high: low other middle\n",
    "top staticlib: high low libc\n",
    "beside: low\n",
);

const ROWS: &str = concat!(
    " 3  top     over high; of the kit libc\n",
    " 2  high    over other, middle\n",
    " 1  middle  over low\n",
    "    beside  over low\n",
    " 0  low\n",
    "    other\n",
);

#[test]
fn rows_by_layer() {
    assert_eq!(rows(&layers(&read(LIST))), ROWS);
}

#[test]
fn rows_in_the_page() {
    let page = |map: &str| {
        format!(
            "before\n<!-- the map: made by `make map` -->\n{map}<!-- end of the map -->\nafter\n"
        )
    };
    let whole = page(&format!("```text\n{ROWS}```\n"));
    assert_eq!(placed(&page(""), ROWS), Some(whole.clone()));
    assert_eq!(placed(&page("old\n"), ROWS), Some(whole.clone()));
    assert_eq!(placed(&whole, ROWS), Some(whole));
    assert_eq!(placed("no marks\n", ROWS), None);
}

/// Each crate has a box, and each reduced use a line.
#[test]
fn boxes_and_lines() {
    let svg = picture(&layers(&read(LIST)));
    for name in ["low", "other", "middle", "high", "top", "beside"] {
        assert_eq!(svg.matches(&format!(">{name}</text>")).count(), 1);
    }
    assert_eq!(svg.matches("<polyline").count(), 5);
}
