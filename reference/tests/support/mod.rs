//! What the tests share: cases of the drawing exercise and their comparison, random lists, faults,
//! counts; for the index the checks after each command and the streams.

// Each test program uses a part of this module.
#![allow(dead_code)]

pub mod build;
pub mod case;
pub mod cell_set;
pub mod checked;
pub mod choices;
pub mod compared;
pub mod containment;
pub mod counts;
pub mod cut_by_siblings;
pub mod extra;
pub mod fault;
pub mod grown_leaves;
pub mod inside;
pub mod joins;
pub mod kinds;
pub mod limits;
pub mod lines;
pub mod lists;
pub mod many_pieces;
pub mod most_removed;
pub mod nested;
pub mod others;
pub mod over_sibling;
pub mod parent;
pub mod polygons;
pub mod program;
pub mod removed_cells;
pub mod report;
pub mod shapes;
pub mod sound;
pub mod splitting;
pub mod streams;
pub mod tables;
pub mod trace;
pub mod wkb;

use std::env;
use std::io::Write;
use std::sync::OnceLock;
use std::time::{SystemTime, UNIX_EPOCH};

// Numbers of documents 01 and 02, written out here so that the tests do not follow a change of the
// second implementation's own.

/// The largest upper right coordinate.
pub const GRID_END: u32 = 65536;

/// The most rectangles of a list.
pub const LIST_LIMIT: usize = 256;

/// The most rectangles of a polygon.
pub const POLYGON_LIMIT: usize = 16;

/// The numbers of a result list.
pub const RESULT_LENGTH: usize = 1024;

/// The bytes of a polygon of 16 rectangles as Well-Known Binary, the most that a call writes.
pub const OUTPUT_LIMIT: usize = 1497;

/// The seed of this test program: LINTZOGER_SEED where it is set (decimal), else from the clock.
/// It is printed past the test harness, which shows nothing of a passing test otherwise.
pub fn seed() -> u64 {
    static SEED: OnceLock<u64> = OnceLock::new();
    *SEED.get_or_init(|| {
        let seed = match env::var("LINTZOGER_SEED") {
            Ok(text) => text.parse().expect("LINTZOGER_SEED is a decimal number"),
            Err(_) => {
                let now = SystemTime::now().duration_since(UNIX_EPOCH);
                now.expect("the clock is past 1970").as_nanos() as u64
            }
        };
        say(&format!("LINTZOGER_SEED={seed}"));
        seed
    })
}

/// Writes a line to standard error, also from a test that passes.
pub fn say(line: &str) {
    let line = format!("{line}\n");
    std::io::stderr()
        .write_all(line.as_bytes())
        .expect("standard error takes a line");
}
