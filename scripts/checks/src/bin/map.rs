//! map ROOT: writes the map of the crates from ROOT/crates.txt, as text into docs/ARCHITECTURE.md and as
//! a picture to docs/crates.svg. With --check behind ROOT it only compares.

use checks::made::{read, run, Made};
use checks::{crate_list, layers, picture, rows};
use std::path::Path;
use std::process::ExitCode;

const PAGE: &str = "docs/ARCHITECTURE.md";
const PICTURE: &str = "docs/crates.svg";

fn main() -> ExitCode {
    run("map", made)
}

fn made(root: &Path) -> Result<Vec<Made>, String> {
    let layers = layers::layers(&crate_list::read(&read(&root.join("crates.txt"))?));
    let page = rows::placed(&read(&root.join(PAGE))?, &rows::rows(&layers));
    let page = Made {
        path: root.join(PAGE),
        text: page.ok_or(format!("{PAGE} has no place for the map"))?,
    };
    let picture = Made {
        path: root.join(PICTURE),
        text: picture::picture(&layers),
    };
    Ok(vec![page, picture])
}
