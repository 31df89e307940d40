//! The map of the crates as text: a row for each crate, the highest layer first.

use crate::layers::Layered;

const START: &str = "<!-- the map: made by `make map` -->\n";
const END: &str = "<!-- end of the map -->\n";

pub fn rows(layers: &[Vec<Layered>]) -> String {
    let names = layers.iter().flatten().map(|one| one.name.len());
    let width = names.max().unwrap_or(0);
    let mut text = String::new();
    for (level, layer) in layers.iter().enumerate().rev() {
        let mut shown = level.to_string();
        for one in layer {
            let row = format!("{shown:>2}  {:width$}  {}", one.name, used(one));
            text.push_str(row.trim_end());
            text.push('\n');
            shown.clear();
        }
    }
    text
}

fn used(one: &Layered) -> String {
    let mut parts = Vec::new();
    if !one.over.is_empty() {
        parts.push(format!("over {}", one.over.join(", ")));
    }
    if !one.kit.is_empty() {
        parts.push(format!("of the kit {}", one.kit.join(", ")));
    }
    parts.join("; ")
}

/// The page with the rows between its two marks; none where it has no such marks.
pub fn placed(page: &str, rows: &str) -> Option<String> {
    let (before, rest) = page.split_once(START)?;
    let (_, after) = rest.split_once(END)?;
    Some(format!("{before}{START}```text\n{rows}```\n{END}{after}"))
}
