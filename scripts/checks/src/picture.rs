//! The map of the crates as a picture, an SVG file: a row of boxes for each layer, the highest on
//! top, and a line from each crate to those that it is over.

use crate::layers::Layered;
use std::collections::BTreeMap;

const BOX_WIDTH: i32 = 104;
const BOX_HEIGHT: i32 = 28;
const PASS_WIDTH: i32 = 20;
const GAP: i32 = 20;
const ROW: i32 = 62;
const MARGIN: i32 = 16;

/// A place in a row: a crate's box, or where the line from the first crate to the second passes.
#[derive(Clone, PartialEq, Eq, PartialOrd, Ord)]
enum Slot {
    Crate(String),
    Pass(String, String),
}

impl Slot {
    fn width(&self) -> i32 {
        match self {
            Slot::Crate(_) => BOX_WIDTH,
            Slot::Pass(..) => PASS_WIDTH,
        }
    }
}

pub fn picture(layers: &[Vec<Layered>]) -> String {
    let lines = lines(layers);
    let mut rows = slots(layers, &lines);
    for _ in 0..4 {
        for level in 1..rows.len() {
            order(&mut rows, level, level - 1, &lines);
        }
        for level in (0..rows.len() - 1).rev() {
            order(&mut rows, level, level + 1, &lines);
        }
    }
    drawn(&rows, &lines)
}

/// Each line as the slots that it goes through, from above.
fn lines(layers: &[Vec<Layered>]) -> Vec<Vec<Slot>> {
    let mut levels = BTreeMap::new();
    for (layer, level) in layers.iter().zip(0..) {
        levels.extend(layer.iter().map(|one| (one.name.clone(), level)));
    }
    let mut lines = Vec::new();
    for one in layers.iter().flatten() {
        for lower in &one.over {
            let between: usize = levels[&one.name] - levels[lower] - 1;
            let mut line = vec![Slot::Crate(one.name.clone())];
            line.extend(vec![Slot::Pass(one.name.clone(), lower.clone()); between]);
            line.push(Slot::Crate(lower.clone()));
            lines.push(line);
        }
    }
    lines
}

/// The slots of each row, from the lowest.
fn slots(layers: &[Vec<Layered>], lines: &[Vec<Slot>]) -> Vec<Vec<Slot>> {
    let crates = |layer: &Vec<Layered>| layer.iter().map(|c| Slot::Crate(c.name.clone())).collect();
    let mut rows: Vec<Vec<Slot>> = layers.iter().map(crates).collect();
    for line in lines {
        let top = rows.iter().position(|row| row.contains(&line[0]));
        let top = top.expect("each crate has a row");
        for (slot, down) in line.iter().zip(0..).skip(1).take(line.len() - 2) {
            rows[top - down].push(slot.clone());
        }
    }
    rows
}

/// Orders a row by the middle of what its slots are joined to in the row beside it.
fn order(rows: &mut [Vec<Slot>], level: usize, beside: usize, lines: &[Vec<Slot>]) {
    let places: BTreeMap<Slot, i32> = centres(&rows[beside]);
    let middle = |slot: &Slot| {
        let mut joined = Vec::new();
        for pair in lines.iter().flat_map(|line| line.windows(2)) {
            let (one, other) = if level > beside { (0, 1) } else { (1, 0) };
            if pair[one] == *slot {
                joined.extend(places.get(&pair[other]));
            }
        }
        joined.iter().sum::<i32>() * 64 / joined.len().max(1) as i32
    };
    rows[level].sort_by_key(middle);
}

/// The middle of each slot of a row that is centred at 0.
fn centres(row: &[Slot]) -> BTreeMap<Slot, i32> {
    let width: i32 = row.iter().map(|slot| slot.width() + GAP).sum::<i32>() - GAP;
    let mut left = -width / 2;
    let mut centres = BTreeMap::new();
    for slot in row {
        centres.insert(slot.clone(), left + slot.width() / 2);
        left += slot.width() + GAP;
    }
    centres
}

fn drawn(rows: &[Vec<Slot>], lines: &[Vec<Slot>]) -> String {
    let widest = rows
        .iter()
        .flat_map(|row| centres(row))
        .map(|(_, x)| x.abs());
    let half = widest.max().unwrap_or(0) + BOX_WIDTH / 2 + MARGIN;
    let (width, height) = (
        2 * half,
        ROW * rows.len() as i32 + 2 * MARGIN - (ROW - BOX_HEIGHT),
    );
    let mut places = BTreeMap::new();
    for (row, down) in rows.iter().rev().zip(0..) {
        let y = MARGIN + BOX_HEIGHT / 2 + ROW * down;
        places.extend(
            centres(row)
                .into_iter()
                .map(|(slot, x)| ((slot, y), x + half)),
        );
    }
    let mut svg = format!(
        "<svg xmlns=\"http://www.w3.org/2000/svg\" width=\"{width}\" height=\"{height}\" \
         font-family=\"sans-serif\" font-size=\"14\" text-anchor=\"middle\">\n\
         <rect width=\"{width}\" height=\"{height}\" fill=\"white\"/>\n"
    );
    for line in lines {
        svg.push_str(&drawn_line(line, &places));
    }
    for ((slot, y), x) in &places {
        if let Slot::Crate(name) = slot {
            svg.push_str(&drawn_box(name, *x, *y));
        }
    }
    svg + "</svg>\n"
}

fn drawn_line(line: &[Slot], places: &BTreeMap<(Slot, i32), i32>) -> String {
    let top = places.keys().find(|(slot, _)| *slot == line[0]);
    let (_, top) = top.expect("each crate has a place");
    let mut points = Vec::new();
    for (slot, down) in line.iter().zip(0..) {
        let y = top + ROW * down;
        let x = places[&(slot.clone(), y)];
        points.push(format!("{x},{y}"));
    }
    let points = points.join(" ");
    format!("<polyline points=\"{points}\" fill=\"none\" stroke=\"#777\"/>\n")
}

fn drawn_box(name: &str, x: i32, y: i32) -> String {
    let (left, top) = (x - BOX_WIDTH / 2, y - BOX_HEIGHT / 2);
    format!(
        "<rect x=\"{left}\" y=\"{top}\" width=\"{BOX_WIDTH}\" height=\"{BOX_HEIGHT}\" rx=\"4\" \
         fill=\"#eef3fa\" stroke=\"#345\"/>\n<text x=\"{x}\" y=\"{}\">{name}</text>\n",
        y + 5
    )
}
