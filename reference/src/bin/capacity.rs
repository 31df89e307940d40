//! How many entries an index of N parts holds. The proved library gets 20,000 cells one after
//! another, from a fresh index on. The entries held are counted when a cell is first refused with
//! 8, for want of parts, or with 7, where a polygon passes its limit; and after the last cell, as
//! others may still fit. Random cells come in 100 streams, and their row has the mean, the least
//! and the most.

use reference::geometry::Cell;
use reference::proved_index::insert;
use reference::random::Random;

/// The cells of a stream.
const CELLS: u32 = 20_000;

/// The streams of a kind that has random cells.
const STREAMS: u64 = 100;

/// How the cells lie, and in which order they come.
struct Points {
    name: &'static str,
    streams: u64,
    cells: fn(&mut Random) -> Vec<Cell>,
}

const POINTS: [Points; 5] = [
    Points {
        name: "random",
        streams: STREAMS,
        cells: random_cells,
    },
    Points {
        name: "random, sorted by x, then y",
        streams: STREAMS,
        cells: sorted_cells,
    },
    Points {
        name: "row (i, 0)",
        streams: 1,
        cells: |_| (0..CELLS).map(|i| [i, 0]).collect(),
    },
    Points {
        name: "diagonal (i, i)",
        streams: 1,
        cells: |_| (0..CELLS).map(|i| [i, i]).collect(),
    },
    Points {
        name: "diagonal (65535 - i, 65535 - i)",
        streams: 1,
        cells: |_| (0..CELLS).map(|i| [65535 - i; 2]).collect(),
    },
];

/// Any cells of the grid. A cell may come twice; it is then refused with 5.
fn random_cells(random: &mut Random) -> Vec<Cell> {
    let cell = |_| [0, 1].map(|_| random.between(0, 65535));
    (0..CELLS).map(cell).collect()
}

fn sorted_cells(random: &mut Random) -> Vec<Cell> {
    let mut cells = random_cells(random);
    cells.sort_unstable();
    cells
}

/// What became of a stream.
#[derive(Default)]
struct Filled {
    /// The entries held when a cell was first refused with 7 or 8.
    first: Option<u32>,
    /// The entries held after the last cell.
    last: u32,
    /// The cells that were refused with 7, and whether the first that was refused is one of them.
    sevens: u32,
    starts_with_7: bool,
}

/// Inserts the cells into a fresh index of n parts.
fn fill(n: usize, cells: &[Cell]) -> Filled {
    let mut index = vec![0; 64 + 128 * n];
    let mut work = index.clone();
    let mut filled = Filled::default();
    for &cell in cells {
        let held = &mut filled.last;
        let answer = insert(&mut index, &mut work, cell, 0, held, &mut 0);
        assert!(matches!(answer, 0 | 5 | 7 | 8), "{cell:?}: {answer}");
        if matches!(answer, 7 | 8) && filled.first.is_none() {
            filled.first = Some(*held);
            filled.starts_with_7 = answer == 7;
        }
        filled.sevens += u32::from(answer == 7);
    }
    filled
}

/// The mean, and the least and the most where there are several.
fn shown(counts: &[u32]) -> String {
    let mean = f64::from(counts.iter().sum::<u32>()) / counts.len() as f64;
    match (counts, counts.iter().min(), counts.iter().max()) {
        ([_, _, ..], Some(least), Some(most)) => format!("{mean:.0} ({least} to {most})"),
        _ => format!("{mean:.0}"),
    }
}

/// Prints the row of one kind of points.
fn print_row(points: &Points, n: usize) {
    let streams = (0..points.streams).map(|seed| (points.cells)(&mut Random::new(seed)));
    let filled: Vec<Filled> = streams.map(|cells| fill(n, &cells)).collect();
    let first = filled.iter().map(|f| f.first.expect("the index is full"));
    let last = filled.iter().map(|f| f.last);
    println!(
        "| {} | {n} | {} | {} | {} | {} |",
        points.name,
        shown(&first.collect::<Vec<u32>>()),
        filled.iter().filter(|f| f.starts_with_7).count(),
        shown(&last.collect::<Vec<u32>>()),
        filled.iter().map(|f| f.sevens).sum::<u32>()
    );
}

fn main() {
    println!(
        "| points | N | held at the first refusal | which was 7 | held after {CELLS} cells \
        | refused with 7 |"
    );
    println!("|---|---|---|---|---|---|");
    for points in &POINTS {
        for n in [16, 64, 256] {
            print_row(points, n);
        }
    }
}
