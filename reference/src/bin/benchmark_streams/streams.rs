//! The streams: an index to begin with, and calls one after another. Equal n give equal streams.

use crate::cells::{Shape, SHAPES};
use crate::replay::answers;
use reference::bands::{dear, Dear};
use reference::geometry::Cell;
use reference::memory::image;
use reference::memory::layout::length_of;
use reference::random::Random;

/// A call of a stream.
#[derive(Clone, Copy, Debug)]
pub enum Command {
    Insert(Cell),
    Remove(Cell),
}

pub struct Stream {
    /// The index before the first call.
    pub index: Vec<u32>,
    pub commands: Vec<Command>,
}

/// The kinds of streams.
#[derive(Clone, Copy)]
pub enum Kind {
    Filling(Shape),
    Changing(Shape),
    Full(Shape),
    GoingOn(Shape),
    Ragged,
    WithDearCall,
}

/// All kinds, in the order of the rows.
pub fn kinds() -> Vec<Kind> {
    let mut kinds = SHAPES.map(Kind::Filling).to_vec();
    kinds.extend([Shape::Random, Shape::Sorted, Shape::Crowded].map(Kind::Changing));
    kinds.extend([Shape::Random, Shape::Sorted].map(Kind::Full));
    kinds.extend([Shape::Sorted, Shape::Row, Shape::Diagonal].map(Kind::GoingOn));
    kinds.extend([Kind::Ragged, Kind::WithDearCall]);
    kinds
}

impl Kind {
    pub fn name(self) -> String {
        match self {
            Kind::Filling(shape) => shape.name().to_string(),
            Kind::Changing(shape) => format!("{}, removals", shape.name()),
            Kind::Full(shape) => format!("{}, full", shape.name()),
            Kind::GoingOn(shape) => format!("{} goes on", shape.name()),
            Kind::Ragged => "ragged".to_string(),
            Kind::WithDearCall => "one dear call".to_string(),
        }
    }

    /// The stream for an index of n parts.
    pub fn stream(self, n: usize) -> Stream {
        match self {
            Kind::Filling(shape) => filling(n, shape),
            Kind::Changing(shape) => changing(n, shape),
            Kind::Full(shape) => full(n, shape),
            Kind::GoingOn(shape) => going_on(n, shape),
            Kind::Ragged => ragged(n),
            Kind::WithDearCall => with_dear_call(n),
        }
    }
}

fn random_of(n: usize, shape: Shape) -> Random {
    Random::for_case(1, n as u64, shape as u64)
}

/// Insertions into a fresh index up to the first that is refused with 8.
fn filling(n: usize, shape: Shape) -> Stream {
    let cells = shape.cells(n, &mut random_of(n, shape));
    let mut stream = Stream {
        index: vec![0; length_of(n)],
        commands: cells.into_iter().map(Command::Insert).collect(),
    };
    let (answers, _) = answers(&stream);
    let full = answers.iter().position(|&answer| answer == 8);
    stream.commands.truncate(full.unwrap_or(answers.len()));
    stream
}

/// Three entries for each part; then again and again the oldest is removed and one inserted.
fn changing(n: usize, shape: Shape) -> Stream {
    let cells = shape.cells(n, &mut random_of(n, shape));
    let held = 3 * n;
    let first = cells[..held].iter().map(|&cell| Command::Insert(cell));
    let pairs = cells[held..].iter().zip(&cells);
    let rest = pairs.flat_map(|(&new, &old)| [Command::Remove(old), Command::Insert(new)]);
    Stream {
        index: vec![0; length_of(n)],
        commands: first.chain(rest).collect(),
    }
}

/// A full index goes on getting insertions anywhere, of which many are refused with 8.
fn full(n: usize, shape: Shape) -> Stream {
    let (_, index) = answers(&filling(n, shape));
    let mut random = Random::for_case(2, n as u64, shape as u64);
    let cells = Shape::Random.cells(n, &mut random);
    Stream {
        index,
        commands: cells[..2 * n]
            .iter()
            .map(|&cell| Command::Insert(cell))
            .collect(),
    }
}

/// The stream that filled an index goes on: from the first insertion that is refused with 8.
fn going_on(n: usize, shape: Shape) -> Stream {
    let filling = filling(n, shape);
    let cells = shape.cells(n, &mut random_of(n, shape));
    let next = cells[filling.commands.len()..].iter().take(2 * n);
    Stream {
        index: answers(&filling).1,
        commands: next.map(|&cell| Command::Insert(cell)).collect(),
    }
}

/// Ten rounds from an empty index, with cells anywhere; once 20 entries are held, any one is removed
/// after each insertion. Polygons do not shrink, so they become ragged: some three rectangles on
/// average, and up to 16. Several rounds, since one can go far from the average.
fn ragged(n: usize) -> Stream {
    let mut random = Random::for_case(3, n as u64, 0);
    let mut commands = Vec::new();
    for _ in 0..10 {
        let mut held = Vec::new();
        for _ in 0..2_000 {
            let cell = [0; 2].map(|_| random.between(0, 65535));
            commands.push(Command::Insert(cell));
            held.push(cell);
            if held.len() > 20 {
                let removed = random.between(0, 20) as usize;
                commands.push(Command::Remove(held.swap_remove(removed)));
            }
        }
        commands.extend(held.into_iter().map(Command::Remove));
    }
    Stream {
        index: vec![0; length_of(n)],
        commands,
    }
}

/// Five hundred insertions, each removed again; in the middle the one that is dear.
fn with_dear_call(n: usize) -> Stream {
    let Dear { tree, cell } = dear(n);
    let parts: Vec<usize> = (0..tree.nodes()).collect();
    let ordinary = |i: u32| {
        let cell = [1 + i, 7];
        [Command::Insert(cell), Command::Remove(cell)]
    };
    let before = (0..250).flat_map(ordinary);
    let after = (250..500).flat_map(ordinary);
    Stream {
        index: image(n, Some(&tree), &parts),
        commands: before.chain([Command::Insert(cell)]).chain(after).collect(),
    }
}
