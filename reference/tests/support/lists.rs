//! Random valid cases: lists of rectangles that share few coordinates, so that equal, touching,
//! nested and crossing rectangles are frequent.

use super::case::{Call, Case};
use super::wkb::needed;
use super::{GRID_END, LIST_LIMIT, OUTPUT_LIMIT};
use reference::random::Random;

/// The coordinates, per dimension, that the corners of one case are taken from.
struct Coordinates([Vec<u32>; 2]);

impl Coordinates {
    fn random(random: &mut Random) -> Coordinates {
        let kind = random.between(0, 5);
        Coordinates([0, 1].map(|_| match kind {
            0 => dense(0, random),
            1 => dense(GRID_END, random),
            2 | 3 => {
                let end = random.between(0, GRID_END);
                dense(end, random)
            }
            4 => full_range(4, random),
            _ => full_range(32, random),
        }))
    }

    /// Two different coordinates of the dimension, in order.
    fn range(&self, dimension: usize, random: &mut Random) -> (u32, u32) {
        loop {
            let a = random.pick(&self.0[dimension]);
            let b = random.pick(&self.0[dimension]);
            if a != b {
                return (a.min(b), a.max(b));
            }
        }
    }

    fn rectangle(&self, random: &mut Random) -> [u32; 4] {
        let (llx, urx) = self.range(0, random);
        let (lly, ury) = self.range(1, random);
        [llx, lly, urx, ury]
    }

    /// A rectangle over all coordinates in one dimension.
    fn bar(&self, dimension: usize, random: &mut Random) -> [u32; 4] {
        let mut bar = self.rectangle(random);
        bar[dimension] = *self.0[dimension].iter().min().unwrap();
        bar[2 + dimension] = *self.0[dimension].iter().max().unwrap();
        bar
    }

    /// A coordinate of a cell at a corner, next to it, or anywhere.
    fn cell(&self, dimension: usize, random: &mut Random) -> u32 {
        let at = match random.between(0, 9) {
            0 => random.pick(&[0, 1, GRID_END - 2, GRID_END - 1]),
            1 => random.between(0, GRID_END - 1),
            2..=5 => random.pick(&self.0[dimension]),
            _ => random.pick(&self.0[dimension]).saturating_sub(1),
        };
        at.min(GRID_END - 1)
    }
}

/// A few successive coordinates, up to the given last one where there is room.
fn dense(last: u32, random: &mut Random) -> Vec<u32> {
    let side = random.pick(&[1, 2, 3, 4, 6, 8, 12]);
    let first = last.saturating_sub(side);
    (first..=first + side).collect()
}

/// The grid's first and last coordinates and some others.
fn full_range(others: u32, random: &mut Random) -> Vec<u32> {
    let mut coordinates = vec![0, 1, GRID_END - 1, GRID_END];
    let count = random.between(0, others);
    coordinates.extend((0..count).map(|_| random.between(0, GRID_END)));
    coordinates
}

/// A list size: often small, sometimes up to the limit.
fn list_size(random: &mut Random) -> usize {
    let limit = LIST_LIMIT as u32;
    let size = match random.between(1, 100) {
        1..=10 => 1,
        11..=45 => random.between(2, 4),
        46..=80 => random.between(5, 16),
        81..=95 => random.between(17, 64),
        96..=98 => random.between(65, limit),
        99 => random.between(128, limit),
        _ => random.pick(&[limit - 1, limit]),
    };
    size as usize
}

fn polygon_size(random: &mut Random) -> usize {
    let size = match random.between(1, 8) {
        1 | 2 => 1,
        3..=6 => random.between(2, 4),
        7 => random.between(5, 16),
        _ => random.pick(&[15, 16]),
    };
    size as usize
}

fn list(coordinates: &Coordinates, count: usize, random: &mut Random) -> Vec<u32> {
    let bars = random.one_in(6);
    let dimension = random.between(0, 1) as usize;
    (0..count)
        .flat_map(|_| {
            if bars {
                coordinates.bar(dimension, random)
            } else {
                coordinates.rectangle(random)
            }
        })
        .collect()
}

/// Another rectangle for the list: mostly at the same coordinates, sometimes at others or the
/// whole grid.
fn other_rectangle(coordinates: &Coordinates, random: &mut Random) -> [u32; 4] {
    match random.between(1, 24) {
        1 => [0, 0, GRID_END, GRID_END],
        2 | 3 => Coordinates::random(random).rectangle(random),
        4..=6 => coordinates.bar(random.between(0, 1) as usize, random),
        _ => coordinates.rectangle(random),
    }
}

/// A case of valid arguments.
pub fn random_case(call: Call, random: &mut Random) -> Case {
    let (list_count, polygon_count) = (list_size(random), polygon_size(random));
    random_case_of_size(call, list_count, polygon_count, random)
}

/// A case of valid arguments with so many rectangles in the list and in the polygon. (An output may
/// be too short.)
pub fn random_case_of_size(
    call: Call,
    list_count: usize,
    polygon_count: usize,
    random: &mut Random,
) -> Case {
    let coordinates = Coordinates::random(random);
    let mut case = Case::new(call);
    case.fill = random.number();
    if call.takes_list() {
        case.list = list(&coordinates, list_count, random);
    }
    if call.takes_rectangle() {
        case.rectangle = other_rectangle(&coordinates, random);
    }
    if call.takes_polygon() {
        case.polygon = (0..polygon_count)
            .flat_map(|_| other_rectangle(&coordinates, random))
            .collect();
    }
    if call.takes_cell() {
        case.cell = [0, 1].map(|d| coordinates.cell(d, random));
    }
    if call.writes_bytes() {
        case.output_length = output_length(polygon_count, random);
    }
    case
}

/// The bytes of an output for so many rectangles: as many as they need, some more, or too few.
fn output_length(rectangles: usize, random: &mut Random) -> usize {
    let need = needed(rectangles);
    match random.between(1, 8) {
        1..=4 => need,
        5 => need + random.between(1, 93) as usize,
        6 => OUTPUT_LIMIT,
        7 => need - random.between(1, 93) as usize,
        _ => random.between(0, need as u32 - 1) as usize,
    }
}
