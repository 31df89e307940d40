//! Document 02, request A.3: the containment test against sets of cells on small squares, and
//! against cuts on the whole grid.
//!
//! As many rectangles are compared as are needed for a union that has the cell, or all.

mod support;

use reference::geometry::{cut_list, Rectangle};
use reference::random::Random;
use support::build::polygon as rectangles;
use support::containment::{case, check};
use support::{say, seed, GRID_END, POLYGON_LIMIT};

/// Random polygons of each test.
const POLYGONS: u64 = 20_000;

/// How often the first rectangle with the cell was at each place, and none had it for each count.
#[derive(Default)]
struct Counts {
    first_at: [u64; POLYGON_LIMIT],
    none_of: [u64; POLYGON_LIMIT],
}

impl Counts {
    fn add(&mut self, count: usize, least: Option<usize>) {
        match least {
            Some(compared) => self.first_at[compared - 1] += 1,
            None => self.none_of[count - 1] += 1,
        }
    }

    /// Fails where a place or a count was seen less often than required.
    fn require(&self, least: u64, test: &str) {
        let Counts { first_at, none_of } = self;
        say(&format!(
            "{test}: the first at each place {first_at:?}; none, for each count {none_of:?}"
        ));
        assert!(first_at.iter().chain(none_of).all(|&n| n >= least));
    }
}

/// A square of the grid with up to 8 by 8 cells. A set of its cells is a 64-bit number, one bit a
/// cell.
#[derive(Clone, Copy)]
struct Square {
    first: [u32; 2],
    side: u32,
}

impl Square {
    fn bit(self, [x, y]: [u32; 2]) -> u64 {
        1 << (8 * (y - self.first[1]) + x - self.first[0])
    }

    /// The cells of a rectangle that lies in the square.
    fn set(self, [llx, lly, urx, ury]: [u32; 4]) -> u64 {
        let cells = (lly..ury).flat_map(|y| (llx..urx).map(move |x| [x, y]));
        cells.fold(0, |set, cell| set | self.bit(cell))
    }

    fn cells(self) -> impl Iterator<Item = [u32; 2]> {
        let ([x, y], side) = (self.first, self.side);
        (0..side * side).map(move |i| [x + i % side, y + i / side])
    }

    /// Asks for each cell of the square.
    fn check(self, polygon: &[[u32; 4]], place: &str, counts: &mut Counts) {
        let count = polygon.len();
        // The union of the first k rectangles, for each k.
        let mut unions = vec![0];
        for (k, &r) in polygon.iter().enumerate() {
            unions.push(unions[k] | self.set(r));
        }
        let mut case = case(polygon, self.first);
        for cell in self.cells() {
            let is_in = |union: u64| union & self.bit(cell) != 0;
            let least = (1..=count).find(|&k| is_in(unions[k]));
            let has = u32::from(is_in(unions[count]));
            let compared = least.unwrap_or(count) as u32;
            case.cell = cell;
            let output = case.expect(0, place);
            let stored = [output.has, output.compared];
            assert_eq!(
                stored,
                [has, compared],
                "{place}: {polygon:?}, cell {cell:?}"
            );
            counts.add(count, least);
        }
    }
}

/// Every rectangle with corners from `first` to `first + 3` in both dimensions.
fn all_rectangles(first: u32) -> Vec<[u32; 4]> {
    let ranges = [[0, 1], [0, 2], [0, 3], [1, 2], [1, 3], [2, 3]];
    let ranges = ranges.map(|range| range.map(|corner| first + corner));
    let pairs = ranges.iter().flat_map(|&x| ranges.map(|y| (x, y)));
    pairs
        .map(|([llx, urx], [lly, ury])| [llx, lly, urx, ury])
        .collect()
}

/// Every list of one to three of the rectangles, each cell of the square.
fn check_short_polygons(all: &[[u32; 4]], square: Square) {
    let mut counts = Counts::default();
    for &a in all {
        square.check(&[a], "polygon of 1", &mut counts);
        for &b in all {
            square.check(&[a, b], "polygon of 2", &mut counts);
            for &c in all {
                square.check(&[a, b, c], "polygon of 3", &mut counts);
            }
        }
    }
}

/// Cells from 0 to 3, one past the rectangles' last.
#[test]
fn every_short_polygon() {
    let first = [0, 0];
    check_short_polygons(&all_rectangles(0), Square { first, side: 4 });
}

/// Cells from 65532, one before the rectangles' first, to 65535; ur up to 65536.
#[test]
fn every_short_polygon_at_the_upper_corner() {
    let first = [GRID_END - 4; 2];
    check_short_polygons(&all_rectangles(GRID_END - 3), Square { first, side: 4 });
}

/// One to sixteen rectangles on the square that begins there.
fn random_polygon(random: &mut Random, first: [u32; 2], side: u32) -> Vec<[u32; 4]> {
    let longest = random.between(1, side);
    (0..random.between(1, POLYGON_LIMIT as u32))
        .map(|_| {
            let [[llx, urx], [lly, ury]] = first.map(|first| {
                let length = random.between(1, longest);
                let ll = first + random.between(0, side - length);
                [ll, ll + length]
            });
            [llx, lly, urx, ury]
        })
        .collect()
}

/// Squares of 1 to 8 cells a side: at the grid's bounds, or anywhere.
#[test]
fn random_polygons_of_small_squares() {
    let seed = seed();
    let mut counts = Counts::default();
    for number in 0..POLYGONS {
        let mut random = Random::for_case(seed, 3400, number);
        let side = random.between(1, 8);
        let first = [0, 1].map(|_| {
            let anywhere = random.between(0, GRID_END - side);
            random.pick(&[0, anywhere, GRID_END - side])
        });
        let polygon = random_polygon(&mut random, first, side);
        let place = format!("LINTZOGER_SEED={seed}, case {number}");
        Square { first, side }.check(&polygon, &place, &mut counts);
    }
    counts.require(50, "small squares");
}

/// A coordinate at an end of the range, just outside it, or anywhere in it.
fn random_near(random: &mut Random, [ll, ur]: [u32; 2]) -> u32 {
    let inside = random.between(ll, ur - 1);
    let near = [ll.saturating_sub(1), ll, inside, inside, ur - 1, ur];
    random.pick(&near).min(GRID_END - 1)
}

/// Nothing is left of the cell where the rectangles are cut out.
fn is_covered([x, y]: [u32; 2], rectangles: &[Rectangle]) -> bool {
    let cell = vec![Rectangle::new(x, y, x + 1, y + 1)];
    let left = rectangles.iter().fold(cell, |left, &r| cut_list(&left, r));
    left.is_empty()
}

/// Cells near one of the rectangles.
#[test]
fn random_polygons_of_the_whole_grid() {
    let seed = seed();
    let mut counts = Counts::default();
    for number in 0..POLYGONS {
        let mut random = Random::for_case(seed, 3401, number);
        let polygon = random_polygon(&mut random, [0, 0], GRID_END);
        let count = polygon.len();
        let list = rectangles(&polygon);
        let place = format!("LINTZOGER_SEED={seed}, case {number}");
        for _ in 0..10 {
            let [llx, lly, urx, ury] = random.pick(&polygon);
            let cell = [[llx, urx], [lly, ury]].map(|range| random_near(&mut random, range));
            let least = (1..=count).find(|&k| is_covered(cell, &list[..k]));
            let (has, compared) = (least.is_some(), least.unwrap_or(count));
            check(&polygon, cell, has, compared, &place);
            counts.add(count, least);
        }
    }
    counts.require(50, "whole grid");
}
