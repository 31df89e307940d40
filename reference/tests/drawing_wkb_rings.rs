//! Document 02, request A.4: the library's bytes read back by a reader of Well-Known Binary. They
//! are the given rectangles, in their order, as closed counterclockwise rings that start at ll.

mod support;

use reference::random::Random;
use std::collections::BTreeSet;
use support::case::{Call, Case};
use support::lists::random_case;
use support::wkb::{case, rings, Ring};
use support::{seed, GRID_END, OUTPUT_LIMIT, POLYGON_LIMIT};

/// Random polygons read back.
const POLYGONS: u64 = 20_000;

/// The rings that the library writes for a polygon, given room enough.
fn written(case: &Case, place: &str) -> Vec<Ring> {
    let output = case.expect(0, place);
    rings(output.written_bytes())
}

/// The library's doubles are the rectangles' numbers. Each coordinate is read as llx and as lly,
/// from 0 to 65535, and as urx and as ury, from 1 to 65536.
fn check_every_coordinate(rectangles: &[[u32; 4]]) {
    let mut read: [BTreeSet<u32>; 4] = Default::default();
    for polygon in rectangles.chunks(POLYGON_LIMIT) {
        let place = format!("{polygon:?}");
        let rings = written(&case(polygon, OUTPUT_LIMIT), &place);
        assert_eq!(rings.len(), polygon.len(), "{place}");
        for (ring, &given) in rings.iter().zip(polygon) {
            let [llx, lly, urx, ury] = given.map(f64::from);
            let corners = [[llx, lly], [urx, lly], [urx, ury], [llx, ury], [llx, lly]];
            assert_eq!(*ring, corners, "{place}");
            for (all, coordinate) in read.iter_mut().zip([ring[0], ring[2]].concat()) {
                all.insert(coordinate as u32);
            }
        }
    }
    for (all, first) in read.iter().zip([0, 0, 1, 1]) {
        assert!(all.iter().copied().eq(first..first + GRID_END));
    }
}

/// Rectangles of one cell, from a corner of the grid to the opposite one.
#[test]
fn every_coordinate_of_single_cells() {
    let cell = |k| [k, GRID_END - 1 - k, k + 1, GRID_END - k];
    check_every_coordinate(&(0..GRID_END).map(cell).collect::<Vec<_>>());
}

/// Rectangles that reach the grid's ends in both dimensions.
#[test]
fn every_coordinate_with_the_ends_of_the_grid() {
    let lower_right = |k| [k, 0, GRID_END, k + 1];
    let upper_left = |k| [0, k, k + 1, GRID_END];
    let both = (0..GRID_END).flat_map(|k| [lower_right(k), upper_left(k)]);
    check_every_coordinate(&both.collect::<Vec<_>>());
}

/// Twice the area that the ring runs around: positive where it runs counterclockwise.
fn doubled_area(ring: &Ring) -> f64 {
    let sides = ring.windows(2);
    sides.map(|s| s[0][0] * s[1][1] - s[1][0] * s[0][1]).sum()
}

/// Polygons of all kinds.
#[test]
fn random_polygons() {
    let seed = seed();
    for number in 0..POLYGONS {
        let mut random = Random::for_case(seed, 3500, number);
        let mut case = random_case(Call::Wkb, &mut random);
        case.output_length = OUTPUT_LIMIT;
        let place = format!("LINTZOGER_SEED={seed}, case {number}");
        let rings = written(&case, &place);
        assert_eq!(rings.len(), case.polygon.len() / 4, "{place}");
        for (ring, given) in rings.iter().zip(case.polygon.chunks(4)) {
            let [llx, lly, urx, ury] = [0, 1, 2, 3].map(|i| f64::from(given[i]));
            assert_eq!(ring.len(), 5, "{place}");
            assert_eq!((ring[0], ring[4]), ([llx, lly], [llx, lly]), "{place}");
            let cells = (urx - llx) * (ury - lly);
            assert_eq!(doubled_area(ring), 2.0 * cells, "{place}");
            assert!(ring.contains(&[urx, ury]), "{place}");
        }
    }
}
