//! Cases of the containment test, and what it reports.

use super::build::polygon as rectangles;
use super::case::{Call, Case};
use reference::geometry::{contains, Containment};

pub fn case(polygon: &[[u32; 4]], cell: [u32; 2]) -> Case {
    let mut case = Case::new(Call::Contains);
    case.polygon = polygon.concat();
    case.cell = cell;
    // The call writes no list.
    case.result_length = 0;
    case
}

/// The rule and both calls report that the polygon has the cell or not, and so many compared.
pub fn check(polygon: &[[u32; 4]], cell: [u32; 2], has: bool, compared: usize, place: &str) {
    let place = format!("{place}: {polygon:?}, cell {cell:?}");
    let rule = contains(&rectangles(polygon), cell);
    assert_eq!(rule, Containment { has, compared }, "{place}");
    let output = case(polygon, cell).expect(0, &place);
    let stored = [output.has, output.compared];
    assert_eq!(stored, [u32::from(has), compared as u32], "{place}");
}
