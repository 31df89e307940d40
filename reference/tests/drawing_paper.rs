//! Document 01, 'Cells on paper', G1 to G9: on the second implementation's rules, and as drawing
//! calls to both implementations.

mod support;

use reference::geometry::{cut, refine, Rectangle};
use reference::tree::extra_area;
use support::case::{Call, Case};

fn rectangles(numbers: &[u32]) -> Vec<Rectangle> {
    numbers
        .chunks(4)
        .map(|r| Rectangle::new(r[0], r[1], r[2], r[3]))
        .collect()
}

/// The rectangle cut by the other gives these pieces.
fn check_cut(name: &str, r: [u32; 4], s: [u32; 4], pieces: &[u32]) {
    let rules = cut(rectangles(&r)[0], rectangles(&s)[0]);
    assert_eq!(rules, rectangles(pieces), "{name}");

    let mut case = Case::new(Call::Cut);
    case.list = r.to_vec();
    case.rectangle = s;
    assert_eq!(case.expect(0, name).list(), pieces, "{name}");

    case.call = Call::CutPolygon;
    case.polygon = s.to_vec();
    assert_eq!(case.expect(0, name).list(), pieces, "{name}");
}

/// The rectangle grown to the cell gives this rectangle and this extra area.
fn check_grow(name: &str, r: [u32; 4], cell: [u32; 2], grown: [u32; 4], extra: u64) {
    let rectangle = rectangles(&r)[0];
    assert_eq!(rectangle.grow(cell), rectangles(&grown)[0], "{name}");
    assert_eq!(rectangle.extra_area(cell), extra, "{name}");
    let as_polygon = extra_area(&[rectangle], rectangle, cell);
    assert_eq!(as_polygon, extra, "{name}, a polygon of one rectangle");

    let mut case = Case::new(Call::Grow);
    case.list = r.to_vec();
    case.cell = cell;
    assert_eq!(case.expect(0, name).list(), grown, "{name}");

    case.call = Call::ExtraArea;
    case.rectangle = r;
    assert_eq!(case.expect(0, name).extra, extra, "{name}");
}

fn check_refine(name: &str, list: &[u32], refined: &[u32]) {
    assert_eq!(refine(&rectangles(list)), rectangles(refined), "{name}");

    let mut case = Case::new(Call::Refine);
    case.list = list.to_vec();
    assert_eq!(case.expect(0, name).list(), refined, "{name}");
}

#[test]
fn g1_to_g4_cut() {
    let pieces = [6, 0, 10, 10, 0, 0, 4, 10, 4, 0, 6, 4];
    check_cut("G1", [0, 0, 10, 10], [4, 4, 6, 12], &pieces);
    let pieces = [5, 0, 10, 10, 0, 0, 3, 10, 3, 5, 5, 10, 3, 0, 5, 3];
    check_cut("G2", [0, 0, 10, 10], [3, 3, 5, 5], &pieces);
    check_cut("G3", [0, 0, 4, 4], [4, 0, 8, 4], &[0, 0, 4, 4]);
    check_cut("G4", [0, 0, 4, 4], [0, 0, 4, 4], &[]);
}

#[test]
fn g5_and_g6_grow() {
    check_grow("G5", [2, 2, 4, 4], [4, 3], [2, 2, 5, 4], 2);
    check_grow("G6", [2, 2, 4, 4], [3, 3], [2, 2, 4, 4], 0);
}

#[test]
fn g7_to_g9_refine() {
    let list = [0, 0, 2, 4, 2, 0, 5, 4, 1, 1, 2, 2];
    check_refine("G7", &list, &[0, 0, 5, 4]);
    check_refine("G8", &[0, 0, 2, 2, 0, 0, 2, 2], &[0, 0, 2, 2]);
    check_refine("G9", &[0, 0, 2, 2, 2, 2, 4, 4], &[0, 0, 2, 2, 2, 2, 4, 4]);
}

/// Refine's sentences where the order of the list tells them apart.
#[test]
fn refine_order() {
    let (a, b) = ([0, 0, 2, 2], [5, 5, 7, 7]);
    let list = [a, b, a].concat();
    check_refine("later of equal ones", &list, &[a, b].concat());
    let list = [[1, 1, 2, 2], b, a].concat();
    check_refine("contained in a later one", &list, &[b, a].concat());
    let list = [b, [0, 2, 2, 4], a].concat();
    let joined = [b, [0, 0, 2, 4]].concat();
    check_refine("union stands at i", &list, &joined);
    let list = [[0, 0, 3, 1], [2, 0, 6, 1]].concat();
    check_refine("overlapping in x", &list, &[0, 0, 6, 1]);
    let list = [[0, 0, 2, 2], [3, 0, 5, 2]].concat();
    check_refine("equal range, apart", &list, &list);
    // The first could be joined with the third as well.
    let list = [[2, 2, 4, 4], [4, 2, 6, 4], [2, 4, 4, 6]].concat();
    let joined = [[2, 2, 6, 4], [2, 4, 4, 6]].concat();
    check_refine("first j", &list, &joined);
    // The second and third join to one that the first can be joined with.
    let list = [[0, 0, 4, 2], [0, 2, 2, 4], [2, 2, 4, 4]].concat();
    check_refine("from the start after a join", &list, &[0, 0, 4, 4]);
    // Joined first, the second and third would contain the first.
    let list = [[1, 1, 3, 2], [0, 0, 2, 4], [2, 0, 4, 4], [3, 1, 9, 2]].concat();
    let joined = [[1, 1, 9, 2], [0, 0, 4, 4]].concat();
    check_refine("first i", &list, &joined);
    let list = [[1, 1, 3, 2], [0, 0, 2, 4], [2, 0, 4, 4], [3, 5, 9, 6]].concat();
    let joined = [[0, 0, 4, 4], [3, 5, 9, 6]].concat();
    check_refine("drop after a join", &list, &joined);
}

/// The table has no case of the common part; these follow its sentence.
#[test]
fn common_part() {
    let mut case = Case::new(Call::Common);
    case.list = vec![0, 0, 4, 4, 4, 0, 8, 4, 1, 1, 2, 2, 3, 0, 5, 9];
    case.rectangle = [1, 1, 4, 6];
    let output = case.expect(0, "common part");
    assert_eq!(output.list(), [1, 1, 4, 4, 1, 1, 2, 2, 3, 1, 4, 6]);
}

/// 'ur = 65536 is legal in both dimensions at once (an area of 2^32).'
#[test]
fn whole_grid() {
    let mut case = Case::new(Call::ExtraArea);
    case.rectangle = [0, 0, 1, 1];
    case.cell = [65535, 65535];
    assert_eq!(case.expect(0, "whole grid").extra, (1 << 32) - 1);
    case.rectangle = [0, 0, 65536, 65536];
    assert_eq!(case.expect(0, "whole grid").extra, 0);
}
