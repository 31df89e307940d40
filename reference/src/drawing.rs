//! The drawing exercise: the rectangle rules called without the tree, on lists of numbers.
//!
//! A list is four numbers a rectangle: llx, lly, urx, ury. The calls have the parameters of those
//! in include/drawing.h. All arguments are tested (refusal 3) before anything is cut (refusal 7),
//! and before the output's length is (refusal 11). After a refusal the result list, the output and
//! the numbers stored are as they were.

use crate::geometry::{
    contains as test_containment, cut_list_by_polygon, is_cell, refine as refine_list,
    shared_cells, Cell, OverLimit, Rectangle, LIST_LIMIT, POLYGON_LIMIT,
};
use crate::wkb::polygon_bytes;

/// The length of a result list: 256 rectangles.
pub const RESULT_LENGTH: usize = 4 * LIST_LIMIT;

/// Why a call refuses.
#[derive(Clone, Copy, Debug, PartialEq, Eq)]
pub enum Refusal {
    /// An invalid rectangle, cell, count or result list length.
    Invalid,
    /// A list over 256 after a single cut.
    OverLimit,
    /// The output is shorter than what is to be written.
    ShortOutput,
}

impl Refusal {
    /// The number of the refusal in documents 01 and 02.
    pub fn number(self) -> u32 {
        match self {
            Refusal::Invalid => 3,
            Refusal::OverLimit => 7,
            Refusal::ShortOutput => 11,
        }
    }
}

impl From<OverLimit> for Refusal {
    fn from(_: OverLimit) -> Refusal {
        Refusal::OverLimit
    }
}

/// The common parts of each rectangle with the one, in order; empty ones are left out.
pub fn common(
    list: &[u32],
    rectangle: [u32; 4],
    result: &mut [u32],
    written: &mut u32,
) -> Result<(), Refusal> {
    let list = read_list(list, LIST_LIMIT)?;
    let rectangle = read_rectangle(rectangle)?;
    test_result_list(result)?;
    let parts: Vec<Rectangle> = list
        .iter()
        .filter_map(|r| r.common_part(rectangle))
        .collect();
    write_list(&parts, result, written);
    Ok(())
}

/// Each rectangle grown to the cell.
pub fn grow(
    list: &[u32],
    cell: Cell,
    result: &mut [u32],
    written: &mut u32,
) -> Result<(), Refusal> {
    let list = read_list(list, LIST_LIMIT)?;
    let cell = read_cell(cell)?;
    test_result_list(result)?;
    let grown: Vec<Rectangle> = list.iter().map(|r| r.grow(cell)).collect();
    write_list(&grown, result, written);
    Ok(())
}

/// The extra area of a rectangle grown to the cell.
pub fn extra_area(rectangle: [u32; 4], cell: Cell, extra: &mut u64) -> Result<(), Refusal> {
    let rectangle = read_rectangle(rectangle)?;
    let cell = read_cell(cell)?;
    *extra = rectangle.extra_area(cell);
    Ok(())
}

/// The list cut by a rectangle.
pub fn cut(
    list: &[u32],
    rectangle: [u32; 4],
    result: &mut [u32],
    written: &mut u32,
) -> Result<(), Refusal> {
    let list = read_list(list, LIST_LIMIT)?;
    let rectangle = read_rectangle(rectangle)?;
    test_result_list(result)?;
    let pieces = cut_list_by_polygon(&list, &[rectangle])?;
    write_list(&pieces, result, written);
    Ok(())
}

/// The list cut by a polygon, and 'the number of cells it removed': those that both have.
pub fn cut_polygon(
    list: &[u32],
    polygon: &[u32],
    result: &mut [u32],
    written: &mut u32,
    removed: &mut u64,
) -> Result<(), Refusal> {
    let list = read_list(list, LIST_LIMIT)?;
    let polygon = read_list(polygon, POLYGON_LIMIT)?;
    test_result_list(result)?;
    let pieces = cut_list_by_polygon(&list, &polygon)?;
    write_list(&pieces, result, written);
    *removed = shared_cells(&list, &polygon);
    Ok(())
}

/// The list refined.
pub fn refine(list: &[u32], result: &mut [u32], written: &mut u32) -> Result<(), Refusal> {
    let list = read_list(list, LIST_LIMIT)?;
    test_result_list(result)?;
    write_list(&refine_list(&list), result, written);
    Ok(())
}

/// Whether the polygon has the cell, 1 or 0, and how many of its rectangles were compared.
pub fn contains(
    polygon: &[u32],
    cell: Cell,
    has: &mut u32,
    compared: &mut u32,
) -> Result<(), Refusal> {
    let polygon = read_list(polygon, POLYGON_LIMIT)?;
    let cell = read_cell(cell)?;
    let containment = test_containment(&polygon, cell);
    *has = u32::from(containment.has);
    *compared = u32::try_from(containment.compared).expect("at most 16 rectangles");
    Ok(())
}

/// The polygon as Well-Known Binary, at the output's start; 'bytes beyond it stay'.
pub fn wkb(polygon: &[u32], out: &mut [u8], length: &mut u32) -> Result<(), Refusal> {
    let polygon = read_list(polygon, POLYGON_LIMIT)?;
    let bytes = polygon_bytes(&polygon);
    let start = out.get_mut(..bytes.len()).ok_or(Refusal::ShortOutput)?;
    start.copy_from_slice(&bytes);
    *length = u32::try_from(bytes.len()).expect("at most 1497 bytes");
    Ok(())
}

/// A list of 1 to `limit` valid rectangles.
fn read_list(numbers: &[u32], limit: usize) -> Result<Vec<Rectangle>, Refusal> {
    if numbers.len() % 4 != 0 || numbers.is_empty() || numbers.len() > 4 * limit {
        return Err(Refusal::Invalid);
    }
    numbers
        .chunks(4)
        .map(|four| read_rectangle([four[0], four[1], four[2], four[3]]))
        .collect()
}

fn read_rectangle([llx, lly, urx, ury]: [u32; 4]) -> Result<Rectangle, Refusal> {
    let rectangle = Rectangle::new(llx, lly, urx, ury);
    if rectangle.is_valid() {
        Ok(rectangle)
    } else {
        Err(Refusal::Invalid)
    }
}

fn read_cell(cell: Cell) -> Result<Cell, Refusal> {
    if is_cell(cell) {
        Ok(cell)
    } else {
        Err(Refusal::Invalid)
    }
}

/// The result list holds exactly 256 rectangles.
fn test_result_list(result: &[u32]) -> Result<(), Refusal> {
    if result.len() == RESULT_LENGTH {
        Ok(())
    } else {
        Err(Refusal::Invalid)
    }
}

/// Writes the rectangles to the front of the result list; places past them stay as they were.
fn write_list(list: &[Rectangle], result: &mut [u32], written: &mut u32) {
    for (i, r) in list.iter().enumerate() {
        result[4 * i..4 * i + 4].copy_from_slice(&[r.ll[0], r.ll[1], r.ur[0], r.ur[1]]);
    }
    *written = u32::try_from(list.len()).expect("at most 256 rectangles");
}
