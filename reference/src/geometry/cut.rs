//! Cutting rectangles by rectangles and by polygons.

use super::{Rectangle, LIST_LIMIT};

/// A list was over 256 rectangles after a cut by one rectangle (refusal 7).
#[derive(Clone, Copy, Debug, PartialEq, Eq)]
pub struct OverLimit;

/// Cut R by S: 'if they share no cell, the list is R alone. Else, in this order and leaving out
/// empty ones, with U the common part': x ceiling, x floor, y ceiling, y floor.
pub fn cut(r: Rectangle, s: Rectangle) -> Vec<Rectangle> {
    let Some(u) = r.common_part(s) else {
        return vec![r];
    };
    let x_ceiling = r.with_range(0, s.ur[0], r.ur[0]);
    let x_floor = r.with_range(0, r.ll[0], s.ll[0]);
    let y_ceiling = u.with_range(1, s.ur[1], r.ur[1]);
    let y_floor = u.with_range(1, r.ll[1], s.ll[1]);
    let mut pieces = vec![x_ceiling, x_floor, y_ceiling, y_floor];
    pieces.retain(|piece| !piece.is_empty());
    pieces
}

/// 'A list is cut by S piece by piece, in order.'
pub fn cut_list(list: &[Rectangle], s: Rectangle) -> Vec<Rectangle> {
    list.iter().flat_map(|&r| cut(r, s)).collect()
}

/// 'Cutting by a polygon applies its rectangles one after another.' The limit is tested after the
/// whole list was cut by one rectangle, and after every rectangle.
pub fn cut_list_by_polygon(
    list: &[Rectangle],
    polygon: &[Rectangle],
) -> Result<Vec<Rectangle>, OverLimit> {
    let mut pieces = list.to_vec();
    for &s in polygon {
        pieces = cut_list(&pieces, s);
        if pieces.len() > LIST_LIMIT {
            return Err(OverLimit);
        }
    }
    Ok(pieces)
}
