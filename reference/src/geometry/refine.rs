//! Refining a list: the same cells with fewer rectangles.

use super::Rectangle;

/// Refine 'repeats this until neither applies': drop the first contained rectangle; if there is
/// none, join the first pair.
pub fn refine(list: &[Rectangle]) -> Vec<Rectangle> {
    let mut list = list.to_vec();
    loop {
        if let Some(i) = first_contained(&list) {
            list.remove(i);
        } else if let Some((i, j)) = first_pair(&list) {
            list[i] = union(list[i], list[j]);
            list.remove(j);
        } else {
            return list;
        }
    }
}

/// 'The first rectangle contained in another (of equal ones the later counts as contained).'
fn first_contained(list: &[Rectangle]) -> Option<usize> {
    (0..list.len()).find(|&i| (0..list.len()).any(|j| counts_as_contained(list, i, j)))
}

fn counts_as_contained(list: &[Rectangle], i: usize, j: usize) -> bool {
    if list[i] == list[j] {
        j < i
    } else {
        list[i].is_contained_in(list[j])
    }
}

/// 'The first i, then the first j > i, with equal range in one dimension and touching or
/// overlapping ranges in the other.'
fn first_pair(list: &[Rectangle]) -> Option<(usize, usize)> {
    for i in 0..list.len() {
        for j in i + 1..list.len() {
            if is_joinable(list[i], list[j]) {
                return Some((i, j));
            }
        }
    }
    None
}

fn is_joinable(a: Rectangle, b: Rectangle) -> bool {
    let equal = |d: usize| a.ll[d] == b.ll[d] && a.ur[d] == b.ur[d];
    let touching_or_overlapping = |d: usize| a.ll[d] <= b.ur[d] && b.ll[d] <= a.ur[d];
    equal(0) && touching_or_overlapping(1) || equal(1) && touching_or_overlapping(0)
}

/// The union of two joinable rectangles, which is a rectangle.
fn union(a: Rectangle, b: Rectangle) -> Rectangle {
    Rectangle {
        ll: [0, 1].map(|d| a.ll[d].min(b.ll[d])),
        ur: [0, 1].map(|d| a.ur[d].max(b.ur[d])),
    }
}
