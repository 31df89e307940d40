//! Document 02, request A.6: the cells that two lists of rectangles share, counted column by
//! column.

use super::Rectangle;
use std::ops::Range;

/// The number of cells that both lists have, 'a cell under several rectangles counted once'; up to
/// 2^32. All columns between two borders that follow each other are alike, so the first one stands
/// for them.
pub fn shared_cells(a: &[Rectangle], b: &[Rectangle]) -> u64 {
    let alike = |columns: &[u32]| {
        let [from, to] = [columns[0], columns[1]];
        let rows = shared_rows(&rows_of(a, from), &rows_of(b, from));
        u64::from(to - from) * u64::from(rows)
    };
    columns_of(a, b).windows(2).map(alike).sum()
}

/// Where rectangles begin and end in x: the different coordinates, in order.
fn columns_of(a: &[Rectangle], b: &[Rectangle]) -> Vec<u32> {
    let both = a.iter().chain(b);
    let mut borders: Vec<u32> = both.flat_map(|r| [r.ll[0], r.ur[0]]).collect();
    borders.sort_unstable();
    borders.dedup();
    borders
}

/// The rows that the list has in column x: ranges that share none.
fn rows_of(list: &[Rectangle], x: u32) -> Vec<Range<u32>> {
    let in_column = list.iter().filter(|r| (r.ll[0]..r.ur[0]).contains(&x));
    let mut ranges: Vec<Range<u32>> = in_column.map(|r| r.ll[1]..r.ur[1]).collect();
    ranges.sort_unstable_by_key(|rows| rows.start);
    let mut end = 0;
    for rows in &mut ranges {
        rows.start = rows.start.max(end);
        end = end.max(rows.end);
    }
    ranges.retain(|rows| !rows.is_empty());
    ranges
}

/// The number of rows in a range of each; the ranges of one share none.
fn shared_rows(a: &[Range<u32>], b: &[Range<u32>]) -> u32 {
    let shared = |p: &Range<u32>, q: &Range<u32>| {
        let (from, to) = (p.start.max(q.start), p.end.min(q.end));
        to.saturating_sub(from)
    };
    let with_all = |p| b.iter().map(|q| shared(p, q)).sum::<u32>();
    a.iter().map(with_all).sum()
}
