//! The proved library of the index, as include/lintzoger.h declares it.
//!
//! Each function has the parameters of its namesake in `memory` and returns the number as the
//! library gave it: 0 where the call accepts, else the number of the refusal.

extern "C" {
    fn lintzoger_insert(
        index: *mut u32,
        index_len: usize,
        work: *mut u32,
        work_len: usize,
        x: u32,
        y: u32,
        tag: u32,
        held: *mut u32,
        removed: *mut u64,
    ) -> u32;
    fn lintzoger_remove(index: *mut u32, index_len: usize, x: u32, y: u32, held: *mut u32) -> u32;
    fn lintzoger_clear(index: *mut u32, index_len: usize, held: *mut u32) -> u32;
    fn lintzoger_point(
        index: *const u32,
        index_len: usize,
        x: u32,
        y: u32,
        held: *mut u32,
        visits: *mut u32,
        tag: *mut u32,
    ) -> u32;
    fn lintzoger_window(
        index: *const u32,
        index_len: usize,
        llx: u32,
        lly: u32,
        urx: u32,
        ury: u32,
        list: *mut u32,
        list_len: usize,
        matches: *mut u32,
        visits: *mut u32,
    ) -> u32;
    fn lintzoger_nearest(
        index: *const u32,
        index_len: usize,
        x: u32,
        y: u32,
        near_x: *mut u32,
        near_y: *mut u32,
        tag: *mut u32,
        distance: *mut u64,
        visits: *mut u32,
    ) -> u32;
    fn lintzoger_is_empty(
        index: *const u32,
        index_len: usize,
        llx: u32,
        lly: u32,
        urx: u32,
        ury: u32,
        empty: *mut u32,
        visits: *mut u32,
    ) -> u32;
}

// In each wrapper the pointers come from slices and references that live through the call, and the
// lengths are those of the slices. The library's functions have no other condition.

pub fn insert(
    index: &mut [u32],
    work: &mut [u32],
    [x, y]: [u32; 2],
    tag: u32,
    held: &mut u32,
    removed: &mut u64,
) -> u32 {
    let (index_len, work_len) = (index.len(), work.len());
    let (index, work) = (index.as_mut_ptr(), work.as_mut_ptr());
    unsafe { lintzoger_insert(index, index_len, work, work_len, x, y, tag, held, removed) }
}

pub fn remove(index: &mut [u32], [x, y]: [u32; 2], held: &mut u32) -> u32 {
    unsafe { lintzoger_remove(index.as_mut_ptr(), index.len(), x, y, held) }
}

pub fn clear(index: &mut [u32], held: &mut u32) -> u32 {
    unsafe { lintzoger_clear(index.as_mut_ptr(), index.len(), held) }
}

pub fn point(
    index: &[u32],
    [x, y]: [u32; 2],
    held: &mut u32,
    visits: &mut u32,
    tag: &mut u32,
) -> u32 {
    unsafe { lintzoger_point(index.as_ptr(), index.len(), x, y, held, visits, tag) }
}

pub fn window(
    index: &[u32],
    [llx, lly, urx, ury]: [u32; 4],
    list: &mut [u32],
    matches: &mut u32,
    visits: &mut u32,
) -> u32 {
    unsafe {
        lintzoger_window(
            index.as_ptr(),
            index.len(),
            llx,
            lly,
            urx,
            ury,
            list.as_mut_ptr(),
            list.len(),
            matches,
            visits,
        )
    }
}

pub fn nearest(
    index: &[u32],
    [x, y]: [u32; 2],
    [near_x, near_y]: &mut [u32; 2],
    tag: &mut u32,
    distance: &mut u64,
    visits: &mut u32,
) -> u32 {
    unsafe {
        lintzoger_nearest(
            index.as_ptr(),
            index.len(),
            x,
            y,
            near_x,
            near_y,
            tag,
            distance,
            visits,
        )
    }
}

pub fn is_empty(
    index: &[u32],
    [llx, lly, urx, ury]: [u32; 4],
    empty: &mut u32,
    visits: &mut u32,
) -> u32 {
    let (index, index_len) = (index.as_ptr(), index.len());
    unsafe { lintzoger_is_empty(index, index_len, llx, lly, urx, ury, empty, visits) }
}
