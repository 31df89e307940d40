//! The proved library, as include/drawing.h declares it.
//!
//! Each function has the parameters of its namesake in `drawing` and returns the number as the
//! library gave it: 0 where the call accepts, else the number of the refusal.

extern "C" {
    fn lintzoger_common(
        list: *const u32,
        list_len: usize,
        llx: u32,
        lly: u32,
        urx: u32,
        ury: u32,
        result: *mut u32,
        result_len: usize,
        written: *mut u32,
    ) -> u32;
    fn lintzoger_grow(
        list: *const u32,
        list_len: usize,
        x: u32,
        y: u32,
        result: *mut u32,
        result_len: usize,
        written: *mut u32,
    ) -> u32;
    fn lintzoger_extra_area(
        llx: u32,
        lly: u32,
        urx: u32,
        ury: u32,
        x: u32,
        y: u32,
        extra: *mut u64,
    ) -> u32;
    fn lintzoger_cut(
        list: *const u32,
        list_len: usize,
        llx: u32,
        lly: u32,
        urx: u32,
        ury: u32,
        result: *mut u32,
        result_len: usize,
        written: *mut u32,
    ) -> u32;
    fn lintzoger_cut_polygon(
        list: *const u32,
        list_len: usize,
        polygon: *const u32,
        polygon_len: usize,
        result: *mut u32,
        result_len: usize,
        written: *mut u32,
        removed: *mut u64,
    ) -> u32;
    fn lintzoger_refine(
        list: *const u32,
        list_len: usize,
        result: *mut u32,
        result_len: usize,
        written: *mut u32,
    ) -> u32;
    fn lintzoger_contains(
        polygon: *const u32,
        polygon_len: usize,
        x: u32,
        y: u32,
        has: *mut u32,
        compared: *mut u32,
    ) -> u32;
    fn lintzoger_wkb(
        polygon: *const u32,
        polygon_len: usize,
        out: *mut u8,
        out_len: usize,
        length: *mut u32,
    ) -> u32;
}

// In each wrapper the pointers come from slices and references that live through the call, and the
// lengths are those of the slices. The library's functions have no other condition.

pub fn common(list: &[u32], rectangle: [u32; 4], result: &mut [u32], written: &mut u32) -> u32 {
    let [llx, lly, urx, ury] = rectangle;
    unsafe {
        lintzoger_common(
            list.as_ptr(),
            list.len(),
            llx,
            lly,
            urx,
            ury,
            result.as_mut_ptr(),
            result.len(),
            written,
        )
    }
}

pub fn grow(list: &[u32], cell: [u32; 2], result: &mut [u32], written: &mut u32) -> u32 {
    let [x, y] = cell;
    unsafe {
        lintzoger_grow(
            list.as_ptr(),
            list.len(),
            x,
            y,
            result.as_mut_ptr(),
            result.len(),
            written,
        )
    }
}

pub fn extra_area(rectangle: [u32; 4], cell: [u32; 2], extra: &mut u64) -> u32 {
    let [llx, lly, urx, ury] = rectangle;
    let [x, y] = cell;
    unsafe { lintzoger_extra_area(llx, lly, urx, ury, x, y, extra) }
}

pub fn cut(list: &[u32], rectangle: [u32; 4], result: &mut [u32], written: &mut u32) -> u32 {
    let [llx, lly, urx, ury] = rectangle;
    unsafe {
        lintzoger_cut(
            list.as_ptr(),
            list.len(),
            llx,
            lly,
            urx,
            ury,
            result.as_mut_ptr(),
            result.len(),
            written,
        )
    }
}

pub fn cut_polygon(
    list: &[u32],
    polygon: &[u32],
    result: &mut [u32],
    written: &mut u32,
    removed: &mut u64,
) -> u32 {
    unsafe {
        lintzoger_cut_polygon(
            list.as_ptr(),
            list.len(),
            polygon.as_ptr(),
            polygon.len(),
            result.as_mut_ptr(),
            result.len(),
            written,
            removed,
        )
    }
}

pub fn refine(list: &[u32], result: &mut [u32], written: &mut u32) -> u32 {
    unsafe {
        lintzoger_refine(
            list.as_ptr(),
            list.len(),
            result.as_mut_ptr(),
            result.len(),
            written,
        )
    }
}

pub fn contains(polygon: &[u32], cell: [u32; 2], has: &mut u32, compared: &mut u32) -> u32 {
    let [x, y] = cell;
    unsafe { lintzoger_contains(polygon.as_ptr(), polygon.len(), x, y, has, compared) }
}

pub fn wkb(polygon: &[u32], out: &mut [u8], length: &mut u32) -> u32 {
    unsafe {
        lintzoger_wkb(
            polygon.as_ptr(),
            polygon.len(),
            out.as_mut_ptr(),
            out.len(),
            length,
        )
    }
}
