//! The static library's exports, each behind the feature of its operation.

#[link(name = "bend_c", kind = "static")]
extern "C" {
    #[cfg(feature = "normalize")]
    fn bend_normalize(sheet: *const u8, sheet_len: usize, out: *mut u8, out_len: usize) -> u64;
    #[cfg(feature = "edits")]
    fn bend_add_ear(
        sheet: *const u8,
        sheet_len: usize,
        side: usize,
        out: *mut u8,
        out_len: usize,
    ) -> u64;
    #[cfg(feature = "edits")]
    fn bend_remove_ear(
        sheet: *const u8,
        sheet_len: usize,
        corner: usize,
        out: *mut u8,
        out_len: usize,
    ) -> u64;
    #[cfg(feature = "edits")]
    fn bend_flip(
        sheet: *const u8,
        sheet_len: usize,
        a: usize,
        b: usize,
        out: *mut u8,
        out_len: usize,
    ) -> u64;
    #[cfg(feature = "join")]
    fn bend_join(
        first: *const u8,
        first_len: usize,
        second: *const u8,
        second_len: usize,
        side: usize,
        out: *mut u8,
        out_len: usize,
    ) -> u64;
    #[cfg(feature = "cut")]
    fn bend_cut(
        sheet: *const u8,
        sheet_len: usize,
        a: usize,
        b: usize,
        inner: *mut u8,
        inner_len: usize,
        rest: *mut u8,
        rest_len: usize,
    ) -> u64;
    #[cfg(feature = "run_edits")]
    fn bend_run_edits(
        first: *const u8,
        first_len: usize,
        list: *const u8,
        list_len: usize,
        front: *mut u8,
        front_len: usize,
        back: *mut u8,
        back_len: usize,
        numbers: *mut u8,
        numbers_len: usize,
    ) -> u64;
    #[cfg(feature = "plan")]
    fn bend_plan(sheet: *const u8, sheet_len: usize) -> u64;
    #[cfg(feature = "draw")]
    fn bend_draw(sheet: *const u8, sheet_len: usize, out: *mut u8, out_len: usize) -> u64;
    #[cfg(feature = "draw")]
    fn bend_draw_label(sheet: *const u8, sheet_len: usize, out: *mut u8, out_len: usize) -> u64;
    #[cfg(feature = "read_chart")]
    fn bend_read_chart(chart: *const u8, chart_len: usize, out: *mut u8, out_len: usize) -> u64;
    #[cfg(feature = "read_chart")]
    fn bend_nearest_bar(
        chart: *const u8,
        chart_len: usize,
        row: usize,
        column: usize,
        to_row: usize,
        to_column: usize,
    ) -> u64;
}

// Each call below lends a whole slice with its own length, and an output never
// overlaps another slice of the call: it is not shared. Inputs may overlap.

#[cfg(feature = "normalize")]
pub fn normalize(sheet: &[u8], out: &mut [u8]) -> u64 {
    unsafe { bend_normalize(sheet.as_ptr(), sheet.len(), out.as_mut_ptr(), out.len()) }
}

#[cfg(feature = "edits")]
pub fn add_ear(sheet: &[u8], side: usize, out: &mut [u8]) -> u64 {
    unsafe {
        bend_add_ear(
            sheet.as_ptr(),
            sheet.len(),
            side,
            out.as_mut_ptr(),
            out.len(),
        )
    }
}

#[cfg(feature = "edits")]
pub fn remove_ear(sheet: &[u8], corner: usize, out: &mut [u8]) -> u64 {
    unsafe {
        bend_remove_ear(
            sheet.as_ptr(),
            sheet.len(),
            corner,
            out.as_mut_ptr(),
            out.len(),
        )
    }
}

#[cfg(feature = "edits")]
pub fn flip(sheet: &[u8], a: usize, b: usize, out: &mut [u8]) -> u64 {
    unsafe {
        bend_flip(
            sheet.as_ptr(),
            sheet.len(),
            a,
            b,
            out.as_mut_ptr(),
            out.len(),
        )
    }
}

#[cfg(feature = "join")]
pub fn join(first: &[u8], second: &[u8], side: usize, out: &mut [u8]) -> u64 {
    unsafe {
        bend_join(
            first.as_ptr(),
            first.len(),
            second.as_ptr(),
            second.len(),
            side,
            out.as_mut_ptr(),
            out.len(),
        )
    }
}

/// The two outputs are the inner part's and the rest's.
#[cfg(feature = "cut")]
pub fn cut(sheet: &[u8], a: usize, b: usize, [inner, rest]: [&mut [u8]; 2]) -> u64 {
    unsafe {
        bend_cut(
            sheet.as_ptr(),
            sheet.len(),
            a,
            b,
            inner.as_mut_ptr(),
            inner.len(),
            rest.as_mut_ptr(),
            rest.len(),
        )
    }
}

#[cfg(feature = "run_edits")]
pub fn run_edits(
    first: &[u8],
    list: &[u8],
    front: &mut [u8],
    back: &mut [u8],
    numbers: &mut [u8],
) -> u64 {
    unsafe {
        bend_run_edits(
            first.as_ptr(),
            first.len(),
            list.as_ptr(),
            list.len(),
            front.as_mut_ptr(),
            front.len(),
            back.as_mut_ptr(),
            back.len(),
            numbers.as_mut_ptr(),
            numbers.len(),
        )
    }
}

#[cfg(feature = "plan")]
pub fn plan(sheet: &[u8]) -> u64 {
    unsafe { bend_plan(sheet.as_ptr(), sheet.len()) }
}

#[cfg(feature = "draw")]
pub fn draw(sheet: &[u8], out: &mut [u8]) -> u64 {
    unsafe { bend_draw(sheet.as_ptr(), sheet.len(), out.as_mut_ptr(), out.len()) }
}

#[cfg(feature = "draw")]
pub fn draw_label(sheet: &[u8], out: &mut [u8]) -> u64 {
    unsafe { bend_draw_label(sheet.as_ptr(), sheet.len(), out.as_mut_ptr(), out.len()) }
}

#[cfg(feature = "read_chart")]
pub fn read_chart(chart: &[u8], out: &mut [u8]) -> u64 {
    unsafe { bend_read_chart(chart.as_ptr(), chart.len(), out.as_mut_ptr(), out.len()) }
}

#[cfg(feature = "read_chart")]
pub fn nearest_bar(
    chart: &[u8],
    (row, column): (usize, usize),
    (to_row, to_column): (usize, usize),
) -> u64 {
    unsafe { bend_nearest_bar(chart.as_ptr(), chart.len(), row, column, to_row, to_column) }
}
