//! The archive's functions as include/sheet.h declares them, behind functions that take slices.
//!
//! Every `unsafe` is sound for the same reason: a slice is a pointer that is not null and
//! valid for its length, and a `&mut` overlaps with nothing else that is lent.

use crate::RenderOptions;

#[rustfmt::skip]
unsafe extern "C" {
    fn sheet_render(
        job: *const u8, job_length: usize,
        store: *mut u8, store_length: usize, length: *mut u64,
    ) -> u8;
    fn sheet_append_subrender(
        sheet: *const u8, sheet_length: usize,
        guest: *const u8, guest_length: usize,
        prefixes: *const u8, prefixes_length: usize,
        repeat_last: bool, width: u8, pad: bool, borders: bool, annotation: u8,
        store: *mut u8, store_length: usize, length: *mut u64,
    ) -> u8;
    fn sheet_append_columns_with_borders(
        sheet: *const u8, sheet_length: usize,
        cells: *const u8, cells_length: usize,
        collapse: bool, width: u8, pad: bool, borders: bool, annotation: u8,
        store: *mut u8, store_length: usize, length: *mut u64,
    ) -> u8;
    fn sheet_append_vert_row(
        sheet: *const u8, sheet_length: usize,
        cells: *const u8, cells_length: usize,
        width: u8, pad: bool, borders: bool, annotation: u8,
        store: *mut u8, store_length: usize, length: *mut u64,
    ) -> u8;
}

pub fn render(job: &[u8], store: &mut [u8], length: &mut u64) -> u8 {
    unsafe {
        sheet_render(
            job.as_ptr(),
            job.len(),
            store.as_mut_ptr(),
            store.len(),
            length,
        )
    }
}

pub fn append_subrender(
    options: RenderOptions,
    sheet: &[u8],
    (guest, prefixes, repeat_last): (&[u8], &[u8], bool),
    store: &mut [u8],
    length: &mut u64,
) -> u8 {
    unsafe {
        sheet_append_subrender(
            sheet.as_ptr(),
            sheet.len(),
            guest.as_ptr(),
            guest.len(),
            prefixes.as_ptr(),
            prefixes.len(),
            repeat_last,
            options.width,
            options.pad,
            options.borders,
            options.annotation,
            store.as_mut_ptr(),
            store.len(),
            length,
        )
    }
}

pub fn append_columns(
    options: RenderOptions,
    sheet: &[u8],
    (cells, collapse): (&[u8], bool),
    store: &mut [u8],
    length: &mut u64,
) -> u8 {
    unsafe {
        sheet_append_columns_with_borders(
            sheet.as_ptr(),
            sheet.len(),
            cells.as_ptr(),
            cells.len(),
            collapse,
            options.width,
            options.pad,
            options.borders,
            options.annotation,
            store.as_mut_ptr(),
            store.len(),
            length,
        )
    }
}

pub fn append_vert_row(
    options: RenderOptions,
    sheet: &[u8],
    cells: &[u8],
    store: &mut [u8],
    length: &mut u64,
) -> u8 {
    unsafe {
        sheet_append_vert_row(
            sheet.as_ptr(),
            sheet.len(),
            cells.as_ptr(),
            cells.len(),
            options.width,
            options.pad,
            options.borders,
            options.annotation,
            store.as_mut_ptr(),
            store.len(),
            length,
        )
    }
}
