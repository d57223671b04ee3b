//! The exported functions for pauses, as a C program calls them: what they set beside a
//! refusal is seen here alone.

unsafe extern "C" {
    fn aez_pause(
        header: *const u8,
        header_len: usize,
        text: *const u8,
        text_len: usize,
        microseconds: *mut u64,
    ) -> u32;

    fn aez_report(
        key: *const u8,
        key_len: usize,
        file: *const u8,
        file_len: usize,
        out: *mut u8,
        out_len: usize,
        size: *mut u64,
    ) -> u32;

    fn aez_report_figures(
        key: *const u8,
        key_len: usize,
        file: *const u8,
        file_len: usize,
        figures: *mut u64,
        figures_len: usize,
    ) -> u32;
}

pub fn pause(header: &[u8], text: &[u8], microseconds: &mut u64) -> u32 {
    // SAFETY: two slices, each passed as its own pointer and length; `microseconds` is
    // the `&mut`.
    unsafe {
        aez_pause(
            header.as_ptr(),
            header.len(),
            text.as_ptr(),
            text.len(),
            microseconds,
        )
    }
}

pub fn report(key: &[u8], file: &[u8], out: &mut [u8], size: &mut u64) -> u32 {
    // SAFETY: three slices, each passed as its own pointer and length; `out` and `size`
    // are the two `&mut`.
    unsafe {
        aez_report(
            key.as_ptr(),
            key.len(),
            file.as_ptr(),
            file.len(),
            out.as_mut_ptr(),
            out.len(),
            size,
        )
    }
}

pub fn figures(key: &[u8], file: &[u8], figures: &mut [u64]) -> u32 {
    // SAFETY: three slices, each passed as its own pointer and length; `figures` is the
    // `&mut`.
    unsafe {
        aez_report_figures(
            key.as_ptr(),
            key.len(),
            file.as_ptr(),
            file.len(),
            figures.as_mut_ptr(),
            figures.len(),
        )
    }
}
