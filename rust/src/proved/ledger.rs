//! The exported functions for pauses. What they return and hand back is defined in
//! `crates/paper/specs/Pause.antt` and `Ledger.antt`: `pausing`, `reporting` and
//! `reporting_figures`. The numbers that they set, `microseconds` and `size`, are 0
//! after every refusal.

use super::{done, header_read};
use crate::Refusal;

/// The numbers of a report.
const FIGURES: usize = 6;

unsafe extern "C" {
    fn aez_pause(
        header: *const u8,
        header_len: usize,
        text: *const u8,
        text_len: usize,
        microseconds: *mut u64,
    ) -> u32;

    fn aez_report(
        key: *const u8,
        key_len: usize,
        file: *const u8,
        file_len: usize,
        out: *mut u8,
        out_len: usize,
        size: *mut u64,
    ) -> u32;

    fn aez_report_figures(
        key: *const u8,
        key_len: usize,
        file: *const u8,
        file_len: usize,
        figures: *mut u64,
        figures_len: usize,
    ) -> u32;
}

/// Reads a text as a pause under its header's locale, and returns its microseconds.
pub fn pause(header: &[u8], text: &[u8]) -> Result<u64, Refusal> {
    let mut microseconds = 0;
    // SAFETY: two slices, each passed as its own pointer and length. `microseconds` is
    // a number of this function.
    let number = unsafe {
        aez_pause(
            header.as_ptr(),
            header.len(),
            text.as_ptr(),
            text.len(),
            &mut microseconds,
        )
    };
    if number == 3 {
        // The call does not say which entry is bad, and the header's own reader does.
        header_read(header)?;
    }
    done(number)?;
    Ok(microseconds)
}

/// Puts the line of a report first in `out`, and returns its length.
pub fn line(key: &[u8], file: &[u8], out: &mut [u8]) -> Result<usize, Refusal> {
    let mut size = 0;
    // SAFETY: three slices, each passed as its own pointer and length; `out` is the
    // `&mut`. `size` is a number of this function.
    let number = unsafe {
        aez_report(
            key.as_ptr(),
            key.len(),
            file.as_ptr(),
            file.len(),
            out.as_mut_ptr(),
            out.len(),
            &mut size,
        )
    };
    done(number)?;
    // By test 6 it is at most the length of `out`.
    Ok(size as usize)
}

/// Returns the figures of a report: read, refused, sum, longest, and the mean's
/// numerator and denominator.
pub fn figures(key: &[u8], file: &[u8]) -> Result<[u64; FIGURES], Refusal> {
    let mut figures = [0; FIGURES];
    // SAFETY: three slices, each passed as its own pointer and length; `figures` is an
    // array of this function.
    let number = unsafe {
        aez_report_figures(
            key.as_ptr(),
            key.len(),
            file.as_ptr(),
            file.len(),
            figures.as_mut_ptr(),
            figures.len(),
        )
    };
    done(number)?;
    Ok(figures)
}
