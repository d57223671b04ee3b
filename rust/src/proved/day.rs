//! The exported functions for a day file. What they return and hand back is defined
//! in `crates/paper/specs/DayFile.antt`: `writing`, `counting`, `listing` and
//! `opening_record`; and in `DayEdits.antt` beside it: `clearing` and `appending`. The
//! numbers that they set, `size`, `headers`, `records` and `new_size`, are 0 after every
//! refusal.
//!
//! Slices of numbers are passed as those of bytes are; their lengths count numbers.
//! `places` is to `list` what `out` is to the others, and so is `buffer`, which holds a
//! file at entry, to `clear` and `append`.

use super::done;
use crate::{DayLists, Refusal};

unsafe extern "C" {
    fn aez_day_write(
        header_lengths: *const u64,
        header_lengths_len: usize,
        headers: *const u8,
        headers_len: usize,
        record_headers: *const u64,
        record_headers_len: usize,
        record_stretches: *const u64,
        record_stretches_len: usize,
        record_lengths: *const u64,
        record_lengths_len: usize,
        sealed: *const u8,
        sealed_len: usize,
        out: *mut u8,
        out_len: usize,
        size: *mut u64,
    ) -> u32;

    fn aez_day_records(file: *const u8, file_len: usize, records: *mut u64) -> u32;

    fn aez_day_open(
        key: *const u8,
        key_len: usize,
        file: *const u8,
        file_len: usize,
        record: u64,
        out: *mut u8,
        out_len: usize,
        size: *mut u64,
    ) -> u32;

    fn aez_day_list(
        file: *const u8,
        file_len: usize,
        places: *mut u64,
        places_len: usize,
        headers: *mut u64,
        records: *mut u64,
    ) -> u32;

    fn aez_day_clear(
        buffer: *mut u8,
        buffer_len: usize,
        size: u64,
        dropped: *const u64,
        dropped_len: usize,
        new_size: *mut u64,
    ) -> u32;

    fn aez_day_append(
        buffer: *mut u8,
        buffer_len: usize,
        size: u64,
        number: u64,
        header: *const u8,
        header_len: usize,
        stretch: u64,
        sealed: *const u8,
        sealed_len: usize,
        new_size: *mut u64,
    ) -> u32;
}

/// Writes a day file to `out`, and returns its length.
pub fn write(lists: &DayLists, out: &mut [u8]) -> Result<usize, Refusal> {
    let mut size = 0;
    // SAFETY: seven slices, each passed as its own pointer and length; `out` is the
    // `&mut`. `size` is a number of this function.
    let number = unsafe {
        aez_day_write(
            lists.header_lengths.as_ptr(),
            lists.header_lengths.len(),
            lists.headers.as_ptr(),
            lists.headers.len(),
            lists.record_headers.as_ptr(),
            lists.record_headers.len(),
            lists.record_stretches.as_ptr(),
            lists.record_stretches.len(),
            lists.record_lengths.as_ptr(),
            lists.record_lengths.len(),
            lists.sealed.as_ptr(),
            lists.sealed.len(),
            out.as_mut_ptr(),
            out.len(),
            &mut size,
        )
    };
    done(number)?;
    // At most the length of `out`: `file_length` in crates/audit/proofs/DayFiles.antt.
    Ok(size as usize)
}

/// Checks a day file, and returns the number of its records.
pub fn records(file: &[u8]) -> Result<usize, Refusal> {
    let mut records = 0;
    // SAFETY: one slice, passed as its pointer and length. `records` is a number of
    // this function.
    let number = unsafe { aez_day_records(file.as_ptr(), file.len(), &mut records) };
    done(number)?;
    Ok(records as usize)
}

/// Opens a record of a day file into `out`, and returns the length of the text.
pub fn open(key: &[u8], file: &[u8], record: u64, out: &mut [u8]) -> Result<usize, Refusal> {
    let mut size = 0;
    // SAFETY: three slices, each passed as its own pointer and length; `out` is the
    // `&mut`. `size` is a number of this function.
    let number = unsafe {
        aez_day_open(
            key.as_ptr(),
            key.len(),
            file.as_ptr(),
            file.len(),
            record,
            out.as_mut_ptr(),
            out.len(),
            &mut size,
        )
    };
    done(number)?;
    // The text's length, at most that of the record's sealed string, for which by test 6
    // there is room in `out`.
    Ok(size as usize)
}

/// Checks a day file and puts the places of its headers and records first in
/// `places`. Returns the number of headers and of records.
pub fn list(file: &[u8], places: &mut [u64]) -> Result<(usize, usize), Refusal> {
    let (mut headers, mut records) = (0, 0);
    // SAFETY: two slices, each passed as its own pointer and length; `places` is the
    // `&mut`. `headers` and `records` are two numbers of this function.
    let number = unsafe {
        aez_day_list(
            file.as_ptr(),
            file.len(),
            places.as_mut_ptr(),
            places.len(),
            &mut headers,
            &mut records,
        )
    };
    done(number)?;
    Ok((headers as usize, records as usize))
}

/// Clears records out of the day file that is the first `size` bytes of `buffer`, and
/// returns its new length.
pub fn clear(buffer: &mut [u8], size: usize, dropped: &[u64]) -> Result<usize, Refusal> {
    let mut new_size = 0;
    // SAFETY: two slices, each passed as its own pointer and length; `buffer` is the
    // `&mut`. `new_size` is a number of this function.
    let number = unsafe {
        aez_day_clear(
            buffer.as_mut_ptr(),
            buffer.len(),
            size as u64,
            dropped.as_ptr(),
            dropped.len(),
            &mut new_size,
        )
    };
    done(number)?;
    // At most `size`, and that at most the length of `buffer`: `clearing`.
    Ok(new_size as usize)
}

/// Appends a record to the day file that is the first `size` bytes of `buffer`, and
/// returns its new length.
pub fn append(
    buffer: &mut [u8],
    size: usize,
    number: u64,
    header: &[u8],
    stretch: u64,
    sealed: &[u8],
) -> Result<usize, Refusal> {
    let mut new_size = 0;
    // SAFETY: three slices, each passed as its own pointer and length; `buffer` is the
    // `&mut`. `new_size` is a number of this function.
    let number = unsafe {
        aez_day_append(
            buffer.as_mut_ptr(),
            buffer.len(),
            size as u64,
            number,
            header.as_ptr(),
            header.len(),
            stretch,
            sealed.as_ptr(),
            sealed.len(),
            &mut new_size,
        )
    };
    done(number)?;
    // By test 6 it is at most the length of `buffer`.
    Ok(new_size as usize)
}
