//! The exported functions for a day file, as a C program calls them: what they set
//! beside a refusal is seen here alone.

use jarrovento::DayLists;

use super::changed::New;

unsafe extern "C" {
    fn aez_day_write(
        header_lengths: *const u64,
        header_lengths_len: usize,
        headers: *const u8,
        headers_len: usize,
        record_headers: *const u64,
        record_headers_len: usize,
        record_stretches: *const u64,
        record_stretches_len: usize,
        record_lengths: *const u64,
        record_lengths_len: usize,
        sealed: *const u8,
        sealed_len: usize,
        out: *mut u8,
        out_len: usize,
        size: *mut u64,
    ) -> u32;

    fn aez_day_records(file: *const u8, file_len: usize, records: *mut u64) -> u32;

    fn aez_day_open(
        key: *const u8,
        key_len: usize,
        file: *const u8,
        file_len: usize,
        record: u64,
        out: *mut u8,
        out_len: usize,
        size: *mut u64,
    ) -> u32;

    fn aez_day_list(
        file: *const u8,
        file_len: usize,
        places: *mut u64,
        places_len: usize,
        headers: *mut u64,
        records: *mut u64,
    ) -> u32;

    fn aez_day_clear(
        buffer: *mut u8,
        buffer_len: usize,
        size: u64,
        dropped: *const u64,
        dropped_len: usize,
        new_size: *mut u64,
    ) -> u32;

    fn aez_day_append(
        buffer: *mut u8,
        buffer_len: usize,
        size: u64,
        number: u64,
        header: *const u8,
        header_len: usize,
        stretch: u64,
        sealed: *const u8,
        sealed_len: usize,
        new_size: *mut u64,
    ) -> u32;
}

pub fn write(lists: &DayLists, out: &mut [u8], size: &mut u64) -> u32 {
    // SAFETY: seven slices, each passed as its own pointer and length; `out` and `size`
    // are the two `&mut`.
    unsafe {
        aez_day_write(
            lists.header_lengths.as_ptr(),
            lists.header_lengths.len(),
            lists.headers.as_ptr(),
            lists.headers.len(),
            lists.record_headers.as_ptr(),
            lists.record_headers.len(),
            lists.record_stretches.as_ptr(),
            lists.record_stretches.len(),
            lists.record_lengths.as_ptr(),
            lists.record_lengths.len(),
            lists.sealed.as_ptr(),
            lists.sealed.len(),
            out.as_mut_ptr(),
            out.len(),
            size,
        )
    }
}

pub fn records(file: &[u8], records: &mut u64) -> u32 {
    // SAFETY: one slice, passed as its pointer and length; `records` is the `&mut`.
    unsafe { aez_day_records(file.as_ptr(), file.len(), records) }
}

pub fn open(key: &[u8], file: &[u8], record: u64, out: &mut [u8], size: &mut u64) -> u32 {
    // SAFETY: three slices, each passed as its own pointer and length; `out` and `size`
    // are the two `&mut`.
    unsafe {
        aez_day_open(
            key.as_ptr(),
            key.len(),
            file.as_ptr(),
            file.len(),
            record,
            out.as_mut_ptr(),
            out.len(),
            size,
        )
    }
}

pub fn list(file: &[u8], places: &mut [u64], headers: &mut u64, records: &mut u64) -> u32 {
    // SAFETY: two slices, each passed as its own pointer and length; the other two are
    // `&mut` as `places` is.
    unsafe {
        aez_day_list(
            file.as_ptr(),
            file.len(),
            places.as_mut_ptr(),
            places.len(),
            headers,
            records,
        )
    }
}

pub fn clear(buffer: &mut [u8], size: u64, dropped: &[u64], new_size: &mut u64) -> u32 {
    // SAFETY: two slices, each passed as its own pointer and length; `buffer` and
    // `new_size` are the two `&mut`.
    unsafe {
        aez_day_clear(
            buffer.as_mut_ptr(),
            buffer.len(),
            size,
            dropped.as_ptr(),
            dropped.len(),
            new_size,
        )
    }
}

pub fn append(buffer: &mut [u8], size: u64, new: &New, new_size: &mut u64) -> u32 {
    // SAFETY: three slices, each passed as its own pointer and length; `buffer` and
    // `new_size` are the two `&mut`.
    unsafe {
        aez_day_append(
            buffer.as_mut_ptr(),
            buffer.len(),
            size,
            new.number,
            new.header.as_ptr(),
            new.header.len(),
            new.stretch,
            new.sealed.as_ptr(),
            new.sealed.len(),
            new_size,
        )
    }
}
