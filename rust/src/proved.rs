//! The functions of the proved library, and the only unsafe code of this crate.
//!
//! An exported function takes each slice as a pointer and a length, and returns
//! document 01's answer number. It has no `requires`, so every call is sound
//! whose pointers and lengths are those of Rust slices: a pointer that is not
//! null, and as many bytes behind it as the length says. It reads its inputs and
//! reads and writes `out` within these lengths, during the call alone. `out` is
//! the one `&mut` among them, so no input shares a byte with it. A number that it
//! sets, such as `place`, is passed as a pointer to it. The calls on a day file are in
//! `day` and `ledger`.
//!
//! That the declarations below are the functions that the library exports is
//! checked by no compiler. Names, order and widths stand in `crates/aez_c/src/lib.rt`.
//!
//! Sealing, opening and the log header builder return their number alone. The length
//! of what they wrote is worked out here, after answer 0 only, by formulas that are
//! theorems: `Lengths.antt` below is `crates/audit/proofs/Lengths.antt`, and
//! `Numbers.antt` and `BadEntries.antt` stand beside it.
#![allow(unsafe_code)]

pub mod day;
pub mod ledger;

use crate::{BadEntry, Refusal};

unsafe extern "C" {
    fn aez_seal_at(
        key: *const u8,
        key_len: usize,
        header: *const u8,
        header_len: usize,
        stretch: u64,
        text: *const u8,
        text_len: usize,
        out: *mut u8,
        out_len: usize,
        place: *mut u64,
    ) -> u32;

    fn aez_open_at(
        key: *const u8,
        key_len: usize,
        header: *const u8,
        header_len: usize,
        stretch: u64,
        sealed: *const u8,
        sealed_len: usize,
        out: *mut u8,
        out_len: usize,
        place: *mut u64,
    ) -> u32;

    fn aez_log_header(
        nonce: *const u8,
        nonce_len: usize,
        host: *const u8,
        host_len: usize,
        collector: *const u8,
        collector_len: usize,
        locale: *const u8,
        locale_len: usize,
        out: *mut u8,
        out_len: usize,
    ) -> u32;

    fn aez_header_read(
        header: *const u8,
        header_len: usize,
        strings: *mut u64,
        place: *mut u64,
    ) -> u32;
}

/// Seals into `out`, and returns the length of the sealed string.
pub fn seal(
    key: &[u8],
    header: &[u8],
    stretch: u64,
    text: &[u8],
    out: &mut [u8],
) -> Result<usize, Refusal> {
    let mut place = 0;
    // SAFETY: four slices, each passed as its own pointer and length; `out` is
    // the `&mut`. `place` is a number of this function.
    let number = unsafe {
        aez_seal_at(
            key.as_ptr(),
            key.len(),
            header.as_ptr(),
            header.len(),
            stretch,
            text.as_ptr(),
            text.len(),
            out.as_mut_ptr(),
            out.len(),
            &mut place,
        )
    };
    done_at(number, place)?;
    // `sealed_length` in Lengths.antt. The stretch passed test 2 and fits a usize;
    // the sum passed test 6 and does not overflow.
    Ok(text.len() + stretch as usize)
}

/// Opens into `out`, and returns the length of the text.
pub fn open(
    key: &[u8],
    header: &[u8],
    stretch: u64,
    sealed: &[u8],
    out: &mut [u8],
) -> Result<usize, Refusal> {
    let mut place = 0;
    // SAFETY: four slices, each passed as its own pointer and length; `out` is
    // the `&mut`. `place` is a number of this function.
    let number = unsafe {
        aez_open_at(
            key.as_ptr(),
            key.len(),
            header.as_ptr(),
            header.len(),
            stretch,
            sealed.as_ptr(),
            sealed.len(),
            out.as_mut_ptr(),
            out.len(),
            &mut place,
        )
    };
    done_at(number, place)?;
    // `opened_length` in Lengths.antt. The stretch passed test 2 and fits a usize;
    // by test 5 it is at most the sealed string's length.
    Ok(sealed.len() - stretch as usize)
}

/// Builds a log header in `out`, and returns its length.
pub fn log_header(
    nonce: &[u8],
    host: &[u8],
    collector: &[u8],
    locale: &[u8],
    out: &mut [u8],
) -> Result<usize, Refusal> {
    // SAFETY: five slices, each passed as its own pointer and length; `out` is
    // the `&mut`.
    let number = unsafe {
        aez_log_header(
            nonce.as_ptr(),
            nonce.len(),
            host.as_ptr(),
            host.len(),
            collector.as_ptr(),
            collector.len(),
            locale.as_ptr(),
            locale.len(),
            out.as_mut_ptr(),
            out.len(),
        )
    };
    done(number)?;
    // `log_header_length` in Lengths.antt: the count, and each item after its length
    // in two bytes. No sum overflows: by test 8 no item is above 1,024 bytes.
    Ok(1 + (2 + nonce.len()) + (2 + host.len()) + (2 + collector.len()) + (2 + locale.len()))
}

/// Reads a header, and returns the number of its strings, 1 to 16.
pub fn header_read(header: &[u8]) -> Result<usize, BadEntry> {
    let (mut strings, mut place) = (0, 0);
    // SAFETY: one slice, passed as its pointer and length. `strings` and `place` are
    // two numbers of this function.
    let number =
        unsafe { aez_header_read(header.as_ptr(), header.len(), &mut strings, &mut place) };
    match number {
        0 => Ok(strings as usize),
        // 3: `header_read_number` in Numbers.antt.
        _ => Err(bad_entry(place)),
    }
}

/// The answer number as a type, with the header's bad entry beside 3.
fn done_at(number: u32, place: u64) -> Result<(), Refusal> {
    done(number).map_err(|refusal| match refusal {
        Refusal::HeaderUnreadable(_) => bad_entry(place).into(),
        refusal => refusal,
    })
}

/// The number of a bad entry as a type.
///
/// # Panics
///
/// Above 17. No such number comes beside answer 3: that is proved in BadEntries.antt,
/// as `seal_at_place`, `open_at_place` and `header_read_place`.
fn bad_entry(place: u64) -> BadEntry {
    let number = u32::try_from(place).ok();
    let found = number.and_then(BadEntry::from_number);
    found.unwrap_or_else(|| unreachable!("no entry of a header has the number {place}"))
}

/// The answer number as a type.
///
/// # Panics
///
/// At a number that stands for nothing. None comes: that the number of each call is
/// one of document 01's for it is proved in Numbers.antt, for sealing as
/// `seal_at_number` (0, 1, 2, 3, 4 and 6), for opening as `open_at_number` (0 to 7),
/// for the builder as `log_header_number` (0, 6 and 8). For the calls on a day file it
/// is proved there too, as `day_write_number`, `day_records_number`, `day_open_number`
/// and `day_list_number`: 9 and document 01's; `day_clear_number`: 0, 9 and 17;
/// `day_append_number`: 0, 6 and 9; for reading a pause (0, 3, 15 and 16) and reporting
/// (0, 9, 1 and 6) in Pauses.antt.
fn done(number: u32) -> Result<(), Refusal> {
    if number == 0 {
        return Ok(());
    }
    let found = Refusal::ALL
        .iter()
        .find(|refusal| refusal.number() == number);
    Err(*found.unwrap_or_else(|| unreachable!("there is no answer {number}")))
}
