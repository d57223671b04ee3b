//! Seals and opens log records with AEZ, by code that is proved.
//!
//! The work is done by a static library written in Rattle. It is proved to give
//! the bytes that the AEZ paper defines, and to answer every call: this crate
//! adds Rust's types to it and nothing else. No call allocates, and no call
//! panics.
//!
//! A record is sealed under a **key** of 48 bytes, a **header** and a
//! **stretch**. The header is not secret and travels beside the record, and the
//! record is bound to it. The stretch is how many bytes a sealed string is longer
//! than its text, 0 to 64. They are what the check is made of: if AEZ is as strong
//! as its authors hold, which is not part of what is proved, a string that nobody
//! has sealed under this header passes it with a chance of about one in 256 to the
//! power of the stretch. At a stretch of 0 there is nothing to check, and every
//! string opens to some text.
//!
//! ```
//! use jarrovento::{log_header, Key, Refusal};
//!
//! let key = Key::from([7; 48]);
//! let mut header = [0; 64];
//! let header = log_header(&[1], b"n7", b"", b"de", &mut header)?;
//!
//! let mut sealed = [0; 64];
//! let sealed = key.seal(header, 4, b"1,204 s", &mut sealed)?;
//! assert_eq!(sealed.len(), 7 + 4);
//!
//! let mut text = [0; 64];
//! assert_eq!(key.open(header, 4, sealed, &mut text)?, b"1,204 s");
//!
//! // Under another host's header the record does not open.
//! let mut other = [0; 64];
//! let other = log_header(&[1], b"n8", b"", b"en", &mut other)?;
//! assert_eq!(key.open(other, 4, sealed, &mut text), Err(Refusal::CheckFails));
//! # Ok::<(), Refusal>(())
//! ```
//!
//! [`seal`] and [`open`] are the same calls on a key of any bytes, for which document
//! 01 has an answer too. [`read_header`] gives the strings of a header. Where a header
//! does not read, every call says which of its entries is bad.
//!
//! A **day file** holds the records of a day with their headers, and an index of them.
//! [`Day`] reads one, [`DayWriter`] writes one, and [`open_record`] opens a record of it
//! by its number. A `DayWriter` keeps what it is given in collections of the caller's
//! choice. A [`DayBuffer`] changes a file where it stands: it clears out records, and
//! appends one.
//!
//! A **pause** is what such a record says: [`read_pause`] reads an opened text under its
//! header's locale, in exact microseconds, and [`report`] opens, reads and sums all
//! records of a day file.
//!
//! The paper limits the use of one key to 2^48 bytes. No call counts them: that
//! is the caller's to keep. The static library is for x86-64 Linux.

// Without std, and without alloc, there is no heap to allocate on.
#![no_std]
#![deny(missing_docs)]
#![deny(unsafe_code)]

mod bad_entry;
mod day;
mod day_buffer;
mod day_writer;
mod header;
mod key;
mod pause;
mod proved;
mod refusal;
mod report;

pub use bad_entry::BadEntry;
pub use day::{open_record, Day, Record, Records};
pub use day_buffer::DayBuffer;
pub use day_writer::{DayLists, DayWriter};
pub use header::{read_header, HeaderStrings};
pub use key::Key;
pub use pause::read_pause;
pub use refusal::Refusal;
pub use report::{report, report_line, Mean, Report};

/// The bytes of a key: the blocks I, J and L, 16 each, in that order.
pub const KEY_LENGTH: usize = 48;

/// The bytes of the longest sealed string. An output of this length is never
/// too short, neither for sealing nor for opening.
pub const LONGEST_SEALED: usize = 65_536;

/// The strings of a header are 1 to 16.
pub const MOST_STRINGS: usize = 16;

/// The bytes of the longest log header: four items of 1,024 bytes, each after
/// its length in two bytes, and their count.
pub const LONGEST_LOG_HEADER: usize = 1 + 4 * (2 + 1_024);

/// The bytes of the longest day file. An output of this length is never too short
/// for [`DayWriter::write`].
pub const LONGEST_DAY: usize = 65_536;

/// The bytes of the longest line of a report. An output of this length is never too
/// short for [`report_line`].
// `line_most` in crates/laws/proofs/LedgerSums.antt.
pub const LONGEST_REPORT: usize = 71;

/// Seals `text`, and hands back the part of `out` that holds the sealed string:
/// its first `text.len() + stretch` bytes. All later bytes are left unchanged.
///
/// # Errors
///
/// In this order: [`KeyLength`], [`StretchTooLong`], [`HeaderUnreadable`],
/// [`TooLong`], [`OutputTooShort`]. After each of them all of `out` is
/// unchanged.
///
/// [`KeyLength`]: Refusal::KeyLength
/// [`StretchTooLong`]: Refusal::StretchTooLong
/// [`HeaderUnreadable`]: Refusal::HeaderUnreadable
/// [`TooLong`]: Refusal::TooLong
/// [`OutputTooShort`]: Refusal::OutputTooShort
///
/// # Examples
///
/// ```
/// use jarrovento::{seal, Refusal};
///
/// let key: Vec<u8> = (0..48).collect();
/// // Four strings: 01, "n7", no bytes, "de".
/// let header = [4, 0, 1, 1, 0, 2, b'n', b'7', 0, 0, 0, 2, b'd', b'e'];
///
/// let mut out = [0xa5; 8];
/// let sealed = seal(&key, &header, 0, b"hello", &mut out)?;
/// assert_eq!(sealed, [0xa6, 0x8f, 0xcc, 0x5b, 0x92]);
/// assert_eq!(out[5..], [0xa5; 3]);
///
/// assert_eq!(seal(&key, &header, 4, b"hello", &mut out), Err(Refusal::OutputTooShort));
/// # Ok::<(), Refusal>(())
/// ```
pub fn seal<'a>(
    key: &[u8],
    header: &[u8],
    stretch: u64,
    text: &[u8],
    out: &'a mut [u8],
) -> Result<&'a mut [u8], Refusal> {
    let length = proved::seal(key, header, stretch, text, out)?;
    Ok(&mut out[..length])
}

/// Opens `sealed`, and hands back the part of `out` that holds the text: its
/// first `sealed.len() - stretch` bytes. As many zero bytes as the stretch
/// follow it, and all later bytes are left unchanged.
///
/// `out` must have room for the sealed string, not for the text alone. An empty
/// text is `Ok` with an empty slice.
///
/// # Errors
///
/// In this order: [`KeyLength`], [`StretchTooLong`], [`HeaderUnreadable`],
/// [`TooLong`], [`ShorterThanStretch`], [`OutputTooShort`]; after each of them
/// all of `out` is unchanged. Then [`CheckFails`], where no text seals to
/// `sealed` under this key, header and stretch: the first `sealed.len()` bytes of
/// `out` are then zero, and all later ones unchanged.
///
/// [`KeyLength`]: Refusal::KeyLength
/// [`StretchTooLong`]: Refusal::StretchTooLong
/// [`HeaderUnreadable`]: Refusal::HeaderUnreadable
/// [`TooLong`]: Refusal::TooLong
/// [`ShorterThanStretch`]: Refusal::ShorterThanStretch
/// [`OutputTooShort`]: Refusal::OutputTooShort
/// [`CheckFails`]: Refusal::CheckFails
///
/// # Examples
///
/// ```
/// use jarrovento::{open, Refusal};
///
/// let key: Vec<u8> = (0..48).collect();
/// let header = [4, 0, 1, 1, 0, 2, b'n', b'7', 0, 0, 0, 2, b'd', b'e'];
/// let mut out = [0xa5; 8];
///
/// let mut sealed = [0xa6, 0x8f, 0xcc, 0x5b, 0x92];
/// assert_eq!(open(&key, &header, 0, &sealed, &mut out)?, b"hello");
///
/// // With a stretch of 0 a damaged string opens too, to some other text.
/// sealed[0] ^= 1;
/// assert_ne!(open(&key, &header, 0, &sealed, &mut out)?, b"hello");
///
/// // The string was not sealed with a stretch of 4: the text is not shown.
/// assert_eq!(open(&key, &header, 4, &sealed, &mut out), Err(Refusal::CheckFails));
/// assert_eq!(out, [0, 0, 0, 0, 0, 0xa5, 0xa5, 0xa5]);
/// # Ok::<(), Refusal>(())
/// ```
pub fn open<'a>(
    key: &[u8],
    header: &[u8],
    stretch: u64,
    sealed: &[u8],
    out: &'a mut [u8],
) -> Result<&'a mut [u8], Refusal> {
    let length = proved::open(key, header, stretch, sealed, out)?;
    Ok(&mut out[..length])
}

/// Builds the header of a log, and hands back the part of `out` that holds it,
/// its first bytes. All later bytes are left unchanged.
///
/// All four items are written, in this order, one without bytes as a string of
/// length 0. So two headers are equal only if all four items are, and a record is
/// bound to each of them by itself.
///
/// # Errors
///
/// In this order: [`ItemTooLong`](Refusal::ItemTooLong),
/// [`OutputTooShort`](Refusal::OutputTooShort). After each of them all of `out`
/// is unchanged. An output of [`LONGEST_LOG_HEADER`] bytes is never too short.
///
/// # Examples
///
/// ```
/// use jarrovento::{log_header, Refusal};
///
/// let mut out = [0; 14];
/// let header = log_header(&[1], b"n7", b"", b"de", &mut out)?;
/// assert_eq!(header, [4, 0, 1, 1, 0, 2, b'n', b'7', 0, 0, 0, 2, b'd', b'e']);
///
/// // A collector called "de" is not a locale "de".
/// let mut out = [0; 14];
/// let header = log_header(&[1], b"n7", b"de", b"", &mut out)?;
/// assert_eq!(header, [4, 0, 1, 1, 0, 2, b'n', b'7', 0, 2, b'd', b'e', 0, 0]);
///
/// assert_eq!(log_header(&[1], b"n7", b"", b"de", &mut out[..13]), Err(Refusal::OutputTooShort));
/// assert_eq!(log_header(&[1], &[b'n'; 1025], b"", b"de", &mut []), Err(Refusal::ItemTooLong));
/// # Ok::<(), Refusal>(())
/// ```
pub fn log_header<'a>(
    nonce: &[u8],
    host: &[u8],
    collector: &[u8],
    locale: &[u8],
    out: &'a mut [u8],
) -> Result<&'a mut [u8], Refusal> {
    let length = proved::log_header(nonce, host, collector, locale, out)?;
    Ok(&mut out[..length])
}
