//! A header as its strings.

use core::fmt;
use core::ops::Deref;

use crate::{proved, BadEntry, MOST_STRINGS};

/// The strings of a header that reads: 1 to 16, the nonce first, each the part of
/// the header that holds it. It is used as a slice of them.
#[derive(Clone, Copy)]
pub struct HeaderStrings<'a> {
    /// The first `count` are the header's; the rest are empty.
    strings: [&'a [u8]; MOST_STRINGS],
    count: usize,
}

/// Reads a header: its strings, or the entry at which it does not read.
///
/// # Errors
///
/// The first entry that is bad, as [`seal`](crate::seal) and [`open`](crate::open)
/// give it with [`HeaderUnreadable`](crate::Refusal::HeaderUnreadable).
///
/// # Examples
///
/// ```
/// use jarrovento::{log_header, read_header, Refusal};
///
/// let mut out = [0; 64];
/// let header = log_header(&[1], b"n7", b"", b"de", &mut out)?;
///
/// let strings = read_header(header)?;
/// assert_eq!(strings.len(), 4);
/// let [nonce, host, collector, locale] = *strings else {
///     panic!("a log header has four strings");
/// };
/// assert_eq!((nonce, host), (&[1][..], &b"n7"[..]));
/// assert_eq!((collector, locale), (&b""[..], &b"de"[..]));
///
/// // Cut off in its last string.
/// let cut = &header[..header.len() - 1];
/// assert_eq!(read_header(cut).unwrap_err().number(), 4);
/// # Ok::<(), Refusal>(())
/// ```
pub fn read_header(header: &[u8]) -> Result<HeaderStrings<'_>, BadEntry> {
    let count = proved::header_read(header)?;
    let mut strings = [&[][..]; MOST_STRINGS];
    // The header reads, so it is the count and then each string after its length, and
    // they are at most 16: `read_write` and `read_readable` in
    // crates/laws/proofs/Headers.antt. No cut goes past its end.
    let mut rest = &header[1..];
    for string in &mut strings[..count] {
        let length = usize::from(u16::from_be_bytes([rest[0], rest[1]]));
        (*string, rest) = rest[2..].split_at(length);
    }
    Ok(HeaderStrings { strings, count })
}

impl<'a> Deref for HeaderStrings<'a> {
    type Target = [&'a [u8]];

    fn deref(&self) -> &[&'a [u8]] {
        &self.strings[..self.count]
    }
}

impl fmt::Debug for HeaderStrings<'_> {
    fn fmt(&self, f: &mut fmt::Formatter<'_>) -> fmt::Result {
        f.debug_list().entries(self.iter()).finish()
    }
}
