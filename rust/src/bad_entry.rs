//! Which entry of a header does not read.

use core::error::Error;
use core::fmt;

use crate::Refusal;

/// The number of bytes left over: one behind that of the last string there can be.
const LEFT_OVER: u32 = 17;

/// The entry at which a header does not read, the first where several are bad:
/// the entries before it are as they should be.
///
/// Every entry has a number, and only the numbers 0 to 17 are one.
///
/// ```
/// use jarrovento::{read_header, BadEntry};
///
/// // Four strings are announced, and the length of the third runs past the end.
/// let header = [4, 0, 1, 1, 0, 2, b'n', b'7', 0, 9, 0, 2, b'd', b'e'];
/// let entry = read_header(&header).unwrap_err();
/// assert_eq!(entry.number(), 3);
/// assert_eq!(Some(entry), BadEntry::from_number(3));
/// assert_eq!(
///     entry.to_string(),
///     "entry 3 is bad: the length of string 3 is missing, above 1,024 or runs past the end"
/// );
/// assert!(matches!(entry, BadEntry::String { number: 3, .. }));
///
/// assert_eq!(read_header(&[]).unwrap_err(), BadEntry::Count);
/// assert_eq!(read_header(&[1, 0, 0, 0]).unwrap_err(), BadEntry::LeftOver);
/// ```
#[derive(Clone, Copy, Debug, PartialEq, Eq, Hash)]
pub enum BadEntry {
    /// 0: the count itself. There are no bytes, or the count is 0 or above 16.
    Count,
    /// 1 to 16: the string of this number, the nonce being 1. Its two length bytes
    /// are missing, name more than 1,024 bytes, or name more than are left.
    ///
    /// Made by [`from_number`](BadEntry::from_number) alone, so that no other number
    /// stands here.
    #[non_exhaustive]
    String {
        /// The string's number.
        number: u32,
    },
    /// 17: bytes are left over after the last string.
    LeftOver,
}

impl BadEntry {
    /// The entry of this number; nothing above 17.
    pub const fn from_number(number: u32) -> Option<BadEntry> {
        match number {
            0 => Some(BadEntry::Count),
            1..LEFT_OVER => Some(BadEntry::String { number }),
            LEFT_OVER => Some(BadEntry::LeftOver),
            _ => None,
        }
    }

    /// Its number: 0 for the count, 1 to 16 for a string, 17 for bytes left over.
    pub const fn number(self) -> u32 {
        match self {
            BadEntry::Count => 0,
            BadEntry::String { number } => number,
            BadEntry::LeftOver => LEFT_OVER,
        }
    }
}

impl fmt::Display for BadEntry {
    fn fmt(&self, f: &mut fmt::Formatter<'_>) -> fmt::Result {
        write!(f, "entry {} is bad: ", self.number())?;
        match self {
            BadEntry::Count => f.write_str("the count of strings is missing, 0 or above 16"),
            BadEntry::String { number } => write!(
                f,
                "the length of string {number} is missing, above 1,024 or runs past the end"
            ),
            BadEntry::LeftOver => f.write_str("bytes are left over after the last string"),
        }
    }
}

impl Error for BadEntry {}

/// Refusal 3, with this entry.
impl From<BadEntry> for Refusal {
    fn from(entry: BadEntry) -> Refusal {
        Refusal::HeaderUnreadable(entry)
    }
}
