//! What a call answers where it does not do its work.

use core::error::Error;
use core::fmt;

use crate::BadEntry;

/// A refusal: one of document 01's answers 1 to 8, 9 and 17 of the day file, or 15 and
/// 16 of the pause.
///
/// A call gives the first that holds, in the order of their numbers; the log
/// header builder tests 8 and then 6, and calls on a day file test 9 before the rest.
/// 15 and 16 come after opening, and are for one record.
///
/// Calls that are still to come bring refusals of their own, so a `match` has an
/// arm for the rest. The numbers that stand here stay as they are.
///
/// ```
/// use jarrovento::{seal, Refusal};
///
/// let refusal = seal(&[0; 47], &[], 0, b"text", &mut []).unwrap_err();
/// assert_eq!(refusal, Refusal::KeyLength);
/// assert_eq!(refusal.number(), 1);
/// assert_eq!(refusal.meaning(), "the key is not 48 bytes long");
/// assert_eq!(refusal.to_string(), "refusal 1: the key is not 48 bytes long");
///
/// let error: Box<dyn std::error::Error> = refusal.into();
/// # assert_eq!(error.to_string(), refusal.to_string());
///
/// // A header of one string, cut off in its length.
/// let refusal = seal(&[0; 48], &[1, 0], 0, b"text", &mut []).unwrap_err();
/// let Refusal::HeaderUnreadable(entry) = refusal else {
///     panic!("{refusal}");
/// };
/// assert_eq!(entry.number(), 1);
/// assert_eq!(refusal.to_string(), format!("refusal 3: the header does not read; {entry}"));
/// ```
#[derive(Clone, Copy, Debug, PartialEq, Eq, Hash)]
#[non_exhaustive]
pub enum Refusal {
    /// 1: the key is not 48 bytes long.
    KeyLength,
    /// 2: the stretch is above 64 bytes.
    StretchTooLong,
    /// 3: the header does not read, and this entry of it is the first that is bad.
    HeaderUnreadable(BadEntry),
    /// 4: text plus stretch, the sealed string, or the day file to be written, is above
    /// 65,536 bytes.
    TooLong,
    /// 5: opening, the sealed string is shorter than the stretch.
    ShorterThanStretch,
    /// 6: the output is shorter than text plus stretch, than the sealed string,
    /// than the log header, or than the day file, the list of its places or the line of
    /// its report. Appending: with the record the day file would be above its buffer or
    /// above 65,536 bytes.
    OutputTooShort,
    /// 7: opening, the check fails: no text seals to this string.
    CheckFails,
    /// 8: the log header builder, an item is above 1,024 bytes.
    ItemTooLong,
    /// 9: the day file does not read, names a header that it lacks, or lacks the record
    /// asked for. Writing and appending: a header, a stretch or a header's number is
    /// outside its layout, or the lists do not fit each other.
    DayUnreadable,
    /// 15: reading a pause, the header has not four items, or the fourth is no known
    /// locale: not `de`, `fr`, `it` or `en`.
    LocaleUnknown,
    /// 16: reading a pause, the text is none as the locale writes it.
    NotAPause,
    /// 17: clearing out records, the list of their numbers is not strictly rising, or
    /// names a record that the day file lacks.
    WrongList,
}

impl Refusal {
    /// A refusal of every number, in their order; 3 with the count as its bad entry.
    pub const ALL: &'static [Refusal] = &[
        Refusal::KeyLength,
        Refusal::StretchTooLong,
        Refusal::HeaderUnreadable(BadEntry::Count),
        Refusal::TooLong,
        Refusal::ShorterThanStretch,
        Refusal::OutputTooShort,
        Refusal::CheckFails,
        Refusal::ItemTooLong,
        Refusal::DayUnreadable,
        Refusal::LocaleUnknown,
        Refusal::NotAPause,
        Refusal::WrongList,
    ];

    /// Its number, document 01's or the request's.
    pub const fn number(self) -> u32 {
        match self {
            Refusal::KeyLength => 1,
            Refusal::StretchTooLong => 2,
            Refusal::HeaderUnreadable(_) => 3,
            Refusal::TooLong => 4,
            Refusal::ShorterThanStretch => 5,
            Refusal::OutputTooShort => 6,
            Refusal::CheckFails => 7,
            Refusal::ItemTooLong => 8,
            Refusal::DayUnreadable => 9,
            Refusal::LocaleUnknown => 15,
            Refusal::NotAPause => 16,
            Refusal::WrongList => 17,
        }
    }

    /// What it means, in words. Which entry of a header is bad, the entry says.
    pub const fn meaning(self) -> &'static str {
        match self {
            Refusal::KeyLength => "the key is not 48 bytes long",
            Refusal::StretchTooLong => "the stretch is above 64 bytes",
            Refusal::HeaderUnreadable(_) => "the header does not read",
            Refusal::TooLong => "the sealed string or day file is, or would be, above 65,536 bytes",
            Refusal::ShorterThanStretch => "the sealed string is shorter than the stretch",
            Refusal::OutputTooShort => "the output is too short, or the day file has no room left",
            Refusal::CheckFails => {
                "the check fails: nothing seals to this string under this key, header and stretch"
            }
            Refusal::ItemTooLong => "an item of the log header is above 1,024 bytes",
            Refusal::DayUnreadable => {
                "the day file does not read or has no such record, or no such file can be written"
            }
            Refusal::LocaleUnknown => "the locale is unknown, or the header has not four items",
            Refusal::NotAPause => "the text is no pause as its locale writes one",
            Refusal::WrongList => {
                "the list of records is not strictly rising, or names one that is not there"
            }
        }
    }
}

impl fmt::Display for Refusal {
    fn fmt(&self, f: &mut fmt::Formatter<'_>) -> fmt::Result {
        write!(f, "refusal {}: {}", self.number(), self.meaning())?;
        match self {
            Refusal::HeaderUnreadable(entry) => write!(f, "; {entry}"),
            _ => Ok(()),
        }
    }
}

impl Error for Refusal {}
