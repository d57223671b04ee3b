//! The text of a pause, read by its locale.

use crate::{proved, Refusal};

/// Reads an opened text as a pause under its header's locale, in exact microseconds.
///
/// The text is one to nine digits, perhaps the locale's decimal mark and one to three
/// digits, one space, and `ms` or `s`; nothing stands before, between or after them.
/// The locale is the last of the header's four strings: `de`, `fr` and `it` have the
/// comma for a mark, `en` has the point. There is no thousands mark, so that no text
/// is a pause under two locales and means different things there.
///
/// # Errors
///
/// In this order: [`HeaderUnreadable`], [`LocaleUnknown`], [`NotAPause`].
///
/// [`HeaderUnreadable`]: Refusal::HeaderUnreadable
/// [`LocaleUnknown`]: Refusal::LocaleUnknown
/// [`NotAPause`]: Refusal::NotAPause
///
/// # Examples
///
/// ```
/// use jarrovento::{log_header, read_pause, Refusal};
///
/// let (mut de, mut en) = ([0; 64], [0; 64]);
/// let de = log_header(&[1], b"n7", b"", b"de", &mut de)?;
/// let en = log_header(&[1], b"n8", b"", b"en", &mut en)?;
///
/// assert_eq!(read_pause(de, b"1,204 s")?, 1_204_000);
/// assert_eq!(read_pause(de, b"1,204 ms")?, 1_204);
/// assert_eq!(read_pause(en, b"1.204 s")?, 1_204_000);
/// assert_eq!(read_pause(en, b"870 ms")?, 870_000);
///
/// // Never twenty minutes.
/// assert_eq!(read_pause(en, b"1,204 s"), Err(Refusal::NotAPause));
///
/// let mut none = [0; 64];
/// let none = log_header(&[1], b"n9", b"", b"", &mut none)?;
/// assert_eq!(read_pause(none, b"870 ms"), Err(Refusal::LocaleUnknown));
/// # Ok::<(), Refusal>(())
/// ```
pub fn read_pause(header: &[u8], text: &[u8]) -> Result<u64, Refusal> {
    proved::ledger::pause(header, text)
}
