//! The key as a type.

use core::fmt;

use crate::{Refusal, Report, KEY_LENGTH};

/// A key: 48 bytes, the blocks I, J and L, 16 each, in that order.
///
/// Its length is settled when it is made: its calls never answer
/// [`KeyLength`](Refusal::KeyLength), and a header can't be passed in its place.
/// [`seal`](crate::seal) and [`open`](crate::open) take a key of any bytes instead,
/// and answer as document 01 has it.
///
/// ```
/// use jarrovento::{Key, Refusal};
///
/// let key = Key::from([7; 48]);
/// // Its bytes do not get into a log by accident.
/// assert_eq!(format!("{key:?}"), "Key(..)");
///
/// let content: Vec<u8> = vec![7; 47]; // of a file, say
/// assert_eq!(Key::try_from(&content[..]).unwrap_err(), Refusal::KeyLength);
/// ```
///
/// # What is not promised
///
/// A key is not wiped from memory when it is dropped, and neither are the copies
/// that a call makes of its blocks. Without `unsafe` a compiler may leave out a last
/// write that nobody reads, and a value that has moved has left its bytes behind
/// where no `drop` comes by. If you need them gone, keep the bytes in memory that
/// you clear yourself, and lend them to [`seal`](crate::seal) and
/// [`open`](crate::open).
#[derive(Clone)]
pub struct Key([u8; KEY_LENGTH]);

impl Key {
    /// Seals `text` under this key, as [`seal`](crate::seal) does.
    ///
    /// # Errors
    ///
    /// In this order: [`StretchTooLong`], [`HeaderUnreadable`], [`TooLong`],
    /// [`OutputTooShort`]. After each of them all of `out` is unchanged.
    ///
    /// [`StretchTooLong`]: Refusal::StretchTooLong
    /// [`HeaderUnreadable`]: Refusal::HeaderUnreadable
    /// [`TooLong`]: Refusal::TooLong
    /// [`OutputTooShort`]: Refusal::OutputTooShort
    ///
    /// # Examples
    ///
    /// ```
    /// use jarrovento::{Key, Refusal};
    ///
    /// let key = Key::from(std::array::from_fn(|place| place as u8));
    /// // Four strings: 01, "n7", no bytes, "de".
    /// let header = [4, 0, 1, 1, 0, 2, b'n', b'7', 0, 0, 0, 2, b'd', b'e'];
    ///
    /// let mut out = [0xa5; 8];
    /// let sealed = key.seal(&header, 0, b"hello", &mut out)?;
    /// assert_eq!(sealed, [0xa6, 0x8f, 0xcc, 0x5b, 0x92]);
    /// assert_eq!(out[5..], [0xa5; 3]);
    /// # Ok::<(), Refusal>(())
    /// ```
    pub fn seal<'a>(
        &self,
        header: &[u8],
        stretch: u64,
        text: &[u8],
        out: &'a mut [u8],
    ) -> Result<&'a mut [u8], Refusal> {
        crate::seal(&self.0, header, stretch, text, out)
    }

    /// Opens `sealed` under this key, as [`open`](crate::open) does. `out` must have
    /// room for the sealed string, not for the text alone.
    ///
    /// # Errors
    ///
    /// In this order: [`StretchTooLong`], [`HeaderUnreadable`], [`TooLong`],
    /// [`ShorterThanStretch`], [`OutputTooShort`]; after each of them all of `out` is
    /// unchanged. Then [`CheckFails`], after which the first `sealed.len()` bytes of
    /// `out` are zero, and all later ones unchanged.
    ///
    /// [`StretchTooLong`]: Refusal::StretchTooLong
    /// [`HeaderUnreadable`]: Refusal::HeaderUnreadable
    /// [`TooLong`]: Refusal::TooLong
    /// [`ShorterThanStretch`]: Refusal::ShorterThanStretch
    /// [`OutputTooShort`]: Refusal::OutputTooShort
    /// [`CheckFails`]: Refusal::CheckFails
    ///
    /// # Examples
    ///
    /// ```
    /// use jarrovento::{Key, Refusal};
    ///
    /// let key = Key::from(std::array::from_fn(|place| place as u8));
    /// let header = [4, 0, 1, 1, 0, 2, b'n', b'7', 0, 0, 0, 2, b'd', b'e'];
    ///
    /// let mut out = [0; 8];
    /// let sealed = [0xa6, 0x8f, 0xcc, 0x5b, 0x92];
    /// assert_eq!(key.open(&header, 0, &sealed, &mut out)?, b"hello");
    /// # Ok::<(), Refusal>(())
    /// ```
    pub fn open<'a>(
        &self,
        header: &[u8],
        stretch: u64,
        sealed: &[u8],
        out: &'a mut [u8],
    ) -> Result<&'a mut [u8], Refusal> {
        crate::open(&self.0, header, stretch, sealed, out)
    }

    /// Opens a record of a day file under this key, as
    /// [`open_record`](crate::open_record) does.
    ///
    /// # Errors
    ///
    /// [`DayUnreadable`](Refusal::DayUnreadable) first, with all of `out` unchanged; then
    /// those of [`open`](Key::open), in its order.
    pub fn open_record<'a>(
        &self,
        file: &[u8],
        record: u64,
        out: &'a mut [u8],
    ) -> Result<&'a mut [u8], Refusal> {
        crate::open_record(&self.0, file, record, out)
    }

    /// Reports on a day file under this key, as [`report`](crate::report()) does.
    ///
    /// # Errors
    ///
    /// [`DayUnreadable`](Refusal::DayUnreadable).
    pub fn report(&self, file: &[u8]) -> Result<Report, Refusal> {
        crate::report(&self.0, file)
    }

    /// Writes the report as a line, as [`report_line`](crate::report_line) does.
    ///
    /// # Errors
    ///
    /// In this order: [`DayUnreadable`](Refusal::DayUnreadable),
    /// [`OutputTooShort`](Refusal::OutputTooShort). After each of them all of `out` is
    /// unchanged.
    pub fn report_line<'a>(&self, file: &[u8], out: &'a mut [u8]) -> Result<&'a mut [u8], Refusal> {
        crate::report_line(&self.0, file, out)
    }
}

impl From<[u8; KEY_LENGTH]> for Key {
    fn from(bytes: [u8; KEY_LENGTH]) -> Key {
        Key(bytes)
    }
}

/// [`Refusal::KeyLength`] where there are not 48 bytes.
impl TryFrom<&[u8]> for Key {
    type Error = Refusal;

    fn try_from(bytes: &[u8]) -> Result<Key, Refusal> {
        match bytes.try_into() {
            Ok(bytes) => Ok(Key(bytes)),
            Err(_) => Err(Refusal::KeyLength),
        }
    }
}

/// Shows that it is a key, and none of its bytes.
impl fmt::Debug for Key {
    fn fmt(&self, f: &mut fmt::Formatter<'_>) -> fmt::Result {
        f.write_str("Key(..)")
    }
}
