//! A day file that is changed where it stands.

use core::fmt;

use crate::{proved, Day, DayLists, Refusal};

/// A day file at the start of a buffer, which is changed there: records are cleared out
/// of it, and others appended. Behind the file is the room that it can grow into, up to
/// [`LONGEST_DAY`](crate::LONGEST_DAY) bytes in all.
///
/// The file reads, at every time: [`read`](DayBuffer::read) checks it,
/// [`empty`](DayBuffer::empty) makes one, and both changes leave one. A change that is
/// refused changes no byte of the buffer. No second buffer is needed for any of them.
///
/// # Examples
///
/// ```
/// use jarrovento::{log_header, DayBuffer, Key, Refusal, LONGEST_DAY};
///
/// let key = Key::from([7; 48]);
/// let mut buffer = vec![0; LONGEST_DAY];
/// let mut day = DayBuffer::empty(&mut buffer)?;
/// for (number, pause) in [(0, "1,204 s"), (1, "870 ms"), (2, "12 s")] {
///     let (mut header, mut sealed) = ([0; 64], [0; 64]);
///     let header = log_header(&[number as u8], b"n7", b"", b"de", &mut header)?;
///     let sealed = key.seal(header, 4, pause.as_bytes(), &mut sealed)?;
///     // The next number: each record brings a header of its own.
///     day.append(number, header, 4, sealed)?;
/// }
///
/// // The first two have expired. The third is record 0 now, and opens as before.
/// let long = day.file().len();
/// let file = day.clear(&[0, 1])?;
/// assert!(file.len() < long);
/// let mut text = [0; 64];
/// assert_eq!(key.open_record(file, 0, &mut text)?, b"12 s");
///
/// assert_eq!(day.clear(&[0, 0]), Err(Refusal::WrongList));
/// assert_eq!(day.clear(&[1]), Err(Refusal::WrongList));
/// # Ok::<(), Refusal>(())
/// ```
pub struct DayBuffer<'a> {
    buffer: &'a mut [u8],
    /// Of the file: what the last call handed back. That so many bytes read is proved of
    /// a change in `crates/audit/proofs/EditedDays.antt`, as `cleared_reads` and
    /// `grown_reads`, and of an empty day in `DayFiles.antt`, as `written_day`.
    length: usize,
}

impl<'a> DayBuffer<'a> {
    /// The day file that is the first `length` bytes of a buffer. The bytes behind them
    /// may be any.
    ///
    /// # Errors
    ///
    /// [`DayUnreadable`](Refusal::DayUnreadable): they do not read as one, or `length` is
    /// past the buffer.
    ///
    /// # Examples
    ///
    /// ```
    /// use jarrovento::{DayBuffer, Refusal};
    ///
    /// // No headers, no records and no entries in the index, and three bytes of room.
    /// let mut buffer = [0; 15];
    /// assert_eq!(DayBuffer::read(&mut buffer, 12)?.file(), [0; 12]);
    /// assert_eq!(DayBuffer::read(&mut buffer, 15).unwrap_err(), Refusal::DayUnreadable);
    /// assert_eq!(DayBuffer::read(&mut buffer, 16).unwrap_err(), Refusal::DayUnreadable);
    /// # Ok::<(), Refusal>(())
    /// ```
    pub fn read(buffer: &'a mut [u8], length: usize) -> Result<DayBuffer<'a>, Refusal> {
        let file = buffer.get(..length).ok_or(Refusal::DayUnreadable)?;
        Day::count(file)?;
        Ok(DayBuffer { buffer, length })
    }

    /// A day without headers and records: puts its file, 12 bytes, first in a buffer.
    ///
    /// # Errors
    ///
    /// [`OutputTooShort`](Refusal::OutputTooShort): the buffer is shorter than that. It is
    /// unchanged then.
    pub fn empty(buffer: &'a mut [u8]) -> Result<DayBuffer<'a>, Refusal> {
        let length = proved::day::write(&DayLists::default(), buffer)?;
        Ok(DayBuffer { buffer, length })
    }

    /// The file as it is now. Its length is what a later [`read`](DayBuffer::read) of the
    /// same buffer needs.
    pub fn file(&self) -> &[u8] {
        &self.buffer[..self.length]
    }

    /// Its headers and records, as [`Day::read`] has them.
    ///
    /// # Errors
    ///
    /// [`OutputTooShort`](Refusal::OutputTooShort): `places` has less than two numbers
    /// for each header and four for each record. [`Day::places`] says how many are
    /// enough.
    pub fn day<'b>(&'b self, places: &'b mut [u64]) -> Result<Day<'b>, Refusal> {
        Day::read(self.file(), places)
    }

    /// Clears out the records of these numbers, in rising order, and hands back the file
    /// as it is then.
    ///
    /// Those that are kept stand in the order that they had, with the same headers,
    /// stretches and sealed strings, and open as they did before; their numbers are
    /// counted anew. A header that none of them names goes too, also one that no record
    /// named before: with an empty list nothing else goes. The bytes that the file no
    /// longer takes are zero, and those behind its old end unchanged.
    ///
    /// # Errors
    ///
    /// [`WrongList`](Refusal::WrongList): the numbers are not strictly rising, or one of
    /// them is not that of a record. All of the buffer is unchanged then.
    ///
    /// # Examples
    ///
    /// ```
    /// use jarrovento::{DayBuffer, DayLists, Refusal};
    ///
    /// let lists = DayLists {
    ///     header_lengths: &[3, 4],
    ///     headers: &[1, 0, 0, 1, 0, 1, 7],
    ///     record_headers: &[0, 1],
    ///     record_stretches: &[0, 4],
    ///     record_lengths: &[2, 5],
    ///     sealed: &[0x11, 0x22, 0xaa, 0xbb, 0xcc, 0xdd, 0xee],
    /// };
    /// let mut buffer = [0xa5; 60];
    /// let length = lists.write(&mut buffer)?.len();
    /// let mut day = DayBuffer::read(&mut buffer, length)?;
    /// assert_eq!(
    ///     day.clear(&[0])?,
    ///     [
    ///         0, 0, 0, 1, // header 1 is now header 0
    ///         0, 4, 1, 0, 1, 7, //
    ///         0, 0, 0, 1, // and record 1 is record 0, and names it
    ///         0, 0, 4, 0, 0, 0, 5, 0xaa, 0xbb, 0xcc, 0xdd, 0xee, //
    ///         0, 0, 0, 1, // and where in the file it starts
    ///         0, 0, 0, 14,
    ///     ]
    /// );
    /// assert_eq!(length, 52);
    /// assert_eq!(buffer[34..52], [0; 18]);
    /// assert_eq!(buffer[52..], [0xa5; 8]);
    /// # Ok::<(), Refusal>(())
    /// ```
    pub fn clear(&mut self, dropped: &[u64]) -> Result<&[u8], Refusal> {
        self.length = proved::day::clear(self.buffer, self.length, dropped)?;
        Ok(self.file())
    }

    /// Appends a record, which is the last then, and hands back the file as it is then.
    ///
    /// Its header is the one of this number, from 0, that the file has, and then `header`
    /// is not looked at. The next number, which is the count of the file's headers
    /// ([`Day::headers`] has them), brings `header` as a new one, put last. All bytes
    /// behind the new file are unchanged.
    ///
    /// # Errors
    ///
    /// In this order, and after each of them all of the buffer is unchanged:
    ///
    /// - [`DayUnreadable`](Refusal::DayUnreadable): the number is above the next one, or
    ///   is the next one and `header` does not read, or the stretch is above 64.
    /// - [`OutputTooShort`](Refusal::OutputTooShort): the file would be longer than the
    ///   buffer, or than 65,536 bytes. A record takes 11 bytes and its sealed string, and
    ///   a new header 2 bytes and itself.
    ///
    /// # Examples
    ///
    /// ```
    /// use jarrovento::{DayBuffer, Refusal};
    ///
    /// let mut buffer = [0; 47];
    /// let mut day = DayBuffer::empty(&mut buffer)?;
    /// // A header of one empty string, and a record of 5 bytes.
    /// assert_eq!(day.append(0, &[1, 0, 0], 4, &[9; 5])?.len(), 12 + (2 + 3) + (11 + 5));
    /// // Another record under it.
    /// assert_eq!(day.append(0, &[], 4, &[9; 3])?.len(), 33 + (11 + 3));
    ///
    /// assert_eq!(day.append(0, &[], 4, &[]), Err(Refusal::OutputTooShort));
    /// assert_eq!(day.append(0, &[], 65, &[]), Err(Refusal::DayUnreadable));
    /// assert_eq!(day.append(1, &[], 4, &[]), Err(Refusal::DayUnreadable));
    /// # Ok::<(), Refusal>(())
    /// ```
    pub fn append(
        &mut self,
        number: u64,
        header: &[u8],
        stretch: u64,
        sealed: &[u8],
    ) -> Result<&[u8], Refusal> {
        self.length =
            proved::day::append(self.buffer, self.length, number, header, stretch, sealed)?;
        Ok(self.file())
    }
}

/// Shows how long the file is, and the buffer, and not their bytes.
impl fmt::Debug for DayBuffer<'_> {
    fn fmt(&self, f: &mut fmt::Formatter<'_>) -> fmt::Result {
        f.debug_struct("DayBuffer")
            .field("length", &self.length)
            .field("buffer_length", &self.buffer.len())
            .finish_non_exhaustive()
    }
}
