//! A day file as its headers and records.

use core::fmt;
use core::iter::FusedIterator;
use core::ops::Range;

use crate::{proved, Key, Refusal};

/// Numbers in the list of places: a header's start and end; and a record's header,
/// stretch, start and end.
const OF_HEADER: usize = 2;
const OF_RECORD: usize = 4;

/// A day file that reads, over the bytes of the file: its headers and its records,
/// numbered from 0, each as the part of the file that holds it.
///
/// [`read`](Day::read) checks the whole file, once. What it hands back is then there
/// without a search, so that a walk over all records costs time in proportion to the
/// file's length. The places come from the proved library; this type cuts the file
/// there and does no reading of its own.
///
/// To open a single record by its number no `Day` is needed: [`open_record`].
///
/// # Examples
///
/// ```
/// use jarrovento::{log_header, Day, DayWriter, Key, Refusal, LONGEST_DAY};
///
/// let key = Key::from([7; 48]);
/// let mut writer = DayWriter::<Vec<u8>, Vec<u64>>::new();
/// for (nonce, pause) in [(1, "1,204 s"), (2, "870 ms")] {
///     let (mut header, mut sealed) = ([0; 64], [0; 64]);
///     let header = log_header(&[nonce], b"n7", b"", b"de", &mut header)?;
///     let sealed = key.seal(header, 4, pause.as_bytes(), &mut sealed)?;
///     let number = writer.header(header);
///     writer.record(number, 4, sealed);
/// }
/// let mut out = vec![0; LONGEST_DAY];
/// let file = writer.write(&mut out)?;
///
/// let mut places = vec![0; Day::places(file.len())];
/// let day = Day::read(file, &mut places)?;
/// assert_eq!(day.len(), 2);
/// let mut text = [0; 64];
/// for record in &day {
///     println!("{}", String::from_utf8_lossy(record.open(&key, &mut text)?));
/// }
/// # assert_eq!(day.get(1).unwrap().open(&key, &mut text)?, b"870 ms");
/// # Ok::<(), Refusal>(())
/// ```
#[derive(Clone, Copy)]
pub struct Day<'a> {
    file: &'a [u8],
    /// Two for each header: where in the file it starts and ends.
    headers: &'a [u64],
    /// Four for each record: its header's number, its stretch, and where in the file
    /// its sealed string starts and ends.
    records: &'a [u64],
}

/// A record of a day file.
#[derive(Clone, Copy, PartialEq, Eq, Hash)]
pub struct Record<'a> {
    /// The number of its header, from 0; several records may name one.
    pub header_number: usize,
    /// Its header, which reads.
    pub header: &'a [u8],
    /// Its stretch, at most 64.
    pub stretch: u64,
    /// Its sealed string. It may be shorter than the stretch, and may not open.
    pub sealed: &'a [u8],
}

impl<'a> Day<'a> {
    /// Reads a day file, in one pass. The places of its headers and records are kept
    /// in `places`, of which [`places`](Day::places) says how long it has to be.
    ///
    /// # Errors
    ///
    /// In this order: [`DayUnreadable`](Refusal::DayUnreadable),
    /// [`OutputTooShort`](Refusal::OutputTooShort) where `places` has less than two
    /// numbers for each header and four for each record. After each of them all of
    /// `places` is unchanged.
    pub fn read(file: &'a [u8], places: &'a mut [u64]) -> Result<Day<'a>, Refusal> {
        let (headers, records) = proved::day::list(file, places)?;
        // So many stand first in `places`, or it is too short: `listing` in DayFile.antt,
        // and `places_length` in crates/audit/proofs/Lengths.antt.
        let (headers, rest) = places.split_at(OF_HEADER * headers);
        let records = &rest[..OF_RECORD * records];
        Ok(Day {
            file,
            headers,
            records,
        })
    }

    /// How many places are enough for any file of `length` bytes.
    ///
    /// A header takes at least 5 bytes of the file and two places, and a record, with
    /// its entry of the index, at least 11 bytes and four places.
    pub const fn places(length: usize) -> usize {
        length / 2
    }

    /// Checks a day file as [`read`](Day::read) does, and says how many records it
    /// has, without their places.
    ///
    /// # Errors
    ///
    /// [`DayUnreadable`](Refusal::DayUnreadable).
    ///
    /// # Examples
    ///
    /// ```
    /// use jarrovento::{Day, Refusal};
    ///
    /// // No headers, no records, and no entries in the index.
    /// let file = [0; 12];
    /// assert_eq!(Day::count(&file), Ok(0));
    /// assert_eq!(Day::count(&file[1..]), Err(Refusal::DayUnreadable));
    /// ```
    pub fn count(file: &[u8]) -> Result<usize, Refusal> {
        proved::day::records(file)
    }

    /// How many records the file has.
    pub fn len(&self) -> usize {
        self.records.len() / OF_RECORD
    }

    /// Whether the file has no records. It may have headers then.
    pub fn is_empty(&self) -> bool {
        self.records.is_empty()
    }

    /// The record of this number, from 0.
    pub fn get(&self, number: usize) -> Option<Record<'a>> {
        let first = number.checked_mul(OF_RECORD)?;
        let &[header, stretch, start, end] = self.records.get(first..)?.first_chunk()?;
        let header_number = header as usize;
        Some(Record {
            header_number,
            header: self.header(header_number),
            stretch,
            sealed: self.part(start, end),
        })
    }

    /// The records, in their order.
    pub fn records(&self) -> Records<'a> {
        Records {
            day: *self,
            left: 0..self.len(),
        }
    }

    /// The headers, in their order: those that records name, and others.
    pub fn headers(&self) -> impl ExactSizeIterator<Item = &'a [u8]> {
        let day = *self;
        let headers = 0..day.headers.len() / OF_HEADER;
        headers.map(move |number| day.header(number))
    }

    fn header(&self, number: usize) -> &'a [u8] {
        let first = OF_HEADER * number;
        self.part(self.headers[first], self.headers[first + 1])
    }

    /// A part of the file. The file is what is written of the day that it reads as
    /// (`read_write` in `crates/laws/proofs/DayReading.antt`), and in that stand the
    /// headers and the records at their places (`header_there` and `record_there` in
    /// `DayPlaces.antt` beside it): no cut goes past its end.
    fn part(&self, start: u64, end: u64) -> &'a [u8] {
        &self.file[start as usize..end as usize]
    }
}

impl Record<'_> {
    /// Opens the record, as [`Key::open`] does: `out` must have room for the sealed
    /// string. The file is not checked again.
    ///
    /// # Errors
    ///
    /// In this order: [`ShorterThanStretch`], [`OutputTooShort`], [`CheckFails`]. A
    /// record of a file that reads meets no other.
    ///
    /// [`ShorterThanStretch`]: Refusal::ShorterThanStretch
    /// [`OutputTooShort`]: Refusal::OutputTooShort
    /// [`CheckFails`]: Refusal::CheckFails
    pub fn open<'a>(&self, key: &Key, out: &'a mut [u8]) -> Result<&'a mut [u8], Refusal> {
        key.open(self.header, self.stretch, self.sealed, out)
    }
}

/// The records of a day file, in their order. See [`Day::records`].
#[derive(Clone)]
pub struct Records<'a> {
    day: Day<'a>,
    left: Range<usize>,
}

impl<'a> Iterator for Records<'a> {
    type Item = Record<'a>;

    fn next(&mut self) -> Option<Record<'a>> {
        self.left.next().and_then(|number| self.day.get(number))
    }

    fn size_hint(&self) -> (usize, Option<usize>) {
        self.left.size_hint()
    }
}

impl DoubleEndedIterator for Records<'_> {
    fn next_back(&mut self) -> Option<Self::Item> {
        self.left
            .next_back()
            .and_then(|number| self.day.get(number))
    }
}

impl ExactSizeIterator for Records<'_> {}
impl FusedIterator for Records<'_> {}

impl<'a> IntoIterator for Day<'a> {
    type Item = Record<'a>;
    type IntoIter = Records<'a>;

    fn into_iter(self) -> Records<'a> {
        self.records()
    }
}

impl<'a> IntoIterator for &Day<'a> {
    type Item = Record<'a>;
    type IntoIter = Records<'a>;

    fn into_iter(self) -> Records<'a> {
        self.records()
    }
}

/// Opens the record of this number, from 0, of a day file: checks the whole file, and
/// then opens as [`open`](crate::open) does with the record's header, stretch and
/// sealed string.
///
/// Each call checks the file. To open many records read it once, by [`Day::read`].
///
/// # Errors
///
/// [`DayUnreadable`](Refusal::DayUnreadable) where the file does not read or has no
/// record of this number, with all of `out` unchanged; then those of
/// [`open`](crate::open), in its order.
///
/// # Examples
///
/// ```
/// use jarrovento::{open_record, Refusal};
///
/// let key: Vec<u8> = (0..48).collect();
/// let file = [
///     0, 0, 0, 1, // one header, of 14 bytes: 01, "n7", no bytes, "de"
///     0, 14, 4, 0, 1, 1, 0, 2, b'n', b'7', 0, 0, 0, 2, b'd', b'e', //
///     0, 0, 0, 1, // one record, under header 0, of stretch 0 and 5 bytes
///     0, 0, 0, 0, 0, 0, 5, 0xa6, 0x8f, 0xcc, 0x5b, 0x92, //
///     0, 0, 0, 1, // and where in the file it starts
///     0, 0, 0, 24,
/// ];
/// let mut out = [0xa5; 8];
/// assert_eq!(open_record(&key, &file, 0, &mut out)?, b"hello");
/// assert_eq!(out[5..], [0xa5; 3]);
/// assert_eq!(open_record(&key, &file, 1, &mut out), Err(Refusal::DayUnreadable));
/// # Ok::<(), Refusal>(())
/// ```
pub fn open_record<'a>(
    key: &[u8],
    file: &[u8],
    record: u64,
    out: &'a mut [u8],
) -> Result<&'a mut [u8], Refusal> {
    let length = proved::day::open(key, file, record, out)?;
    Ok(&mut out[..length])
}

impl fmt::Debug for Day<'_> {
    fn fmt(&self, f: &mut fmt::Formatter<'_>) -> fmt::Result {
        f.debug_list().entries(self).finish()
    }
}

/// Shows the length of the sealed string, and not its bytes.
impl fmt::Debug for Record<'_> {
    fn fmt(&self, f: &mut fmt::Formatter<'_>) -> fmt::Result {
        f.debug_struct("Record")
            .field("header_number", &self.header_number)
            .field("stretch", &self.stretch)
            .field("sealed_length", &self.sealed.len())
            .finish_non_exhaustive()
    }
}
