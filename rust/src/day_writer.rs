//! What a day file is written from.

use crate::{proved, Refusal};

/// A day as lists: headers and sealed strings joined, each with the list of their
/// lengths, and beside them two lists of numbers for the records.
///
/// This is what the proved writer takes: any six lists, which it tests itself. A
/// [`DayWriter`] makes them from headers and records one by one.
///
/// # Examples
///
/// ```
/// use jarrovento::{DayLists, Refusal};
///
/// let lists = DayLists {
///     header_lengths: &[3, 4],
///     headers: &[1, 0, 0, 1, 0, 1, 7],
///     record_headers: &[1],
///     record_stretches: &[4],
///     record_lengths: &[5],
///     sealed: &[0xaa, 0xbb, 0xcc, 0xdd, 0xee],
/// };
/// let mut out = [0; 64];
/// let file = lists.write(&mut out)?;
/// assert_eq!(
///     *file,
///     [
///         0, 0, 0, 2, // headers, each after its length
///         0, 3, 1, 0, 0, 0, 4, 1, 0, 1, 7, //
///         0, 0, 0, 1, // records: header, stretch, length, sealed string
///         0, 1, 4, 0, 0, 0, 5, 0xaa, 0xbb, 0xcc, 0xdd, 0xee, //
///         0, 0, 0, 1, // the place of each record
///         0, 0, 0, 19,
///     ]
/// );
///
/// // There is no header of number 2.
/// let wrong = DayLists { record_headers: &[2], ..lists };
/// assert_eq!(wrong.write(&mut out), Err(Refusal::DayUnreadable));
/// # Ok::<(), Refusal>(())
/// ```
#[derive(Clone, Copy, Debug, Default)]
pub struct DayLists<'a> {
    /// The length of each header.
    pub header_lengths: &'a [u64],
    /// The headers, joined.
    pub headers: &'a [u8],
    /// For each record the number of its header, from 0.
    pub record_headers: &'a [u64],
    /// For each record its stretch.
    pub record_stretches: &'a [u64],
    /// For each record the length of its sealed string.
    pub record_lengths: &'a [u64],
    /// The sealed strings, joined.
    pub sealed: &'a [u8],
}

impl DayLists<'_> {
    /// Writes the day file, and hands back the part of `out` that holds it, its first
    /// bytes. All later bytes are left unchanged.
    ///
    /// # Errors
    ///
    /// In this order, and after each of them all of `out` is unchanged:
    ///
    /// - [`DayUnreadable`](Refusal::DayUnreadable): a header does not read, a stretch is
    ///   above 64, a header's number is above 65,535 or not that of a header, the three
    ///   lists for the records differ in length, or the lengths do not add up to the
    ///   joined bytes.
    /// - [`TooLong`](Refusal::TooLong): the file would be above 65,536 bytes.
    /// - [`OutputTooShort`](Refusal::OutputTooShort): `out` is shorter than the file. One
    ///   of [`LONGEST_DAY`](crate::LONGEST_DAY) bytes never is.
    pub fn write<'a>(&self, out: &'a mut [u8]) -> Result<&'a mut [u8], Refusal> {
        let length = proved::day::write(self, out)?;
        Ok(&mut out[..length])
    }
}

/// Takes headers and records one by one, and writes a day file of them.
///
/// It keeps copies of them, joined, in collections of the caller's choice: `B` for
/// bytes, `N` for numbers. With a heap these are `Vec<u8>` and `Vec<u64>`; without one,
/// any types that are `Default`, `Extend` and `AsRef`. This crate allocates nothing.
///
/// Nothing is tested before [`write`](DayWriter::write), which hands the whole day to
/// the proved writer. See [`Day`](crate::Day) for an example.
#[derive(Clone, Debug, Default)]
pub struct DayWriter<B, N> {
    headers: B,
    header_lengths: N,
    sealed: B,
    record_headers: N,
    record_stretches: N,
    record_lengths: N,
}

impl<B, N> DayWriter<B, N>
where
    B: Default + Extend<u8> + AsRef<[u8]>,
    N: Default + Extend<u64> + AsRef<[u64]>,
{
    /// A day without headers and records.
    pub fn new() -> DayWriter<B, N> {
        DayWriter::default()
    }

    /// Adds a header, and returns its number, which records name.
    ///
    /// Equal headers may be added twice; one is enough for all records under it.
    pub fn header(&mut self, header: &[u8]) -> u64 {
        let number = self.header_lengths.as_ref().len() as u64;
        self.headers.extend(header.iter().copied());
        self.header_lengths.extend([header.len() as u64]);
        number
    }

    /// Adds a record: the number of its header, its stretch, and its sealed string.
    pub fn record(&mut self, header_number: u64, stretch: u64, sealed: &[u8]) {
        self.record_headers.extend([header_number]);
        self.record_stretches.extend([stretch]);
        self.record_lengths.extend([sealed.len() as u64]);
        self.sealed.extend(sealed.iter().copied());
    }

    /// What has been added, as lists.
    pub fn lists(&self) -> DayLists<'_> {
        DayLists {
            header_lengths: self.header_lengths.as_ref(),
            headers: self.headers.as_ref(),
            record_headers: self.record_headers.as_ref(),
            record_stretches: self.record_stretches.as_ref(),
            record_lengths: self.record_lengths.as_ref(),
            sealed: self.sealed.as_ref(),
        }
    }

    /// Writes the day file, as [`DayLists::write`] does.
    ///
    /// # Errors
    ///
    /// Those of [`DayLists::write`], in its order. After each of them all of `out` is
    /// unchanged, and the writer can go on.
    pub fn write<'a>(&self, out: &'a mut [u8]) -> Result<&'a mut [u8], Refusal> {
        self.lists().write(out)
    }
}
