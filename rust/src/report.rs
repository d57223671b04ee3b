//! What the pauses of a day file come to.

use core::fmt;

use crate::{proved, Refusal};

/// The report on a day file's pauses, as numbers. Pauses are in microseconds.
///
/// Shown, it is the line that [`report_line`] writes, without its line feed.
///
/// # Examples
///
/// ```
/// use jarrovento::{log_header, DayWriter, Key, Refusal, LONGEST_DAY};
///
/// let key = Key::from([7; 48]);
/// let mut writer = DayWriter::<Vec<u8>, Vec<u64>>::new();
/// for (locale, pause) in [("de", "1,204 s"), ("en", "1.5 ms"), ("en", "1,204 s")] {
///     let (mut header, mut sealed) = ([0; 64], [0; 64]);
///     let header = log_header(&[1], b"n7", b"", locale.as_bytes(), &mut header)?;
///     let sealed = key.seal(header, 4, pause.as_bytes(), &mut sealed)?;
///     let number = writer.header(header);
///     writer.record(number, 4, sealed);
/// }
/// let mut out = vec![0; LONGEST_DAY];
/// let file = writer.write(&mut out)?;
///
/// let report = key.report(file)?;
/// assert_eq!((report.read, report.refused), (2, 1));
/// assert_eq!(report.sum, 1_205_500);
/// assert_eq!(report.longest, 1_204_000);
/// assert_eq!((report.mean.over, report.mean.under), (602_750, 1));
/// assert_eq!(report.to_string(), "2 1 1205500 1204000 602750/1");
/// # Ok::<(), Refusal>(())
/// ```
#[derive(Clone, Copy, Debug, PartialEq, Eq, Hash)]
pub struct Report {
    /// How many records were read as pauses.
    pub read: u64,
    /// How many records were refused: those that do not open, that have no known
    /// locale, or that hold no pause. No figure below counts them.
    pub refused: u64,
    /// The sum of the pauses. It is below 2^64 for every day file, and never wraps.
    pub sum: u64,
    /// The longest pause; 0 where none was read.
    pub longest: u64,
    /// The sum over the number of records read.
    pub mean: Mean,
}

/// A mean in microseconds, as a fraction in lowest terms; 0/1 where there is nothing to
/// take the mean of.
#[derive(Clone, Copy, Debug, PartialEq, Eq, Hash)]
pub struct Mean {
    /// The numerator.
    pub over: u64,
    /// The denominator, which is not 0.
    pub under: u64,
}

/// Opens every record of a day file, reads it as [`read_pause`](crate::read_pause) does,
/// and adds up.
///
/// A record that is refused is counted, and the call goes on. For which number it was
/// refused, [`open_record`](crate::open_record) and `read_pause` tell.
///
/// # Errors
///
/// In this order: [`DayUnreadable`](Refusal::DayUnreadable),
/// [`KeyLength`](Refusal::KeyLength), which is tested also where there is no record.
///
/// # Examples
///
/// ```
/// use jarrovento::{report, Refusal};
///
/// // No headers, no records, and no entries in the index.
/// let file = [0; 12];
/// assert_eq!(report(&[7; 48], &file)?.to_string(), "0 0 0 0 0/1");
/// assert_eq!(report(&[7; 47], &file), Err(Refusal::KeyLength));
/// assert_eq!(report(&[7; 47], &file[1..]), Err(Refusal::DayUnreadable));
/// # Ok::<(), Refusal>(())
/// ```
pub fn report(key: &[u8], file: &[u8]) -> Result<Report, Refusal> {
    let [read, refused, sum, longest, over, under] = proved::ledger::figures(key, file)?;
    Ok(Report {
        read,
        refused,
        sum,
        longest,
        mean: Mean { over, under },
    })
}

/// Writes the [`report`] on a day file as a line, and hands back the part of `out` that
/// holds it, its first bytes. All later bytes are left unchanged.
///
/// The line has the records read, the records refused, the sum, the longest and the
/// mean, in decimal without leading zeros, one space between them, and a line feed.
///
/// # Errors
///
/// In this order: [`DayUnreadable`](Refusal::DayUnreadable),
/// [`KeyLength`](Refusal::KeyLength), [`OutputTooShort`](Refusal::OutputTooShort). After
/// each of them all of `out` is unchanged. An output of
/// [`LONGEST_REPORT`](crate::LONGEST_REPORT) bytes is never too short.
///
/// # Examples
///
/// ```
/// use jarrovento::{report_line, Refusal, LONGEST_REPORT};
///
/// let mut out = [0; LONGEST_REPORT];
/// assert_eq!(report_line(&[7; 48], &[0; 12], &mut out)?, b"0 0 0 0 0/1\n");
/// assert_eq!(report_line(&[7; 48], &[0; 12], &mut out[..11]), Err(Refusal::OutputTooShort));
/// # Ok::<(), Refusal>(())
/// ```
pub fn report_line<'a>(
    key: &[u8],
    file: &[u8],
    out: &'a mut [u8],
) -> Result<&'a mut [u8], Refusal> {
    let length = proved::ledger::line(key, file, out)?;
    Ok(&mut out[..length])
}

/// The line, without its line feed.
impl fmt::Display for Report {
    fn fmt(&self, f: &mut fmt::Formatter<'_>) -> fmt::Result {
        let Report {
            read,
            refused,
            sum,
            longest,
            mean,
        } = self;
        write!(f, "{read} {refused} {sum} {longest} {mean}")
    }
}

/// The numerator, a stroke, and the denominator.
impl fmt::Display for Mean {
    fn fmt(&self, f: &mut fmt::Formatter<'_>) -> fmt::Result {
        write!(f, "{}/{}", self.over, self.under)
    }
}
