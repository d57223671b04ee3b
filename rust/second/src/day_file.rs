//! Request E1: one file for a day of records. Three sections in a fixed order, each
//! after its four-byte count, high byte first: headers, records, and an index with
//! the place of each record's first byte.

use std::ops::Range;

use crate::document01::{self, done, read_header, refusal, Answer, STRETCH_LIMIT};

/// The longest file, in bytes.
pub(crate) const FILE_LIMIT: usize = 65_536;
/// The largest number that stands in a record's two bytes.
const HEADER_NUMBER_LIMIT: u64 = 65_535;

/// A file that reads: where in it the headers and the sealed strings stand.
#[derive(Clone, Debug, PartialEq, Eq)]
pub struct Day {
    pub headers: Vec<Range<usize>>,
    pub records: Vec<Record>,
}

/// A record: its header's number, its stretch, and where its sealed string stands.
#[derive(Clone, Debug, PartialEq, Eq)]
pub struct Record {
    pub header: usize,
    pub stretch: u8,
    pub sealed: Range<usize>,
}

/// What is written: the headers joined and the length of each, and for each record
/// its header's number, its stretch and its sealed string's length, the sealed
/// strings joined.
#[derive(Clone, Copy, Debug)]
pub struct Lists<'a> {
    pub header_lengths: &'a [u64],
    pub headers: &'a [u8],
    pub record_headers: &'a [u64],
    pub record_stretches: &'a [u64],
    pub record_lengths: &'a [u64],
    pub sealed: &'a [u8],
}

/// A file and how far it has been read.
struct Reader<'a> {
    file: &'a [u8],
    place: usize,
}

impl Reader<'_> {
    /// The next bytes of the file, as their place in it.
    fn take(&mut self, length: usize) -> Option<Range<usize>> {
        let start = self.place;
        let end = start.checked_add(length)?;
        if end > self.file.len() {
            return None;
        }
        self.place = end;
        Some(start..end)
    }

    /// A number of so many bytes, high byte first.
    fn number(&mut self, length: usize) -> Option<usize> {
        let bytes = self.take(length)?;
        let digits = self.file[bytes].iter();
        Some(digits.fold(0, |number, &byte| 256 * number + usize::from(byte)))
    }

    /// A header in document 01's layout, after its two-byte length.
    fn header(&mut self) -> Option<Range<usize>> {
        let length = self.number(2)?;
        let header = self.take(length)?;
        read_header(&self.file[header.clone()]).ok()?;
        Some(header)
    }

    /// A record, which names one of so many headers.
    fn record(&mut self, headers: usize) -> Option<Record> {
        let header = self.number(2).filter(|&number| number < headers)?;
        let stretch = self.number(1)? as u8;
        if u64::from(stretch) > STRETCH_LIMIT {
            return None;
        }
        let length = self.number(4)?;
        let sealed = self.take(length)?;
        Some(Record {
            header,
            stretch,
            sealed,
        })
    }
}

/// Reads a file; nothing where it is not exactly such a layout.
pub fn read(file: &[u8]) -> Option<Day> {
    if file.len() > FILE_LIMIT {
        return None;
    }
    let mut reader = Reader { file, place: 0 };
    let mut headers = Vec::new();
    for _ in 0..reader.number(4)? {
        headers.push(reader.header()?);
    }
    let (mut records, mut places) = (Vec::new(), Vec::new());
    for _ in 0..reader.number(4)? {
        places.push(reader.place);
        records.push(reader.record(headers.len())?);
    }
    if reader.number(4)? != places.len() {
        return None;
    }
    for place in places {
        if reader.number(4)? != place {
            return None;
        }
    }
    (reader.place == file.len()).then_some(Day { headers, records })
}

/// The number of records, as the length of the answer.
pub fn count(file: &[u8]) -> Answer {
    match read(file) {
        Some(day) => done(day.records.len()),
        None => refusal(9),
    }
}

/// The answer number of listing a file, and the numbers of its headers and records.
#[derive(Clone, Copy, Debug, PartialEq, Eq)]
pub struct Listing {
    pub number: u32,
    pub headers: u64,
    pub records: u64,
}

/// Puts first in `places`, for each header, where it starts and ends, and then, for
/// each record, its header's number, its stretch, and where its sealed string starts
/// and ends.
pub fn list(file: &[u8], places: &mut [u64]) -> Listing {
    let refusal = |number| Listing {
        number,
        headers: 0,
        records: 0,
    };
    let Some(day) = read(file) else {
        return refusal(9);
    };
    let mut all = Vec::new();
    for header in &day.headers {
        all.extend([header.start, header.end]);
    }
    for record in &day.records {
        let stretch = usize::from(record.stretch);
        all.extend([
            record.header,
            stretch,
            record.sealed.start,
            record.sealed.end,
        ]);
    }
    let Some(room) = places.get_mut(..all.len()) else {
        return refusal(6);
    };
    for (place, number) in room.iter_mut().zip(all) {
        *place = number as u64;
    }
    Listing {
        number: 0,
        headers: day.headers.len() as u64,
        records: day.records.len() as u64,
    }
}

/// Opens the record of this number, from 0.
pub fn open(key: &[u8], file: &[u8], record: u64, out: &mut [u8]) -> Answer {
    let Some(day) = read(file) else {
        return refusal(9);
    };
    let number = usize::try_from(record).ok();
    let Some(record) = number.and_then(|number| day.records.get(number)) else {
        return refusal(9);
    };
    let header = &file[day.headers[record.header].clone()];
    let sealed = &file[record.sealed.clone()];
    document01::open(key, header, u64::from(record.stretch), sealed, out)
}

/// Puts the file first in `out`.
pub fn write(lists: &Lists, out: &mut [u8]) -> Answer {
    let Some(file) = file_of(lists) else {
        return refusal(9);
    };
    if file.len() > FILE_LIMIT {
        return refusal(4);
    }
    let Some(place) = out.get_mut(..file.len()) else {
        return refusal(6);
    };
    place.copy_from_slice(&file);
    done(file.len())
}

/// The file of any length; nothing where a header, a stretch or a header's number is
/// outside the layout, or where the lists do not fit each other.
pub(crate) fn file_of(lists: &Lists) -> Option<Vec<u8>> {
    let headers = cut(lists.headers, lists.header_lengths)?;
    let strings = cut(lists.sealed, lists.record_lengths)?;
    let records = strings.len();
    if lists.record_headers.len() != records || lists.record_stretches.len() != records {
        return None;
    }

    let mut file = Vec::new();
    push(&mut file, 4, headers.len());
    for header in &headers {
        read_header(header).ok()?;
        push(&mut file, 2, header.len());
        file.extend_from_slice(header);
    }
    push(&mut file, 4, records);
    let mut places = Vec::new();
    for (number, sealed) in strings.into_iter().enumerate() {
        let (header, stretch) = (lists.record_headers[number], lists.record_stretches[number]);
        let named = header <= HEADER_NUMBER_LIMIT && header < headers.len() as u64;
        if !named || stretch > STRETCH_LIMIT {
            return None;
        }
        places.push(file.len());
        push(&mut file, 2, header as usize);
        push(&mut file, 1, stretch as usize);
        push(&mut file, 4, sealed.len());
        file.extend_from_slice(sealed);
    }
    push(&mut file, 4, records);
    for place in places {
        push(&mut file, 4, place);
    }
    Some(file)
}

/// The strings that were joined; nothing where the lengths do not make up the bytes.
fn cut<'a>(mut joined: &'a [u8], lengths: &[u64]) -> Option<Vec<&'a [u8]>> {
    let mut strings = Vec::new();
    for &length in lengths {
        let (string, rest) = joined.split_at_checked(usize::try_from(length).ok()?)?;
        strings.push(string);
        joined = rest;
    }
    joined.is_empty().then_some(strings)
}

/// The last so many bytes of a number, high byte first.
fn push(file: &mut Vec<u8>, length: usize, number: usize) {
    file.extend_from_slice(&number.to_be_bytes()[size_of::<usize>() - length..]);
}
