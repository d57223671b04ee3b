//! Request E13: clearing out records of a day file, and appending one, in the buffer
//! that holds it. A file is taken apart into lists, the lists are changed, and the file
//! is written anew from them.

use crate::day_file::{self, file_of, Lists, FILE_LIMIT};
use crate::document01::{done, refusal, Answer};

/// A day as lists of its own.
#[derive(Default)]
struct Parts {
    headers: Vec<Vec<u8>>,
    records: Vec<Part>,
}

/// A record: its header's number, its stretch and its sealed string.
struct Part {
    header: u64,
    stretch: u64,
    sealed: Vec<u8>,
}

impl Parts {
    /// The day in the first so many bytes of a buffer; nothing where they go past it or
    /// do not read.
    fn read(buffer: &[u8], size: u64) -> Option<Parts> {
        let file = buffer.get(..usize::try_from(size).ok()?)?;
        let day = day_file::read(file)?;
        let headers = day.headers.into_iter().map(|place| file[place].to_vec());
        let records = day.records.into_iter().map(|record| Part {
            header: record.header as u64,
            stretch: record.stretch.into(),
            sealed: file[record.sealed].to_vec(),
        });
        Some(Parts {
            headers: headers.collect(),
            records: records.collect(),
        })
    }

    /// The file; nothing where a part is outside the layout.
    fn file(&self) -> Option<Vec<u8>> {
        let lengths = |header: &Vec<u8>| header.len() as u64;
        let of_records = |number: fn(&Part) -> u64| self.records.iter().map(number).collect();
        let header_lengths: Vec<u64> = self.headers.iter().map(lengths).collect();
        let record_headers: Vec<u64> = of_records(|record| record.header);
        let record_stretches: Vec<u64> = of_records(|record| record.stretch);
        let record_lengths: Vec<u64> = of_records(|record| record.sealed.len() as u64);
        let sealed: Vec<&[u8]> = self
            .records
            .iter()
            .map(|record| &record.sealed[..])
            .collect();
        file_of(&Lists {
            header_lengths: &header_lengths,
            headers: &self.headers.concat(),
            record_headers: &record_headers,
            record_stretches: &record_stretches,
            record_lengths: &record_lengths,
            sealed: &sealed.concat(),
        })
    }

    /// What is kept when the records of these numbers go: of the headers those that a
    /// kept record names.
    fn without(self, dropped: &[u64]) -> Parts {
        let mut kept = Parts::default();
        let numbered = (0..).zip(self.records);
        let staying = numbered.filter(|(number, _)| !dropped.contains(number));
        kept.records = staying.map(|(_, record)| record).collect();
        for (number, header) in (0..).zip(self.headers) {
            let next = kept.headers.len() as u64;
            let mut named = false;
            // A number that has been mended is below this one.
            for record in kept
                .records
                .iter_mut()
                .filter(|record| record.header == number)
            {
                record.header = next;
                named = true;
            }
            if named {
                kept.headers.push(header);
            }
        }
        kept
    }
}

/// Whether the numbers are strictly rising and each is below the count.
fn is_list_of(numbers: &[u64], count: usize) -> bool {
    numbers.windows(2).all(|pair| pair[0] < pair[1])
        && numbers.last().is_none_or(|&last| last < count as u64)
}

/// Clears the records of these numbers out of the file that is the first `size` bytes of
/// the buffer. The bytes that it no longer takes are zero.
pub fn clear(buffer: &mut [u8], size: u64, dropped: &[u64]) -> Answer {
    let Some(day) = Parts::read(buffer, size) else {
        return refusal(9);
    };
    if !is_list_of(dropped, day.records.len()) {
        return refusal(17);
    }
    let file = day
        .without(dropped)
        .file()
        .expect("parts of a file that reads");
    buffer[..size as usize].fill(0);
    buffer[..file.len()].copy_from_slice(&file);
    done(file.len())
}

/// Appends a record to the file that is the first `size` bytes of the buffer: under the
/// header of this number, or with the next number under a new one.
pub fn append(
    buffer: &mut [u8],
    size: u64,
    number: u64,
    header: &[u8],
    stretch: u64,
    sealed: &[u8],
) -> Answer {
    let Some(mut day) = Parts::read(buffer, size) else {
        return refusal(9);
    };
    if number == day.headers.len() as u64 {
        day.headers.push(header.to_vec());
    }
    day.records.push(Part {
        header: number,
        stretch,
        sealed: sealed.to_vec(),
    });
    let Some(file) = day.file() else {
        return refusal(9);
    };
    if file.len() > FILE_LIMIT || file.len() > buffer.len() {
        return refusal(6);
    }
    buffer[..file.len()].copy_from_slice(&file);
    done(file.len())
}
