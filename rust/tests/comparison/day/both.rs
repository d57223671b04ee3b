//! One call on a day file, of the proved library and of the second program, on the
//! same inputs.

use jarrovento::{Day, DayLists, Refusal};
use second::day_file::{self, Listing, Lists};
use second::document01::Answer;

use super::exports;
use crate::both::{same, Outcome, UNSET};

/// Numbers beside the list of places, to see that a call stays within it.
const BESIDE: usize = 3;

/// Writes with both, into an output of `room` bytes, and by the exported function.
#[track_caller]
pub fn write(lists: DayLists, room: usize) -> Outcome {
    let again = Lists {
        header_lengths: lists.header_lengths,
        headers: lists.headers,
        record_headers: lists.record_headers,
        record_stretches: lists.record_stretches,
        record_lengths: lists.record_lengths,
        sealed: lists.sealed,
    };
    let outcome = same(
        room,
        |out| lists.write(out),
        |out| day_file::write(&again, out),
    );
    let mut size = UNSET;
    outcome.held_by(|out| exports::write(&lists, out, &mut size));
    assert_eq!(size, outcome.part().len() as u64, "size");
    outcome
}

/// Opens a record with both, into an output of `room` bytes, and by the exported
/// function.
#[track_caller]
pub fn open(key: &[u8], file: &[u8], record: u64, room: usize) -> Outcome {
    let outcome = same(
        room,
        |out| jarrovento::open_record(key, file, record, out),
        |out| day_file::open(key, file, record, out),
    );
    let mut size = UNSET;
    outcome.held_by(|out| exports::open(key, file, record, out, &mut size));
    assert_eq!(size, outcome.part().len() as u64, "size");
    outcome
}

/// Reads and lists a file with both, with room for its places, with more and with
/// less; says whether it reads.
#[track_caller]
pub fn reads(file: &[u8]) -> bool {
    let expected = day_file::read(file);
    let needed = expected.as_ref().map_or(4, |day| {
        listed_parts(file, day);
        2 * day.headers.len() + 4 * day.records.len()
    });
    counted(file);
    for room in [0, needed.saturating_sub(1), needed, needed + 2] {
        listed(file, room);
    }
    assert!(needed <= Day::places(file.len()) || expected.is_none());
    expected.is_some()
}

/// The number of records, by the library and by the exported function.
#[track_caller]
fn counted(file: &[u8]) {
    let Answer { number, length, .. } = day_file::count(file);
    match Day::count(file) {
        Ok(records) => assert_eq!((0, records), (number, length)),
        Err(refusal) => assert_eq!((refusal.number(), 0), (number, length)),
    }
    let mut records = UNSET;
    let answer = exports::records(file, &mut records);
    assert_eq!((answer, records), (number, length as u64));
}

/// The exported listing, in a list of `room` places: every number of it, and those
/// beside it.
#[track_caller]
fn listed(file: &[u8], room: usize) {
    let before: Vec<u64> = (0..2 * BESIDE + room)
        .map(|place| u64::MAX - place as u64)
        .collect();
    let inside = BESIDE..BESIDE + room;

    let mut expected = before.clone();
    let answer = day_file::list(file, &mut expected[inside.clone()]);
    let mut places = before;
    let (mut headers, mut records) = (UNSET, UNSET);
    let number = exports::list(
        file,
        &mut places[inside.clone()],
        &mut headers,
        &mut records,
    );
    let got = Listing {
        number,
        headers,
        records,
    };
    assert_eq!(got, answer, "the second program answers as on the right");
    assert!(places == expected, "answer {number}: places, of {room}");

    let library = Day::read(file, &mut places[inside]).map(|day| day.len() as u64);
    match number {
        0 => assert_eq!(library, Ok(records)),
        6 => assert_eq!(library.unwrap_err(), Refusal::OutputTooShort),
        _ => assert_eq!(library.unwrap_err(), Refusal::DayUnreadable),
    }
}

/// What the library hands out of a file that reads: the same parts of the file, by
/// number, in order and from the back.
#[track_caller]
fn listed_parts(file: &[u8], expected: &day_file::Day) {
    let mut places = vec![0; Day::places(file.len())];
    let day = Day::read(file, &mut places).unwrap();
    assert_eq!(day.len(), expected.records.len());
    assert_eq!(day.is_empty(), expected.records.is_empty());
    assert_eq!(day.headers().len(), expected.headers.len());
    for (got, header) in day.headers().zip(&expected.headers) {
        assert_eq!(got.as_ptr_range(), file[header.clone()].as_ptr_range());
    }

    assert_eq!(day.records().len(), expected.records.len());
    let records = day.records().zip(&expected.records);
    for (number, (got, record)) in records.enumerate() {
        let header = &file[expected.headers[record.header].clone()];
        let sealed = &file[record.sealed.clone()];
        assert_eq!(got.header_number, record.header);
        assert_eq!(got.stretch, u64::from(record.stretch));
        assert_eq!(got.header.as_ptr_range(), header.as_ptr_range());
        assert_eq!(got.sealed.as_ptr_range(), sealed.as_ptr_range());
        assert_eq!(day.get(number), Some(got));
    }
    for number in [day.len(), usize::MAX / 4 + 1, usize::MAX] {
        assert_eq!(day.get(number), None);
    }
    assert!(day.records().rev().eq((0..day.len())
        .rev()
        .map(|number| { day.get(number).unwrap() })));
}

/// A day as owned lists.
#[derive(Clone, Default)]
pub struct Owned {
    pub header_lengths: Vec<u64>,
    pub headers: Vec<u8>,
    pub record_headers: Vec<u64>,
    pub record_stretches: Vec<u64>,
    pub record_lengths: Vec<u64>,
    pub sealed: Vec<u8>,
}

impl Owned {
    pub fn header(&mut self, header: &[u8]) {
        self.header_lengths.push(header.len() as u64);
        self.headers.extend(header);
    }

    pub fn record(&mut self, header: u64, stretch: u64, sealed: &[u8]) {
        self.record_headers.push(header);
        self.record_stretches.push(stretch);
        self.record_lengths.push(sealed.len() as u64);
        self.sealed.extend(sealed);
    }

    pub fn lists(&self) -> DayLists<'_> {
        DayLists {
            header_lengths: &self.header_lengths,
            headers: &self.headers,
            record_headers: &self.record_headers,
            record_stretches: &self.record_stretches,
            record_lengths: &self.record_lengths,
            sealed: &self.sealed,
        }
    }

    /// The length of the file.
    pub fn length(&self) -> usize {
        12 + 2 * self.header_lengths.len()
            + self.headers.len()
            + 11 * self.record_lengths.len()
            + self.sealed.len()
    }
}
