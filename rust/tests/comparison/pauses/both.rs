//! One call on a pause or a day of them, of the proved library and of the second
//! program, on the same inputs.

use jarrovento::{Refusal, Report, LONGEST_REPORT};
use second::ledger;
use second::pause::read_pause;
use support::header;

use super::exports;
use crate::both::{same, Outcome, UNSET};

/// The numbers of a report.
const FIGURES: usize = 6;

/// Numbers beside the figures, to see that a call stays within their list.
const BESIDE: usize = 3;

/// The four locales, and the decimal mark of each.
pub const LOCALES: [(&str, &str); 4] = [("de", ","), ("fr", ","), ("it", ","), ("en", ".")];

/// A log header of host n7 with this locale.
pub fn header_of(locale: &[u8]) -> Vec<u8> {
    header(&[&[1][..], b"n7", b"", locale])
}

/// Reads a text with both, and by the exported function.
#[track_caller]
pub fn pause(header: &[u8], text: &[u8]) -> Result<u64, u32> {
    let expected = read_pause(header, text);
    let got = jarrovento::read_pause(header, text);
    let shown = text.escape_ascii();
    assert_eq!(got.map_err(Refusal::number), expected, "\"{shown}\"");
    if let Err(Refusal::HeaderUnreadable(entry)) = got {
        assert_eq!(jarrovento::read_header(header).err(), Some(entry));
    }

    let mut microseconds = UNSET;
    let number = exports::pause(header, text, &mut microseconds);
    let told = match expected {
        Ok(microseconds) => (0, microseconds),
        Err(number) => (number, 0),
    };
    assert_eq!((number, microseconds), told, "\"{shown}\"");
    expected
}

/// Reports with both, as numbers and as a line. Returns the line, or the number of the
/// refusal.
#[track_caller]
pub fn report(key: &[u8], file: &[u8]) -> Result<String, u32> {
    let expected = ledger::figures(key, file);
    let got = jarrovento::report(key, file);
    assert_eq!(got.map(figures_of).map_err(Refusal::number), expected);
    listed(key, file, FIGURES);
    let whole = line(key, file, LONGEST_REPORT);
    let report = got.map_err(Refusal::number)?;
    let line = String::from_utf8(whole.part().to_vec()).unwrap();
    assert_eq!(format!("{report}\n"), line);
    Ok(line)
}

/// The same for a short file, also in lists and outputs that are longer and too short.
#[track_caller]
pub fn report_in_rooms(key: &[u8], file: &[u8]) -> Result<String, u32> {
    for room in [0, 1, FIGURES - 1, FIGURES + 1, FIGURES + 3] {
        listed(key, file, room);
    }
    let reported = report(key, file);
    let length = reported.as_ref().map_or(0, String::len);
    for room in [0, 1, length.saturating_sub(1), length, length + 1, 200] {
        let number = match reported {
            Ok(_) if room < length => 6,
            Ok(_) => 0,
            Err(number) => number,
        };
        assert_eq!(line(key, file, room).number, number, "in {room} bytes");
    }
    reported
}

/// The line by both, in an output of `room` bytes, and by the exported function.
#[track_caller]
pub fn line(key: &[u8], file: &[u8], room: usize) -> Outcome {
    let outcome = same(
        room,
        |out| jarrovento::report_line(key, file, out),
        |out| ledger::report(key, file, out),
    );
    let mut size = UNSET;
    outcome.held_by(|out| exports::report(key, file, out, &mut size));
    assert_eq!(size, outcome.part().len() as u64, "size");
    outcome
}

/// The exported figures, in a list of `room` numbers: every number of it, and those
/// beside it.
#[track_caller]
fn listed(key: &[u8], file: &[u8], room: usize) {
    let before: Vec<u64> = (0..2 * BESIDE + room)
        .map(|place| u64::MAX - place as u64)
        .collect();
    let inside = BESIDE..BESIDE + room;
    let mut expected = before.clone();
    let answer = ledger::report_figures(key, file, &mut expected[inside.clone()]);
    let mut got = before;
    let number = exports::figures(key, file, &mut got[inside]);
    assert_eq!(number, answer, "the second program answers as on the right");
    assert_eq!(got, expected, "answer {number}: figures, of {room}");
}

fn figures_of(report: Report) -> ledger::Figures {
    let Report {
        read,
        refused,
        sum,
        longest,
        mean,
    } = report;
    [read, refused, sum, longest, mean.over, mean.under].map(u128::from)
}
