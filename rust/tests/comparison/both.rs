//! One call of the proved library and of the second program, on the same inputs.

use jarrovento::Refusal;
use second::document01::{self, Answer};
use support::pattern;

use crate::exports::{self, Inputs};

/// Bytes beside the output, to see that a call stays within it.
pub const BESIDE: usize = 16;

/// What a number holds before a call that is to set it: no count, and no entry.
pub const UNSET: u64 = 99;

/// What both programs answered and left in the output.
pub struct Outcome {
    pub number: u32,
    /// The number of the header's bad entry beside answer 3, else 0.
    pub place: u64,
    /// The output, and the bytes beside it.
    whole: Vec<u8>,
    length: usize,
}

impl Outcome {
    /// The sealed string, the text, the log header or the file; empty after a refusal.
    pub fn part(&self) -> &[u8] {
        &self.whole[BESIDE..BESIDE + self.length]
    }

    /// Holds a call without a number of the bad entry to this outcome.
    #[track_caller]
    pub fn held_by(&self, call: impl FnOnce(&mut [u8]) -> u32) {
        let mut whole = pattern(self.whole.len());
        let room = whole.len() - 2 * BESIDE;
        let number = call(&mut whole[BESIDE..BESIDE + room]);
        assert_eq!(number, self.number, "answer");
        same_bytes(number, &whole, &self.whole);
    }

    /// Holds a call with that number to this outcome.
    #[track_caller]
    fn held_at_by(&self, call: impl FnOnce(&mut [u8], &mut u64) -> u32) {
        let mut place = UNSET;
        self.held_by(|out| call(out, &mut place));
        assert_eq!(place, self.place, "answer {}: bad entry", self.number);
    }
}

/// Seals with both, into an output of `room` bytes, and by both exported functions.
#[track_caller]
pub fn seal(key: &[u8], header: &[u8], stretch: u64, text: &[u8], room: usize) -> Outcome {
    let outcome = same(
        room,
        |out| jarrovento::seal(key, header, stretch, text, out),
        |out| document01::seal(key, header, stretch, text, out),
    );
    let inputs = Inputs {
        key,
        header,
        stretch,
        bytes: text,
    };
    outcome.held_by(|out| exports::seal(inputs, out));
    outcome.held_at_by(|out, place| exports::seal_at(inputs, out, place));
    outcome
}

/// Opens with both, into an output of `room` bytes, and by both exported functions.
#[track_caller]
pub fn open(key: &[u8], header: &[u8], stretch: u64, sealed: &[u8], room: usize) -> Outcome {
    let outcome = same(
        room,
        |out| jarrovento::open(key, header, stretch, sealed, out),
        |out| document01::open(key, header, stretch, sealed, out),
    );
    let inputs = Inputs {
        key,
        header,
        stretch,
        bytes: sealed,
    };
    outcome.held_by(|out| exports::open(inputs, out));
    outcome.held_at_by(|out, place| exports::open_at(inputs, out, place));
    outcome
}

/// Builds a log header with both, in an output of `room` bytes.
#[track_caller]
pub fn log_header(items: [&[u8]; 4], room: usize) -> Outcome {
    let [nonce, host, collector, locale] = items;
    same(
        room,
        |out| jarrovento::log_header(nonce, host, collector, locale, out),
        |out| document01::log_header(nonce, host, collector, locale, out),
    )
}

/// Reads a header with both, and by the exported function: its strings, or the
/// number of the bad entry.
#[track_caller]
pub fn read_header(header: &[u8]) -> Result<Vec<Vec<u8>>, u64> {
    let expected = document01::read_header(header);
    let got = match jarrovento::read_header(header) {
        Ok(strings) => Ok(strings.iter().map(|string| string.to_vec()).collect()),
        Err(entry) => Err(u64::from(entry.number())),
    };
    assert_eq!(got, expected);

    let (mut strings, mut place) = (UNSET, UNSET);
    let number = exports::header_read(header, &mut strings, &mut place);
    let told = match &expected {
        Ok(strings) => (0, strings.len() as u64, 0),
        Err(entry) => (3, 0, *entry),
    };
    assert_eq!((number, strings, place), told, "answer, strings, bad entry");
    expected
}

/// Calls both, and holds the proved library's answer, length, bad entry and bytes
/// to those of the second program.
#[track_caller]
pub fn same(
    room: usize,
    proved: impl FnOnce(&mut [u8]) -> Result<&mut [u8], Refusal>,
    second: impl FnOnce(&mut [u8]) -> Answer,
) -> Outcome {
    let mut whole = pattern(BESIDE + room + BESIDE);
    let out = &mut whole[BESIDE..BESIDE + room];
    let start = out.as_ptr();
    let (number, length, place) = match proved(out) {
        Ok(part) => {
            assert_eq!(part.as_ptr(), start, "the part is not at the start");
            (0, part.len(), 0)
        }
        Err(Refusal::HeaderUnreadable(entry)) => (3, 0, u64::from(entry.number())),
        Err(refusal) => (refusal.number(), 0, 0),
    };
    let got = Answer {
        number,
        length,
        place,
    };

    let mut expected = pattern(BESIDE + room + BESIDE);
    let answer = second(&mut expected[BESIDE..BESIDE + room]);
    assert_eq!(got, answer, "the second program answers as on the right");
    same_bytes(number, &whole, &expected);
    Outcome {
        number,
        place,
        whole,
        length,
    }
}

/// Holds an output, and what stands beside it, to what it should be.
#[track_caller]
pub fn same_bytes(number: u32, whole: &[u8], expected: &[u8]) {
    if let Some(place) = (0..whole.len()).find(|&place| whole[place] != expected[place]) {
        panic!(
            "answer {number}, output of {} bytes: byte {} is {:02x} and not {:02x}",
            whole.len() - 2 * BESIDE,
            place as i64 - BESIDE as i64,
            whole[place],
            expected[place]
        );
    }
}
