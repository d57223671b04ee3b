//! One change to a day file in its buffer, by the proved library, by the exported
//! function and by the second program, each in a copy of the same bytes.

use jarrovento::{DayBuffer, Refusal};
use second::day_edits;
use second::document01::Answer;
use support::pattern;

use super::exports;
use crate::both::{same_bytes, BESIDE, UNSET};

/// A day file in a buffer, and the bytes beside that.
#[derive(Clone)]
pub struct Buffer {
    whole: Vec<u8>,
    /// The file's length, or what is said to be it.
    pub size: u64,
}

/// What is appended: the number of a header, a header, and the record's stretch and
/// sealed string.
#[derive(Clone, Debug, Default)]
pub struct New {
    pub number: u64,
    pub header: Vec<u8>,
    pub stretch: u64,
    pub sealed: Vec<u8>,
}

/// The buffer, without the bytes beside it.
fn inside(whole: &mut [u8]) -> &mut [u8] {
    let end = whole.len() - BESIDE;
    &mut whole[BESIDE..end]
}

impl Buffer {
    /// A buffer of `room` bytes with the file first in it.
    pub fn of(file: &[u8], room: usize) -> Buffer {
        let mut whole = pattern(BESIDE + room + BESIDE);
        inside(&mut whole)[..file.len()].copy_from_slice(file);
        Buffer {
            whole,
            size: file.len() as u64,
        }
    }

    /// All of the buffer.
    pub fn bytes(&self) -> &[u8] {
        &self.whole[BESIDE..self.whole.len() - BESIDE]
    }

    /// The byte at a place of it.
    pub fn byte(&mut self, place: usize) -> &mut u8 {
        &mut inside(&mut self.whole)[place]
    }

    pub fn file(&self) -> &[u8] {
        &self.whole[BESIDE..BESIDE + self.size as usize]
    }

    /// Clears, and returns the answer. After 0 this is the cleared file's buffer.
    #[track_caller]
    pub fn clear(&mut self, dropped: &[u64]) -> u32 {
        self.change(
            |buffer, size| day_edits::clear(buffer, size, dropped),
            |buffer, size, new_size| exports::clear(buffer, size, dropped, new_size),
            |day| day.clear(dropped).map(<[u8]>::len),
        )
    }

    /// Appends, and returns the answer. After 0 this is the grown file's buffer.
    #[track_caller]
    pub fn append(&mut self, new: &New) -> u32 {
        let New {
            number,
            header,
            stretch,
            sealed,
        } = new;
        self.change(
            |buffer, size| day_edits::append(buffer, size, *number, header, *stretch, sealed),
            |buffer, size, new_size| exports::append(buffer, size, new, new_size),
            |day| {
                let file = day.append(*number, header, *stretch, sealed);
                file.map(<[u8]>::len)
            },
        )
    }

    #[track_caller]
    fn change(
        &mut self,
        second: impl FnOnce(&mut [u8], u64) -> Answer,
        exported: impl FnOnce(&mut [u8], u64, &mut u64) -> u32,
        library: impl FnOnce(&mut DayBuffer) -> Result<usize, Refusal>,
    ) -> u32 {
        let mut expected = self.whole.clone();
        let Answer { number, length, .. } = second(inside(&mut expected), self.size);
        let right = (number, length as u64);

        let mut whole = self.whole.clone();
        let mut new_size = UNSET;
        let answer = exported(inside(&mut whole), self.size, &mut new_size);
        assert_eq!(
            (answer, new_size),
            right,
            "the second program's is the right"
        );
        same_bytes(number, &whole, &expected);

        whole.clone_from(&self.whole);
        let day = DayBuffer::read(inside(&mut whole), self.size as usize);
        let answer = match day.and_then(|mut day| library(&mut day)) {
            Ok(length) => (0, length as u64),
            Err(refusal) => (refusal.number(), 0),
        };
        assert_eq!(answer, right, "the second program's is the right");
        same_bytes(number, &whole, &expected);

        if number == 0 {
            self.whole = whole;
            self.size = new_size;
        } else {
            assert!(expected == self.whole, "answer {number}: bytes are changed");
        }
        number
    }
}
