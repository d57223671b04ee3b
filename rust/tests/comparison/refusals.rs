//! Inputs that break several rules at once: the first rule gives the answer.

use support::{header, Source};

use crate::both::{open, seal};

/// One mix of inputs. `bytes` is the text to seal, or the string to open.
struct Mix<'a> {
    key: &'a [u8],
    stretch: u64,
    header: &'a [u8],
    header_reads: bool,
    bytes: &'a [u8],
    room: usize,
}

impl Mix<'_> {
    /// Document 01's tests 1 to 3.
    fn common(&self) -> [(u32, bool); 3] {
        [
            (1, self.key.len() != 48),
            (2, self.stretch > 64),
            (3, !self.header_reads),
        ]
    }

    /// Seals, and holds the answer to the first test that holds.
    fn seal(&self) -> u32 {
        let [one, two, three] = self.common();
        let whole = self.bytes.len() + self.stretch.min(64) as usize;
        let four = (4, whole > 65_536);
        let six = (6, self.room < whole);
        let answer = seal(self.key, self.header, self.stretch, self.bytes, self.room).number;
        assert_eq!(answer, first([one, two, three, four, six]));
        answer
    }

    /// Opens, and holds the answer to the first test that holds. Where none
    /// does, whether the check fails is for the two programs to agree on.
    fn open(&self) -> u32 {
        let [one, two, three] = self.common();
        let four = (4, self.bytes.len() > 65_536);
        let five = (5, (self.bytes.len() as u64) < self.stretch);
        let six = (6, self.room < self.bytes.len());
        let answer = open(self.key, self.header, self.stretch, self.bytes, self.room).number;
        match first([one, two, three, four, five, six]) {
            0 => assert!(matches!(answer, 0 | 7)),
            number => assert_eq!(answer, number),
        }
        answer
    }
}

/// The number of the first test that holds, or 0.
fn first<const N: usize>(tests: [(u32, bool); N]) -> u32 {
    let found = tests.into_iter().find(|&(_, holds)| holds);
    found.map_or(0, |(number, _)| number)
}

/// A header that reads and some that do not.
fn headers(source: &mut Source) -> Vec<(Vec<u8>, bool)> {
    let good = header(&[source.bytes(8), source.bytes(2)]);
    let leftover = [&good[..], &[0]].concat();
    vec![
        (good, true),
        (leftover, false),
        (Vec::new(), false),
        (vec![0], false),
        (header(&[[]; 17]), false),
        (header(&[source.bytes(1_025)]), false),
    ]
}

#[test]
fn every_mix_of_broken_rules() {
    let mut source = Source::new(41);
    let keys = [48, 0, 16, 47, 49, 96].map(|length| source.bytes(length));
    let headers = headers(&mut source);
    let bytes = source.bytes(70_000);
    let stretches = [0, 4, 64, 65, 256, (1 << 32) + 4, 1 << 63, u64::MAX];
    let lengths = [0, 3, 63, 64, 65_472, 65_473, 65_533, 65_536, 65_537, 70_000];
    let rooms = [0, 3, 67, 65_536, 70_100];

    let mut seen = [false; 8];
    for (key, stretch) in pairs(&keys, &stretches) {
        for ((header, header_reads), (&length, &room)) in pairs(&headers, &pairs(&lengths, &rooms))
        {
            let mix = Mix {
                key,
                stretch: *stretch,
                header,
                header_reads: *header_reads,
                bytes: &bytes[..length],
                room,
            };
            seen[mix.seal() as usize] = true;
            seen[mix.open() as usize] = true;
        }
    }
    assert_eq!(seen, [true; 8], "an answer that never came");
}

/// Each of `a` with each of `b`.
fn pairs<'a, A, B>(a: &'a [A], b: &'a [B]) -> Vec<(&'a A, &'a B)> {
    a.iter()
        .flat_map(|a| b.iter().map(move |b| (a, b)))
        .collect()
}

#[test]
fn keys_of_every_length_to_100() {
    let mut source = Source::new(42);
    let header = header(&[source.bytes(8)]);
    for length in 0..=100 {
        let key = source.bytes(length);
        let expected = if length == 48 { 0 } else { 1 };
        assert_eq!(seal(&key, &header, 4, b"text", 8).number, expected);
        assert_eq!(open(&key, &header, 0, b"text", 8).number, expected);
    }
}

#[test]
fn stretches_above_64() {
    let mut source = Source::new(43);
    let (key, header) = (source.key(), header(&[source.bytes(8)]));
    let text = source.bytes(100);
    for stretch in [
        65,
        66,
        128,
        256,
        (1 << 32) + 4,
        1 << 61,
        1 << 63,
        u64::MAX - 50,
        u64::MAX,
    ] {
        assert_eq!(seal(&key, &header, stretch, &text, 200).number, 2);
        assert_eq!(open(&key, &header, stretch, &text, 200).number, 2);
    }
}
