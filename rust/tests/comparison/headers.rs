//! Headers of every count, headers that do not read, and damaged headers.

use support::{header, Source};

use crate::both::{open, seal};

/// Lengths of header strings at which a block is empty, short or full.
const LENGTHS: [usize; 9] = [0, 1, 15, 16, 17, 32, 100, 1_023, 1_024];

/// Seals under a header, opens again, and returns the answer of sealing, which
/// opening must give too.
#[track_caller]
fn answer_under(source: &mut Source, header: &[u8]) -> u32 {
    let (key, text) = (source.key(), source.bytes(40));
    let sealed = seal(&key, header, 4, &text, 50);
    let string = if sealed.number == 0 {
        sealed.part()
    } else {
        &text
    };
    let opened = open(&key, header, 4, string, 50);
    assert_eq!(opened.number, sealed.number);
    sealed.number
}

/// Holds sealing and opening to whether the header reads.
#[track_caller]
fn reads(source: &mut Source, header: &[u8], expected: bool, what: &str, number: usize) {
    let answer = if expected { 0 } else { 3 };
    assert_eq!(answer_under(source, header), answer, "{what} {number}");
}

fn strings(source: &mut Source, count: usize) -> Vec<Vec<u8>> {
    (0..count)
        .map(|_| {
            let length = LENGTHS[source.below(LENGTHS.len())];
            source.bytes(length)
        })
        .collect()
}

#[test]
fn every_count_to_17() {
    let mut source = Source::new(11);
    for count in 0..=17 {
        for _ in 0..8 {
            let header = header(&strings(&mut source, count));
            let expected = (1..=16).contains(&count);
            reads(&mut source, &header, expected, "count", count);
        }
    }
}

#[test]
fn every_count_of_empty_strings() {
    let mut source = Source::new(12);
    for count in 0..=255 {
        let expected = (1..=16).contains(&count);
        reads(
            &mut source,
            &header(&vec![[]; count]),
            expected,
            "count",
            count,
        );
    }
}

#[test]
fn every_length_of_a_string() {
    let mut source = Source::new(13);
    for length in (0..=130).chain(1_020..=1_030) {
        for header in [
            header(&[source.bytes(length)]),
            header(&[source.bytes(3), source.bytes(length)]),
        ] {
            reads(&mut source, &header, length <= 1_024, "length", length);
        }
    }
}

#[test]
fn the_longest_header() {
    let mut source = Source::new(14);
    let longest: Vec<Vec<u8>> = (0..16).map(|_| source.bytes(1_024)).collect();
    assert_eq!(answer_under(&mut source, &header(&longest)), 0);
}

/// Every cut of a header, and bytes left over at its end.
#[test]
fn headers_cut_and_lengthened() {
    let mut source = Source::new(15);
    let mut bytes = header(&[
        source.bytes(3),
        source.bytes(0),
        source.bytes(17),
        source.bytes(2),
    ]);
    for length in 0..bytes.len() {
        reads(&mut source, &bytes[..length], false, "cut to", length);
    }
    assert_eq!(answer_under(&mut source, &bytes), 0);
    for _ in 0..3 {
        bytes.push(0);
        assert_eq!(answer_under(&mut source, &bytes), 3);
    }
}

/// Under a header with one byte changed a record does not open.
#[test]
fn damaged_headers() {
    let mut source = Source::new(16);
    let key = source.key();
    let right = header(&[
        source.bytes(8),
        source.bytes(2),
        source.bytes(0),
        source.bytes(20),
    ]);
    for length in [0, 7, 16, 40, 100] {
        let text = source.bytes(length);
        let sealed = seal(&key, &right, 16, &text, length + 16);
        for place in 0..right.len() {
            let wrong = source.damaged(&right, place);
            let opened = open(&key, &wrong, 16, sealed.part(), length + 20);
            assert!(matches!(opened.number, 3 | 7), "place {place}");
        }
    }
}

/// The same strings with an empty one before, between or after them.
#[test]
fn an_empty_string_more() {
    let mut source = Source::new(17);
    let (key, text) = (source.key(), source.bytes(20));
    let (nonce, host) = (source.bytes(8), source.bytes(2));
    let sealed = seal(&key, &header(&[&nonce, &host]), 16, &text, 36);
    for wrong in [
        header(&[&[], &nonce[..], &host]),
        header(&[&nonce[..], &[], &host]),
        header(&[&nonce[..], &host, &[]]),
        header(&[&host, &nonce]),
    ] {
        assert_eq!(open(&key, &wrong, 16, sealed.part(), 36).number, 7);
    }
}
