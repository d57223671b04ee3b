//! Sealed strings that were changed, cut or lengthened, and strings that nobody sealed.

use support::{header, Source};

use crate::both::{open, seal};

/// Opens a string that is not what was sealed. With a long stretch the check
/// must fail; with none it can't. In between the two programs must agree.
#[track_caller]
fn opened_wrongly(key: &[u8], header: &[u8], stretch: u64, string: &[u8]) {
    let number = open(key, header, stretch, string, string.len() + 3).number;
    match stretch {
        0 => assert_eq!(number, 0),
        8.. => assert_eq!(number, 7),
        _ => {}
    }
}

#[test]
fn every_place_of_short_strings() {
    let mut source = Source::new(21);
    let (key, header) = (source.key(), header(&[source.bytes(8), source.bytes(2)]));
    for stretch in [0, 1, 2, 4, 8, 16, 64] {
        for length in [
            0, 1, 2, 3, 10, 15, 16, 17, 24, 31, 32, 33, 47, 48, 49, 64, 100,
        ] {
            let room = length + stretch as usize;
            let sealed = seal(&key, &header, stretch, &source.bytes(length), room);
            for place in 0..room {
                let damaged = source.damaged(sealed.part(), place);
                opened_wrongly(&key, &header, stretch, &damaged);
            }
        }
    }
}

#[test]
fn some_places_of_long_strings() {
    let mut source = Source::new(22);
    let (key, header) = (source.key(), header(&[source.bytes(8), source.bytes(2)]));
    for (stretch, length, changes) in [(0, 4_096, 20), (16, 4_096, 40), (64, 65_472, 8)] {
        let room = length + stretch as usize;
        let sealed = seal(&key, &header, stretch, &source.bytes(length), room);
        for _ in 0..changes {
            let place = source.below(room);
            let damaged = source.damaged(sealed.part(), place);
            opened_wrongly(&key, &header, stretch, &damaged);
        }
    }
}

#[test]
fn strings_cut_and_lengthened() {
    let mut source = Source::new(23);
    let (key, header) = (source.key(), header(&[source.bytes(8), source.bytes(2)]));
    for length in [0, 1, 10, 15, 16, 31, 32, 48, 64, 100] {
        let mut string = seal(&key, &header, 8, &source.bytes(length), length + 8)
            .part()
            .to_vec();
        for cut in 8..string.len() {
            opened_wrongly(&key, &header, 8, &string[..cut]);
        }
        string.push(0);
        opened_wrongly(&key, &header, 8, &string);
    }
}

#[test]
fn another_stretch_or_another_key() {
    let mut source = Source::new(24);
    let (key, header) = (source.key(), header(&[source.bytes(8), source.bytes(2)]));
    for length in [0, 5, 16, 40, 100] {
        let sealed = seal(&key, &header, 16, &source.bytes(length), length + 16);
        for stretch in 0..16 {
            opened_wrongly(&key, &header, stretch, sealed.part());
        }
        for place in 0..48 {
            opened_wrongly(&source.damaged(&key, place), &header, 16, sealed.part());
        }
    }
}

/// At a stretch of one byte some strings open and most do not: both answers
/// come, and the two programs agree on each.
#[test]
fn strings_that_nobody_sealed() {
    let mut source = Source::new(25);
    let (key, header) = (source.key(), header(&[source.bytes(8)]));
    let mut opened = 0;
    for _ in 0..4_096 {
        let length = 1 + source.below(70);
        let string = source.bytes(length);
        let outcome = open(&key, &header, 1, &string, length);
        if outcome.number == 0 {
            let again = seal(&key, &header, 1, outcome.part(), length);
            assert_eq!(again.part(), string);
            opened += 1;
        }
    }
    // One in 256 is to be expected, 16 in all.
    assert!((4..=40).contains(&opened), "{opened} of 4,096 opened");
}
