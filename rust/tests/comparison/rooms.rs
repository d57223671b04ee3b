//! Outputs that are too short, and outputs that are longer than needed.

use support::{header, Source};

use crate::both::{open, seal};

#[test]
fn every_room_for_short_texts() {
    let mut source = Source::new(31);
    for (stretch, length) in [
        (0, 0),
        (0, 1),
        (1, 0),
        (4, 7),
        (16, 0),
        (16, 20),
        (4, 60),
        (64, 64),
    ] {
        let (key, header) = (source.key(), header(&[source.bytes(8)]));
        let text = source.bytes(length);
        let whole = length + stretch as usize;
        let sealed = seal(&key, &header, stretch, &text, whole);
        let damaged = match whole {
            0 => Vec::new(),
            _ => source.damaged(sealed.part(), whole - 1),
        };
        for room in 0..whole + 20 {
            let expected = if room < whole { 6 } else { 0 };
            assert_eq!(seal(&key, &header, stretch, &text, room).number, expected);
            assert_eq!(
                open(&key, &header, stretch, sealed.part(), room).number,
                expected
            );
            open(&key, &header, stretch, &damaged, room);
        }
    }
}

#[test]
fn rooms_around_the_longest_string() {
    let mut source = Source::new(32);
    let (key, header) = (source.key(), header(&[source.bytes(8)]));
    let text = source.bytes(65_472);
    let sealed = seal(&key, &header, 64, &text, 65_600);
    assert_eq!(sealed.number, 0);
    for room in [0, 65_472, 65_535] {
        assert_eq!(seal(&key, &header, 64, &text, room).number, 6);
        assert_eq!(open(&key, &header, 64, sealed.part(), room).number, 6);
    }
    assert_eq!(open(&key, &header, 64, sealed.part(), 65_600).number, 0);
}
