//! The log header builder: items of every kind, and outputs of every kind.

use std::collections::HashMap;

use second::document01::read_header;
use support::{header, hex, Source};

use crate::both::{log_header, open, seal};

fn slices(items: &[Vec<u8>; 4]) -> [&[u8]; 4] {
    items.each_ref().map(Vec::as_slice)
}

#[test]
fn items_of_many_lengths_in_outputs_of_many() {
    const LENGTHS: [usize; 7] = [0, 1, 2, 255, 256, 1_024, 1_025];
    let mut source = Source::new(51);
    for place in 0..LENGTHS.len().pow(4) {
        let lengths = [1, 7, 49, 343].map(|power| LENGTHS[place / power % 7]);
        let items = lengths.map(|length| source.bytes(length));
        let expected = header(&items);
        let too_long = lengths.contains(&1_025);

        for room in [0, expected.len() - 1, expected.len(), expected.len() + 9] {
            let built = log_header(slices(&items), room);
            if too_long {
                assert_eq!(built.number, 8);
            } else if room < expected.len() {
                assert_eq!(built.number, 6);
            } else {
                assert_eq!((built.number, built.part()), (0, &expected[..]));
            }
        }
    }
}

/// Each item with bytes and without, in every way: all four are written, and read
/// back as the four strings that they are.
#[test]
fn every_room_for_items_with_and_without_bytes() {
    for without in 0..16 {
        let mut items: [&[u8]; 4] = [&[1], b"n7", b"c1", b"de"];
        for (place, item) in items.iter_mut().enumerate() {
            if without >> place & 1 == 1 {
                *item = b"";
            }
        }
        let lengths = items.map(<[u8]>::len);
        let whole = 9 + lengths.iter().sum::<usize>();
        for room in 0..30 {
            let built = log_header(items, room);
            assert_eq!(
                built.number,
                if room < whole { 6 } else { 0 },
                "{lengths:?}"
            );
            if built.number == 0 {
                assert_eq!(built.part().len(), whole);
                let strings = items.map(<[u8]>::to_vec).to_vec();
                assert_eq!(read_header(built.part()), Ok(strings));
            }
        }
    }
}

/// Items that take one another's places, that look like parts of a header, and that
/// are cut elsewhere: no two sets of them have the same header.
#[test]
fn different_items_have_different_headers() {
    let strings: [&[u8]; 9] = [
        b"",
        b"d",
        b"de",
        b"e",
        &[0],
        &[0, 0],
        b"\x00\x02de",
        b"de\x00\x00",
        b"\x00\x00\x00\x02de",
    ];
    let mut seen = HashMap::new();
    for place in 0..strings.len().pow(4) {
        let items = [1, 9, 81, 729].map(|power| strings[place / power % 9]);
        let built = log_header(items, 40);
        assert_eq!(built.number, 0);
        if let Some(others) = seen.insert(built.part().to_vec(), items) {
            panic!("{others:?} and {items:?} have one header");
        }
    }
}

/// The two that had one header before request E2: a locale "de" with no collector,
/// and a collector "de" with no locale. A record of one is refused under the other.
#[test]
fn a_locale_and_a_collector_of_one_name() {
    let mut source = Source::new(53);
    let key = source.key();
    let by_locale = log_header([&[1], b"n7", b"", b"de"], 20);
    let by_collector = log_header([&[1], b"n7", b"de", b""], 20);
    assert_eq!(hex(by_locale.part()), "0400010100026e37000000026465");
    assert_eq!(hex(by_collector.part()), "0400010100026e37000264650000");
    for (own, other) in [(&by_locale, &by_collector), (&by_collector, &by_locale)] {
        for stretch in [4, 16, 64] {
            let sealed = seal(&key, own.part(), stretch, b"1,204 s", 80);
            let opened = open(&key, own.part(), stretch, sealed.part(), 80);
            assert_eq!((opened.number, opened.part()), (0, &b"1,204 s"[..]));
            let opened = open(&key, other.part(), stretch, sealed.part(), 80);
            assert_eq!(opened.number, 7);
        }
    }
}

/// A record is bound to each item by itself: with one of the four changed, taken
/// away, or in its neighbour's place, it does not open.
#[test]
fn each_item_is_bound() {
    let mut source = Source::new(54);
    let key = source.key();
    for lengths in [[8, 5, 4, 2], [1, 2, 0, 2], [1, 2, 2, 0], [16, 0, 0, 0]] {
        let items = lengths.map(|length| source.bytes(length));
        let own = log_header(slices(&items), 60);
        let sealed = seal(&key, own.part(), 16, b"1,204 s", 23);
        for place in 0..4 {
            let mut changed = items.clone();
            changed[place] = match lengths[place] {
                0 => source.bytes(1),
                _ => source.damaged(&items[place], 0),
            };
            let mut without = items.clone();
            without[place].clear();
            let mut moved = items.clone();
            moved.swap(place, (place + 1) % 4);
            assert_ne!(changed, items);
            // Without bytes before, or two neighbours without: that is no change.
            for others in [changed, without, moved]
                .into_iter()
                .filter(|others| *others != items)
            {
                let other = log_header(slices(&others), 60);
                let opened = open(&key, other.part(), 16, sealed.part(), 23);
                assert_eq!(opened.number, 7, "{items:?} and {others:?}");
            }
        }
    }
}

/// What the builder writes, the calls read.
#[test]
fn built_headers_seal_and_open() {
    let mut source = Source::new(52);
    let key = source.key();
    for lengths in [[0; 4], [1, 2, 0, 2], [8, 5, 4, 0], [1_024; 4]] {
        let items = lengths.map(|length| source.bytes(length));
        let built = log_header(slices(&items), 4_200);
        let sealed = seal(&key, built.part(), 4, b"1,204 s", 11);
        let opened = open(&key, built.part(), 4, sealed.part(), 11);
        assert_eq!((opened.number, opened.part()), (0, &b"1,204 s"[..]));
    }
}
