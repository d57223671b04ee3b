//! The second program's day file against a file that was written by hand from the
//! request's text.

use second::day_file::{count, list, open, read, write, Day, Listing, Lists, Record};
use second::document01::{seal, Answer};
use support::{counting, unhex};

const MARK: u8 = 0xa5;

/// Two headers: one empty string, and one string 07. Two records: the first under the
/// second header with a stretch of 4, the second under the first without a stretch and
/// without bytes.
fn by_hand() -> Vec<u8> {
    let lines = [
        "00000002",
        "0003010000",
        "000401000107",
        "00000002",
        "00010400000005aabbccddee",
        "00000000000000",
        "00000002",
        "00000013",
        "0000001f",
    ];
    unhex(&lines.concat())
}

fn lists() -> Lists<'static> {
    Lists {
        header_lengths: &[3, 4],
        headers: &[1, 0, 0, 1, 0, 1, 7],
        record_headers: &[1, 0],
        record_stretches: &[4, 0],
        record_lengths: &[5, 0],
        sealed: &[0xaa, 0xbb, 0xcc, 0xdd, 0xee],
    }
}

fn answer(number: u32, length: usize) -> Answer {
    Answer {
        number,
        length,
        place: 0,
    }
}

/// Holds the writer to an answer, in a room of so many bytes; after a refusal no byte
/// of it is changed.
#[track_caller]
fn written(lists: &Lists, room: usize, expected: Answer) -> Vec<u8> {
    let mut out = vec![MARK; room];
    assert_eq!(write(lists, &mut out), expected);
    assert!(out[expected.length..].iter().all(|&byte| byte == MARK));
    out.truncate(expected.length);
    out
}

#[test]
fn the_file_written_by_hand_is_read_and_written() {
    let file = by_hand();
    let day = Day {
        headers: vec![6..9, 11..15],
        records: vec![
            Record {
                header: 1,
                stretch: 4,
                sealed: 26..31,
            },
            Record {
                header: 0,
                stretch: 0,
                sealed: 38..38,
            },
        ],
    };
    assert_eq!(read(&file), Some(day));
    assert_eq!(count(&file), answer(0, 2));
    assert_eq!(written(&lists(), 53, answer(0, 50)), file);
    written(&lists(), 49, answer(6, 0));
}

#[test]
fn the_places_in_the_file_written_by_hand() {
    let listing = |number, headers, records| Listing {
        number,
        headers,
        records,
    };
    let file = by_hand();
    let mut places = [99; 13];
    assert_eq!(list(&file, &mut places[..11]), listing(6, 0, 0));
    assert_eq!(list(&file[1..], &mut places), listing(9, 0, 0));
    assert_eq!(places, [99; 13]);
    assert_eq!(list(&file, &mut places), listing(0, 2, 2));
    assert_eq!(places, [6, 9, 11, 15, 1, 4, 26, 31, 0, 0, 38, 38, 99]);
}

#[test]
fn a_day_without_records() {
    let none = Lists {
        header_lengths: &[],
        headers: &[],
        record_headers: &[],
        record_stretches: &[],
        record_lengths: &[],
        sealed: &[],
    };
    assert_eq!(written(&none, 12, answer(0, 12)), [0; 12]);
    assert_eq!(count(&[0; 12]), answer(0, 0));
}

/// The bytes that can be anything: those of the header's string and of the sealed
/// string, and a stretch up to 64.
#[test]
fn one_byte_changed() {
    for place in 0..50 {
        for value in 0..=255 {
            let mut file = by_hand();
            file[place] = value;
            let stretch = matches!(place, 21 | 33) && value <= 64;
            let free = place == 14 || (26..31).contains(&place) || stretch;
            // A record that names the other header.
            let header = matches!(place, 20 | 32) && value < 2;
            let expected = free || header || value == by_hand()[place];
            assert_eq!(read(&file).is_some(), expected, "byte {place} {value:02x}");
        }
    }
}

#[test]
fn cut_and_lengthened() {
    let mut file = by_hand();
    for length in 0..file.len() {
        assert_eq!(read(&file[..length]), None);
    }
    file.push(0);
    assert_eq!(read(&file), None);
}

#[test]
fn a_record_opens() {
    let (key, header) = (counting(48), [1, 0, 1, 7]);
    let mut sealed = [0; 9];
    seal(&key, &header, 4, b"hello", &mut sealed);
    let lists = Lists {
        record_lengths: &[9, 0],
        sealed: &sealed,
        ..lists()
    };
    let file = written(&lists, 54, answer(0, 54));
    let mut out = [MARK; 10];
    assert_eq!(open(&key, &file, 0, &mut out), answer(0, 5));
    assert_eq!(out, *b"hello\0\0\0\0\xa5");
    assert_eq!(open(&key, &file, 1, &mut []), answer(0, 0));
    assert_eq!(open(&key, &file, 2, &mut out), answer(9, 0));
    assert_eq!(open(&key, &file, u64::MAX, &mut out), answer(9, 0));
    // 9 is tested before document 01's numbers.
    assert_eq!(open(&key[1..], &file, 2, &mut out), answer(9, 0));
    assert_eq!(open(&key[1..], &file, 0, &mut out), answer(1, 0));
}

#[test]
fn lists_outside_the_layout() {
    let lists = lists();
    for wrong in [
        Lists {
            header_lengths: &[4, 3],
            ..lists
        },
        Lists {
            header_lengths: &[3, 5],
            ..lists
        },
        Lists {
            header_lengths: &[3, 3],
            ..lists
        },
        Lists {
            header_lengths: &[3, u64::MAX, 5],
            ..lists
        },
        Lists {
            record_headers: &[1, 2],
            ..lists
        },
        Lists {
            record_headers: &[1, 0, 0],
            ..lists
        },
        Lists {
            record_stretches: &[65, 0],
            ..lists
        },
        Lists {
            record_stretches: &[4],
            ..lists
        },
        Lists {
            record_lengths: &[5],
            ..lists
        },
        Lists {
            record_lengths: &[4, 0],
            ..lists
        },
        Lists {
            record_lengths: &[6, u64::MAX],
            ..lists
        },
    ] {
        written(&wrong, 60, answer(9, 0));
    }
}

/// 9 is tested before 4, and 4 before 6.
#[test]
fn the_order_of_the_writer_s_refusals() {
    let sealed = vec![7; 65_537];
    let of = |lengths: &'static [u64], sealed| Lists {
        record_lengths: lengths,
        sealed,
        ..lists()
    };
    // Beside the first sealed string the file has 45 bytes.
    let longest = of(&[65_491, 0], &sealed[..65_491]);
    assert_eq!(
        read(&written(&longest, 65_540, answer(0, 65_536))).map(|day| day.records.len()),
        Some(2)
    );
    written(&longest, 65_535, answer(6, 0));
    let longer = of(&[65_492, 0], &sealed[..65_492]);
    written(&longer, 65_540, answer(4, 0));
    written(&longer, 0, answer(4, 0));
    let wrong = Lists {
        record_stretches: &[4, 65],
        ..longer
    };
    written(&wrong, 0, answer(9, 0));
}
