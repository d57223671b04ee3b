//! The second program's clearing and appending against files that were written by hand
//! from the request's text.

use second::day_edits::{append, clear};
use second::document01::Answer;
use support::{counting, unhex};

const MARK: u8 = 0xa5;

/// Three headers: one empty string, one string 07, and one string 08 09. Three records:
/// under the last header, under the first, and under the last.
const DAY: [&str; 12] = [
    "00000003",
    "0003010000",
    "000401000107",
    "00050100020809",
    "00000003",
    "00020400000005aabbccddee",
    "00000000000001ff",
    "00024000000000",
    "00000003",
    "0000001a",
    "00000026",
    "0000002e",
];

/// The file in a buffer with some bytes behind it.
fn buffer(lines: &[&str]) -> (Vec<u8>, u64) {
    let mut buffer = unhex(&lines.concat());
    let size = buffer.len() as u64;
    buffer.extend([MARK; 30]);
    (buffer, size)
}

fn answer(number: u32, length: usize) -> Answer {
    Answer {
        number,
        length,
        place: 0,
    }
}

/// Holds clearing to the lines that are left, to zeros behind them, and to the marks.
#[track_caller]
fn cleared(dropped: &[u64], lines: &[&str]) {
    let (mut buffer, size) = buffer(&DAY);
    let mut expected = unhex(&lines.concat());
    let length = expected.len();
    expected.resize(size as usize, 0);
    expected.extend([MARK; 30]);
    assert_eq!(clear(&mut buffer, size, dropped), answer(0, length));
    assert_eq!(buffer, expected);
    // Again, with an empty list.
    assert_eq!(clear(&mut buffer, length as u64, &[]), answer(0, length));
    assert_eq!(buffer, expected);
}

/// The header that no record names goes, and the last is number 1.
#[test]
fn nothing_dropped() {
    let left = [
        "00000002",
        "0003010000",
        "00050100020809",
        "00000003",
        "00010400000005aabbccddee",
        "00000000000001ff",
        "00014000000000",
        "00000003",
        "00000014",
        "00000020",
        "00000028",
    ];
    cleared(&[], &left);
}

#[test]
fn the_first_dropped() {
    let left = [
        "00000002",
        "0003010000",
        "00050100020809",
        "00000002",
        "00000000000001ff",
        "00014000000000",
        "00000002",
        "00000014",
        "0000001c",
    ];
    cleared(&[0], &left);
}

#[test]
fn the_middle_dropped() {
    let left = [
        "00000001",
        "00050100020809",
        "00000002",
        "00000400000005aabbccddee",
        "00004000000000",
        "00000002",
        "0000000f",
        "0000001b",
    ];
    cleared(&[1], &left);
}

#[test]
fn the_last_two_and_all_dropped() {
    let left = [
        "00000001",
        "00050100020809",
        "00000001",
        "00000400000005aabbccddee",
        "00000001",
        "0000000f",
    ];
    cleared(&[1, 2], &left);
    cleared(&[0, 1, 2], &["000000000000000000000000"]);
}

#[test]
fn refusals_of_clearing() {
    let (mut buffer, size) = buffer(&DAY);
    let before = buffer.clone();
    for wrong in [
        &[3][..],
        &[0, 3],
        &[1, 1],
        &[2, 1],
        &[0, 2, 1],
        &[u64::MAX],
        &[1 << 32],
    ] {
        assert_eq!(clear(&mut buffer, size, wrong), answer(17, 0));
    }
    let past = buffer.len() as u64 + 1;
    for wrong in [0, size - 1, size + 1, past, size + (1 << 32), u64::MAX] {
        for dropped in [&[][..], &[0], &[3]] {
            assert_eq!(clear(&mut buffer, wrong, dropped), answer(9, 0));
        }
    }
    assert_eq!(buffer, before);
}

/// Under a header that is there; what is passed beside its number is not looked at.
#[test]
fn a_record_appended() {
    let (mut buffer, size) = buffer(&DAY);
    let expected = [
        "00000003",
        "0003010000",
        "000401000107",
        "00050100020809",
        "00000004",
        "00020400000005aabbccddee",
        "00000000000001ff",
        "00024000000000",
        "00011000000003010203",
        "00000004",
        "0000001a",
        "00000026",
        "0000002e",
        "00000035",
        "a5a5a5a5a5a5a5a5a5a5a5a5a5a5a5a5",
    ];
    let got = append(&mut buffer, size, 1, &[0xff], 16, &[1, 2, 3]);
    assert_eq!(got, answer(0, size as usize + 14));
    assert_eq!(buffer, unhex(&expected.concat()));
}

/// The next number brings its header, put last; the records stand further behind then.
#[test]
fn a_record_appended_with_its_header() {
    let (mut buffer, size) = buffer(&DAY);
    let expected = [
        "00000004",
        "0003010000",
        "000401000107",
        "00050100020809",
        "00050200000000",
        "00000004",
        "00020400000005aabbccddee",
        "00000000000001ff",
        "00024000000000",
        "00030000000000",
        "00000004",
        "00000021",
        "0000002d",
        "00000035",
        "0000003c",
        "a5a5a5a5a5a5a5a5a5a5a5a5",
    ];
    let got = append(&mut buffer, size, 3, &[2, 0, 0, 0, 0], 0, &[]);
    assert_eq!(got, answer(0, size as usize + 18));
    assert_eq!(buffer, unhex(&expected.concat()));
}

/// 9 is tested before 6.
#[test]
fn refusals_of_appending() {
    let (mut buffer, size) = buffer(&DAY);
    let before = buffer.clone();
    let header = [1, 0, 0];
    let long = counting(20);
    for sealed in [&[][..], &long] {
        for (size, number, header, stretch) in [
            (size, 4, &header[..], 4),
            (size, u64::MAX, &header, 4),
            (size, (1 << 32) + 3, &header, 4),
            (size, 3, &[], 4),
            (size, 3, &[1, 0, 0, 0], 4),
            (size, 0, &header, 65),
            (size, 3, &header, 256),
            (size - 1, 0, &header, 4),
            (size + 1, 0, &header, 4),
            (size + 31, 0, &header, 4),
            (0, 0, &header, 4),
        ] {
            let got = append(&mut buffer, size, number, header, stretch, sealed);
            assert_eq!(got, answer(9, 0), "{size} {number} {header:?} {stretch}");
        }
    }
    // 30 bytes are free: 11 and 19, or 5 and 11 and 14.
    assert_eq!(append(&mut buffer, size, 0, &[], 4, &long), answer(6, 0));
    let with_header = append(&mut buffer, size, 3, &header, 4, &long[..15]);
    assert_eq!(with_header, answer(6, 0));
    assert_eq!(buffer, before);
    let end = buffer.len();
    let with_header = append(&mut buffer.clone(), size, 3, &header, 4, &long[..14]);
    assert_eq!(with_header, answer(0, end));
    let filled = append(&mut buffer, size, 0, &[], 4, &long[..19]);
    assert_eq!(filled, answer(0, end));
}

/// A file has at most 65,536 bytes, in a longer buffer too.
#[test]
fn the_longest_file() {
    let mut buffer = vec![0; 70_000];
    let sealed = vec![9; 65_536 - 12 - 5 - 11 + 1];
    let longer = append(&mut buffer, 12, 0, &[1, 0, 0], 4, &sealed);
    assert_eq!(longer, answer(6, 0));
    assert_eq!(buffer, vec![0; 70_000]);
    let longest = append(&mut buffer, 12, 0, &[1, 0, 0], 4, &sealed[1..]);
    assert_eq!(longest, answer(0, 65_536));
    assert_eq!(clear(&mut buffer, 65_536, &[0]), answer(0, 12));
    assert_eq!(buffer, vec![0; 70_000]);
}
