//! Clearings and appends in files that are full of the shortest headers and records.

use support::{day_file, header, DayRecord};

use super::changed::{Buffer, New};

/// A header of the fewest bytes, 3: with its length 5 of the file's.
const SHORTEST: [u8; 3] = [1, 0, 0];

/// Clears a file, of which so many records are there, in several ways, and returns the
/// lengths that are left.
#[track_caller]
fn cleared(file: &[u8], records: u64) -> [u64; 7] {
    let lists: [Vec<u64>; 7] = [
        vec![],
        (0..records).collect(),
        (0..records).step_by(2).collect(),
        vec![0],
        vec![records - 1],
        (1..records).collect(),
        (0..records - 1).collect(),
    ];
    lists.map(|dropped| {
        let mut buffer = Buffer::of(file, file.len() + 7);
        assert_eq!(buffer.clear(&dropped), 0);
        let size = buffer.size;
        assert_eq!(buffer.clear(&[]), 0);
        assert_eq!(buffer.size, size);
        size
    })
}

#[test]
fn full_of_the_shortest_records() {
    let file = day_file(&[SHORTEST], &vec![(0, 0, vec![]); 5_956]);
    let of = |records: u64| 12 + 5 + 11 * records;
    let expected = [of(5_956), 12, of(2_978), of(5_955), of(5_955), of(1), of(1)];
    assert_eq!(cleared(&file, 5_956), expected);
}

/// The dearest file: as many records as bytes are left name the last of as many headers,
/// and all headers before it go.
#[test]
fn many_records_that_name_the_last_of_many_headers() {
    let records = vec![(6_551, 0, vec![]); 2_978];
    let file = day_file(&vec![SHORTEST; 6_552], &records);
    assert_eq!(file.len(), 65_530);
    let of = |records: u64| 12 + 5 + 11 * records;
    let expected = [of(2_978), 12, of(1_489), of(2_977), of(2_977), of(1), of(1)];
    assert_eq!(cleared(&file, 2_978), expected);
}

/// Each record names a header of its own, in the headers' order and against it, so that
/// numbers of two bytes are mended.
#[test]
fn a_header_for_each_record() {
    let headers = vec![SHORTEST; 4_095];
    for turned in [false, true] {
        let records: Vec<DayRecord> = (0..4_095)
            .map(|number| (if turned { 4_094 - number } else { number }, 0, vec![]))
            .collect();
        let file = day_file(&headers, &records);
        assert_eq!(file.len(), 65_532);
        let of = |records: u64| 12 + 16 * records;
        let expected = [of(4_095), 12, of(2_047), of(4_094), of(4_094), of(1), of(1)];
        assert_eq!(cleared(&file, 4_095), expected);
    }
}

/// Headers that no record names go, as many as a file holds; and a day can start anew.
#[test]
fn full_of_the_shortest_headers() {
    let file = day_file(&vec![SHORTEST; 13_104], &[]);
    assert_eq!(file.len(), 65_532);
    let mut buffer = Buffer::of(&file, 65_532);
    let new = New {
        number: 13_104,
        header: SHORTEST.to_vec(),
        ..New::default()
    };
    assert_eq!(buffer.append(&new), 6);
    assert_eq!(buffer.clear(&[]), 0);
    assert_eq!((buffer.size, buffer.bytes()), (12, &[0; 65_532][..]));
    assert_eq!(buffer.append(&new), 9);
    assert_eq!(buffer.append(&New { number: 0, ..new }), 0);
    assert_eq!(buffer.size, 12 + 5 + 11);
}

/// Each header alone is named, out of more than a table's row of bits has.
#[test]
fn one_header_named() {
    for count in 1..=40 {
        let headers: Vec<Vec<u8>> = (0..count).map(|number| header(&[[number as u8]])).collect();
        for named in 0..count {
            let file = day_file(&headers, &[(named, 4, vec![9; 5])]);
            let mut buffer = Buffer::of(&file, file.len());
            assert_eq!(buffer.clear(&[]), 0);
            let kept = day_file(&[&headers[usize::from(named)]], &[(0, 4, vec![9; 5])]);
            assert_eq!(buffer.file(), kept);
        }
    }
}

/// What was cleared out can be appended again, and no more than that.
#[test]
fn freed_bytes_take_new_records() {
    let file = day_file(&[SHORTEST], &vec![(0, 0, vec![]); 5_956]);
    let mut buffer = Buffer::of(&file, 65_536);
    let dropped: Vec<u64> = (0..5_956).step_by(50).collect();
    assert_eq!(buffer.clear(&dropped), 0);
    for _ in &dropped {
        assert_eq!(buffer.append(&New::default()), 0);
    }
    assert_eq!(buffer.file(), file);
    assert_eq!(buffer.append(&New::default()), 6);
}

/// Longest and next longer, in buffers around the longest file.
#[test]
fn rooms_around_the_longest_file() {
    let file = day_file(&[SHORTEST], &[]);
    for room in [65_535, 65_536, 65_537, 70_000] {
        let fits = room.min(65_536) - file.len() - 11;
        for (length, expected) in [(fits, 0), (fits + 1, 6)] {
            let mut buffer = Buffer::of(&file, room);
            let new = New {
                sealed: vec![9; length],
                ..New::default()
            };
            assert_eq!(buffer.append(&new), expected, "{length} in {room}");
        }
        for (length, expected) in [(fits - 5, 0), (fits - 4, 6)] {
            let mut buffer = Buffer::of(&file, room);
            let new = New {
                number: 1,
                header: SHORTEST.to_vec(),
                stretch: 64,
                sealed: vec![9; length],
            };
            assert_eq!(buffer.append(&new), expected, "{length} in {room}");
        }
    }
}
