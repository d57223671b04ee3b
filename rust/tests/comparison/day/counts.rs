//! Counts and lengths that are wrong or huge, and files around 65,536 bytes.

use support::{day_file, header, DayRecord, Source};

use super::both::reads;

/// A header of the fewest bytes, 3: with its length 5 of the file's.
const SHORTEST: [u8; 3] = [1, 0, 0];

fn shortest_records(count: usize) -> Vec<DayRecord> {
    vec![(0, 0, vec![]); count]
}

/// Each count and each length one more, one less, and far too large.
#[test]
fn wrong_counts() {
    let records = [(0, 4, vec![9; 5]), (0, 4, vec![9; 5])];
    let file = day_file(&[SHORTEST, SHORTEST], &records);
    // The headers' count, the records', a sealed string's length, the index's count.
    for place in [0, 14, 21, 42] {
        let right = u32::from_be_bytes(file[place..place + 4].try_into().unwrap());
        for wrong in [
            0,
            right - 1,
            right + 1,
            right + 2,
            1 << 8,
            1 << 16,
            65_536,
            1 << 24,
            1 << 31,
            u32::MAX - 6,
            u32::MAX,
        ] {
            let mut damaged = file.clone();
            damaged[place..place + 4].copy_from_slice(&wrong.to_be_bytes());
            assert!(!reads(&damaged), "{wrong} at {place}");
        }
    }
    assert!(reads(&file));
}

/// An index with an entry for each record but the last, or with one too many, its
/// count right for itself or for the records.
#[test]
fn an_index_of_another_length() {
    for records in 1..4 {
        let file = day_file(&[SHORTEST], &shortest_records(records));
        let count = 4 + 5 + 4 + 7 * records;
        for claimed in [records - 1, records, records + 1] {
            for entries in [records - 1, records, records + 1] {
                let mut other = file[..count].to_vec();
                other.extend((claimed as u32).to_be_bytes());
                for entry in 0..entries {
                    other.extend((13 + 7 * entry as u32).to_be_bytes());
                }
                let right = claimed == records && entries == records;
                assert_eq!(reads(&other), right, "{claimed} {entries}");
            }
        }
    }
}

/// As many records of no bytes as a file holds: 12 + 5 + 11 * 5,956 = 65,533, and with
/// three bytes more in the header 65,536. One more byte is too many.
#[test]
fn full_of_the_shortest_records() {
    for (string, length, expected) in [
        (0, 65_533, true),
        (3, 65_536, true),
        (4, 65_537, false),
        (5, 65_538, false),
    ] {
        let file = day_file(&[header(&[vec![7; string]])], &shortest_records(5_956));
        assert_eq!(file.len(), length);
        assert_eq!(reads(&file), expected, "{length}");
    }
    assert!(!reads(&day_file(&[SHORTEST], &shortest_records(5_957))));
}

/// As many headers as a file holds, and a record under the last: its number takes two
/// bytes.
#[test]
fn full_of_the_shortest_headers() {
    let headers = vec![SHORTEST; 13_102];
    for (record, expected) in [(13_101, true), (13_102, false), (255, true), (256, true)] {
        let file = day_file(&headers, &[(record, 0, vec![])]);
        assert_eq!(file.len(), 65_533);
        assert_eq!(reads(&file), expected, "{record}");
    }
    let mut long = day_file(&headers, &[(13_101, 0, vec![0; 3])]);
    assert_eq!(long.len(), 65_536);
    assert!(reads(&long));
    long.push(0);
    assert!(!reads(&long));
}

/// One record that fills the file, two that do, and a byte too many in each.
#[test]
fn full_of_long_records() {
    let mut source = Source::new(81);
    let bytes = source.bytes(65_536);
    let whole = 65_536 - 12 - 5;
    for (length, expected) in [(whole - 11, true), (whole - 10, false)] {
        let file = day_file(&[SHORTEST], &[(0, 16, bytes[..length].to_vec())]);
        assert_eq!(reads(&file), expected);
        let records = [30_000, length - 11 - 30_000].map(|part| (0, 16, bytes[..part].to_vec()));
        assert_eq!(reads(&day_file(&[SHORTEST], &records)), expected);
    }
}

/// Full files, cut and damaged in some places.
#[test]
fn full_files_damaged() {
    let mut source = Source::new(82);
    let short = day_file(&[header(&[[7; 3]])], &shortest_records(5_956));
    let record = (0, 16, source.bytes(4_000));
    let long = day_file(&[header(&[[7; 3]])], &vec![record; 16]);
    for file in [short, long] {
        for _ in 0..100 {
            let place = source.below(file.len());
            reads(&source.damaged(&file, place));
            assert!(!reads(&file[..place]));
        }
    }
}
