//! Files that read, and files that were cut, lengthened, damaged or made up.

use support::{day_file, header, DayRecord, Source};

use super::both::reads;

/// A header of one to three short strings.
pub fn short_header(source: &mut Source) -> Vec<u8> {
    let strings: Vec<Vec<u8>> = (0..1 + source.below(3))
        .map(|_| {
            let length = source.below(4);
            source.bytes(length)
        })
        .collect();
    header(&strings)
}

/// Some headers, and records of up to `longest` bytes that name them.
pub fn parts(source: &mut Source, longest: usize) -> (Vec<Vec<u8>>, Vec<DayRecord>) {
    let headers: Vec<Vec<u8>> = (0..source.below(5)).map(|_| short_header(source)).collect();
    let count = if headers.is_empty() {
        0
    } else {
        source.below(6)
    };
    let records = (0..count)
        .map(|_| {
            let (header, stretch) = (source.below(headers.len()), source.below(65));
            let length = source.below(longest + 1);
            (header as u16, stretch as u8, source.bytes(length))
        })
        .collect();
    (headers, records)
}

/// Two headers and three records, of 9, 0 and 3 bytes.
fn small_file(source: &mut Source) -> Vec<u8> {
    let headers = [header(&[[7]]), header(&[&b"n7"[..], b""])];
    let records = [(1, 0, 9), (0, 4, 0), (1, 64, 3)];
    let file = day_file(
        &headers,
        &records.map(|(header, stretch, length)| (header, stretch, source.bytes(length))),
    );
    assert_eq!(file.len(), 72);
    file
}

#[test]
fn files_that_read() {
    let mut source = Source::new(71);
    let [one, other] = [short_header(&mut source), short_header(&mut source)];
    let none: [Vec<u8>; 0] = [];
    assert!(reads(&day_file(&none, &[])));
    // Headers that no record names, equal ones, and a string shorter than its stretch.
    assert!(reads(&day_file(&[&one, &other], &[])));
    assert!(reads(&day_file(&[&one, &one], &[(1, 0, vec![])])));
    assert!(reads(&day_file(&[&one], &[(0, 64, vec![])])));
    assert!(reads(&small_file(&mut source)));
    for longest in [0, 1, 20, 300] {
        for _ in 0..200 {
            let (headers, records) = parts(&mut source, longest);
            assert!(reads(&day_file(&headers, &records)));
        }
    }
}

#[test]
fn cut_at_every_length() {
    let mut source = Source::new(72);
    let mut files = vec![small_file(&mut source)];
    files.extend((0..20).map(|_| {
        let (headers, records) = parts(&mut source, 20);
        day_file(&headers, &records)
    }));
    for file in files {
        for length in 0..file.len() {
            assert!(!reads(&file[..length]), "{length} of {}", file.len());
        }
        for more in [&[0][..], &[0; 4], &[0, 0, 0, 1], &[255; 11]] {
            assert!(!reads(&[&file, more].concat()));
        }
    }
}

/// Every byte changed to every other value. The file still reads where that is a byte
/// of a header's string or of a sealed string, a stretch up to 64, or the number of
/// the other header.
#[test]
fn every_byte_of_a_file() {
    let mut source = Source::new(73);
    let file = small_file(&mut source);
    let mut reading = vec![0; file.len()];
    for place in 0..file.len() {
        for change in 1..=255 {
            let mut damaged = file.clone();
            damaged[place] ^= change;
            reading[place] += usize::from(reads(&damaged));
        }
    }
    let mut expected = vec![0; file.len()];
    // The string 07; "n7".
    for place in [9, 15, 16] {
        expected[place] = 255;
    }
    for (start, length) in [(23, 9), (39, 0), (46, 3)] {
        expected[start + 1] = 1;
        expected[start + 2] = 64;
        expected[start + 7..start + 7 + length].fill(255);
    }
    assert_eq!(reading, expected);
}

/// Two bytes changed, which may make up for each other.
#[test]
fn damaged_in_two_places() {
    let mut source = Source::new(74);
    let file = small_file(&mut source);
    let mut reading = 0;
    for _ in 0..20_000 {
        let mut damaged = file.clone();
        for _ in 0..2 {
            let place = source.below(file.len());
            damaged[place] = source.below(70) as u8;
        }
        reading += usize::from(reads(&damaged));
    }
    assert!((1..20_000).contains(&reading), "{reading}");
}

/// Bytes of no layout, and bytes that start like one.
#[test]
fn made_up_files() {
    let mut source = Source::new(75);
    let mut reading = 0;
    for turn in 0..20_000 {
        let length = source.below(60);
        let mut file = match turn % 2 {
            0 => source.bytes(length),
            _ => (0..length).map(|_| (source.below(9) / 6) as u8).collect(),
        };
        for count in [0, 4, 8] {
            if turn % 3 > 0 && file.len() >= count + 4 {
                file[count..count + 3].fill(0);
                file[count + 3] = source.below(2) as u8;
            }
        }
        reading += usize::from(reads(&file));
    }
    assert!((1..20_000).contains(&reading), "{reading}");
}

/// The place of every record, one off, exchanged with another's, and of another record.
#[test]
fn wrong_index_entries() {
    let mut source = Source::new(76);
    let file = small_file(&mut source);
    let index = file.len() - 12;
    let with = |entries: [u32; 3]| {
        let mut wrong = file.clone();
        let bytes = entries.iter().flat_map(|entry| entry.to_be_bytes());
        wrong.splice(index.., bytes);
        wrong
    };
    assert_eq!(with([23, 39, 46]), file);
    for wrong in [
        [22, 39, 46],
        [24, 39, 46],
        [23, 38, 46],
        [23, 39, 47],
        [39, 23, 46],
        [23, 46, 39],
        [23, 23, 23],
        [0, 16, 23],
        [23 + (1 << 16), 39, 46],
        [23, 39, 46 + (1 << 24)],
    ] {
        assert!(!reads(&with(wrong)), "{wrong:?}");
    }
}

/// A header in the file may be any that reads, and none that does not.
#[test]
fn headers_that_do_not_read() {
    let mut source = Source::new(77);
    for bad in [
        vec![],
        vec![0],
        vec![17],
        vec![1],
        vec![1, 0, 1],
        vec![1, 0, 0, 0],
        header(&[source.bytes(1_025)]),
        header(&[[]; 17]),
    ] {
        let good = short_header(&mut source);
        assert!(!reads(&day_file(&[&bad], &[])));
        assert!(!reads(&day_file(&[&bad, &good], &[(1, 0, vec![])])));
        assert!(!reads(&day_file(&[&good, &bad], &[(0, 0, vec![])])));
    }
    let longest = header(&vec![source.bytes(1_024); 16]);
    assert!(reads(&day_file(&[&longest], &[(0, 0, vec![])])));
}

/// Of the last record too, and of one that nobody asks for.
#[test]
fn headers_that_are_not_there_and_long_stretches() {
    let header = header(&[[7]]);
    let good = (0, 64, vec![1, 2, 3]);
    for bad in [(1, 0), (2, 0), (256, 0), (65_535, 0), (0, 65), (0, 255)] {
        let bad = (bad.0, bad.1, vec![1, 2, 3]);
        for records in [
            vec![bad.clone()],
            vec![good.clone(), bad.clone()],
            vec![bad, good.clone()],
        ] {
            assert!(!reads(&day_file(&[&header], &records)));
        }
    }
    // Named against the headers, not against the records.
    let records = [(1, 0, vec![]), (1, 0, vec![]), (0, 0, vec![])];
    assert!(!reads(&day_file(&[&header], &records)));
    assert!(reads(&day_file(&[&header, &header], &records)));
}
