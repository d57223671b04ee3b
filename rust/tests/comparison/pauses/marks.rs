//! Reports on files of many headers, of which the ledger marks every 64th.

use support::{day_file, header, DayRecord, Source};

use super::both::{header_of, report};
use super::reports::sealed;

/// Headers of different lengths, each with its number for a nonce: what is sealed under
/// one does not open under another.
fn numbered_headers(count: u16) -> Vec<Vec<u8>> {
    (0..count)
        .map(|number| {
            let host = vec![b'n'; usize::from(number % 7)];
            header(&[&number.to_be_bytes()[..], &host, b"", b"de"])
        })
        .collect()
}

/// A pause under each header that stands at a mark, beside one or last, in falling
/// order: all are read, and each is as many milliseconds as its header's number.
#[test]
fn headers_around_the_marks() {
    let key = Source::new(141).key();
    for count in [1, 2, 63, 64, 65, 127, 128, 129, 130, 1_000, 3_000] {
        let headers = numbered_headers(count);
        let numbers: Vec<u16> = (0..count)
            .rev()
            .filter(|number| matches!(number % 64, 0 | 1 | 62 | 63) || number + 1 == count)
            .collect();
        let records: Vec<DayRecord> = numbers
            .iter()
            .map(|&number| {
                let text = format!("{number} ms");
                let header = &headers[usize::from(number)];
                (number, 16, sealed(&key, header, 16, text.as_bytes()))
            })
            .collect();
        let line = report(&key, &day_file(&headers, &records)).unwrap();
        let sum: u64 = numbers
            .iter()
            .map(|&number| 1_000 * u64::from(number))
            .sum();
        let longest = 1_000 * u64::from(count - 1);
        let expected = format!("{} 0 {sum} {longest} ", numbers.len());
        assert!(line.starts_with(&expected), "{line} of {count} headers");
    }
}

/// Every record is put under the header before and the one after its own: none opens.
#[test]
fn one_header_off() {
    let key = Source::new(142).key();
    let headers = numbered_headers(200);
    for off in [1, 199] {
        let records: Vec<DayRecord> = (0..200)
            .map(|number: u16| {
                let string = sealed(&key, &headers[usize::from(number)], 16, b"7 s");
                ((number + off) % 200, 16, string)
            })
            .collect();
        let line = report(&key, &day_file(&headers, &records)).unwrap();
        assert_eq!(line, "0 200 0 0 0/1\n");
    }
}

/// The most headers that a file holds, 13,104, and nearly as many before a pause of the
/// last.
#[test]
fn the_most_headers() {
    let key = Source::new(143).key();
    let mut headers = vec![vec![1, 0, 0]; 13_104];
    let file = day_file(&headers, &[]);
    assert_eq!(file.len(), 65_532);
    assert_eq!(report(&key, &file).unwrap(), "0 0 0 0 0/1\n");

    headers.truncate(13_097);
    headers.push(header_of(b"de"));
    let pause = sealed(&key, &headers[13_097], 4, b"1,5 s");
    let file = day_file(&headers, &[(13_097, 4, pause)]);
    assert_eq!(file.len(), 65_533);
    let line = report(&key, &file).unwrap();
    assert_eq!(line, "1 0 1500000 1500000 1500000/1\n");
}
