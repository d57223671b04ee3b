//! Reports on days of pauses, read and refused.

use second::document01;
use support::{day_file, header, DayRecord, Source};

use super::both::{header_of, line, report, report_in_rooms, LOCALES};

/// Pauses and others, as each locale may have them.
const TEXTS: [&str; 16] = [
    "0 s",
    "1,204 s",
    "1.204 s",
    "870 ms",
    "0,001 ms",
    "0.001 ms",
    "0,5 ms",
    "999999999,999 s",
    "999999999.999 ms",
    "1,2345 s",
    "1 s ",
    "",
    "no pause",
    "12345678901234 ms",
    "1.234.567,8 ms, and a text that is longer than any pause and any stretch together",
    "4294967 s",
];

pub fn sealed(key: &[u8], header: &[u8], stretch: u64, text: &[u8]) -> Vec<u8> {
    let mut sealed = vec![0; text.len() + stretch as usize];
    let answer = document01::seal(key, header, stretch, text, &mut sealed);
    assert_eq!(answer.number, 0);
    sealed
}

/// Headers of the four locales, of a fifth, of no locale, and of three and five items.
fn headers() -> Vec<Vec<u8>> {
    let mut headers: Vec<Vec<u8>> = LOCALES
        .map(|(locale, _)| header_of(locale.as_bytes()))
        .to_vec();
    headers.extend([header_of(b"es"), header_of(b"")]);
    headers.push(header(&[&b"\x01"[..], b"n7", b"de"]));
    headers.push(header(&[&b"\x01"[..], b"n7", b"", b"de", b"de"]));
    headers
}

/// A record of one of the texts; some are damaged, put under another header, or
/// shorter than their stretch.
fn record(source: &mut Source, key: &[u8], headers: &[Vec<u8>]) -> DayRecord {
    let number = match source.below(4) {
        0 => source.below(headers.len()),
        _ => source.below(LOCALES.len()),
    };
    let stretch = [0, 1, 4, 16, 64][source.below(5)];
    let text = TEXTS[source.below(TEXTS.len())];
    let string = sealed(key, &headers[number], stretch, text.as_bytes());
    let (mut named, mut string) = (number, string);
    match source.below(12) {
        0 if !string.is_empty() => {
            let place = source.below(string.len());
            string = source.damaged(&string, place);
        }
        1 => named = source.below(headers.len()),
        2 => string.truncate((stretch as usize).saturating_sub(1)),
        _ => (),
    }
    (named as u16, stretch as u8, string)
}

#[test]
fn days_of_pauses() {
    let mut source = Source::new(121);
    let headers = headers();
    let (mut read, mut refused) = (0, 0);
    for turn in 0..600 {
        let key = source.key();
        let count = source.below(1 + turn % 40);
        let records: Vec<DayRecord> = (0..count)
            .map(|_| record(&mut source, &key, &headers))
            .collect();
        let line = report_in_rooms(&key, &day_file(&headers, &records)).unwrap();
        let figures: Vec<&str> = line.split(' ').collect();
        read += figures[0].parse::<u32>().unwrap();
        refused += figures[1].parse::<u32>().unwrap();
    }
    assert!(read > 1_000 && refused > 1_000, "{read} and {refused}");
}

/// Each way for a record to be refused, alone and beside a pause.
#[test]
fn all_refused() {
    let key = Source::new(122).key();
    let headers = headers();
    let [de, en] = [&headers[0], &headers[3]];
    let refused = [
        // 5, 7, and 7 under another header.
        (0, 16, vec![9; 15]),
        (0, 16, vec![9; 23]),
        (1, 16, sealed(&key, de, 16, b"1,204 s")),
        // 15: es, no locale, three items, five items.
        (4, 4, sealed(&key, &headers[4], 4, b"7 s")),
        (5, 4, sealed(&key, &headers[5], 4, b"7 s")),
        (6, 4, sealed(&key, &headers[6], 4, b"7 s")),
        (7, 4, sealed(&key, &headers[7], 4, b"7 s")),
        // 16: a comma under en, no text, no pause.
        (3, 4, sealed(&key, en, 4, b"1,204 s")),
        (0, 4, sealed(&key, de, 4, b"")),
        (0, 0, vec![]),
        (0, 4, sealed(&key, de, 4, b"no pause")),
    ];
    let pause = (0, 4, sealed(&key, de, 4, b"1,204 s"));
    for record in &refused {
        let alone = day_file(&headers, std::slice::from_ref(record));
        assert_eq!(report_in_rooms(&key, &alone).unwrap(), "0 1 0 0 0/1\n");
        for records in [
            [record.clone(), pause.clone()],
            [pause.clone(), record.clone()],
        ] {
            let line = report_in_rooms(&key, &day_file(&headers, &records)).unwrap();
            assert_eq!(line, "1 1 1204000 1204000 1204000/1\n");
        }
    }
    let line = report_in_rooms(&key, &day_file(&headers, &refused)).unwrap();
    assert_eq!(line, "0 11 0 0 0/1\n");
    // Under another key nothing opens.
    let other = Source::new(123).key();
    let line = report_in_rooms(&other, &day_file(&headers, &[pause.clone(), pause])).unwrap();
    assert_eq!(line, "0 2 0 0 0/1\n");
}

#[test]
fn days_without_records() {
    let key = Source::new(124).key();
    let none: [Vec<u8>; 0] = [];
    for file in [day_file(&none, &[]), day_file(&headers(), &[])] {
        assert_eq!(report_in_rooms(&key, &file).unwrap(), "0 0 0 0 0/1\n");
        assert_eq!(report_in_rooms(&key[1..], &file), Err(1));
    }
}

/// Means that are whole, that are not, and whose terms have common parts.
#[test]
fn means() {
    let key = Source::new(125).key();
    let header = header_of(b"en");
    for count in 1..=24_u64 {
        for first in 0..=30_u64 {
            // One pause of `first` microseconds, the others of one.
            let records: Vec<DayRecord> = (0..count)
                .map(|number| {
                    let pause = if number == 0 { first } else { 1 };
                    let text = format!("0.{pause:03} ms");
                    (0, 0, sealed(&key, &header, 0, text.as_bytes()))
                })
                .collect();
            let line = report(&key, &day_file(&[&header], &records)).unwrap();
            let (over, under) = line
                .trim_end()
                .rsplit_once(' ')
                .unwrap()
                .1
                .split_once('/')
                .unwrap();
            let [over, under] = [over, under].map(|term| term.parse::<u64>().unwrap());
            assert_eq!(over * count, (first + count - 1) * under);
            assert!((2..=under).all(|number| over % number > 0 || under % number > 0));
        }
    }
}

/// 9 comes before 1, and 1 before 6, whatever the key, the file and the output are.
#[test]
fn the_order_of_the_refusals() {
    let mut source = Source::new(126);
    let key = source.key();
    let headers = headers();
    let records: Vec<DayRecord> = (0..5)
        .map(|_| record(&mut source, &key, &headers))
        .collect();
    let file = day_file(&headers, &records);
    for length in (0..=100).filter(|&length| length != 48) {
        let key = source.bytes(length);
        assert_eq!(report_in_rooms(&key, &file), Err(1));
        for damaged in [&file[1..], &file[..file.len() - 1], &[]] {
            assert_eq!(report_in_rooms(&key, damaged), Err(9));
        }
    }
    assert_eq!(report_in_rooms(&key, &[0; 65_537]), Err(9));
    for place in 0..file.len() {
        let _ = report(&key, &source.damaged(&file, place));
    }
}

#[test]
fn every_room() {
    let mut source = Source::new(127);
    let key = source.key();
    let headers = headers();
    for count in [0, 1, 12] {
        let records: Vec<DayRecord> = (0..count)
            .map(|_| record(&mut source, &key, &headers))
            .collect();
        let file = day_file(&headers, &records);
        let length = report(&key, &file).unwrap().len();
        for room in 0..length + 20 {
            let expected = if room < length { 6 } else { 0 };
            assert_eq!(line(&key, &file, room).number, expected, "{room}");
        }
    }
}
