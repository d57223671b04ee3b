//! Full files, long records, and sealed strings around the length of the longest pause
//! with the longest stretch.

use jarrovento::LONGEST_REPORT;
use support::{day_file, DayRecord, Source};

use super::both::{header_of, report, LOCALES};
use super::reports::sealed;

const LONGEST: u64 = 999_999_999_999_000;

/// As many records of this text as a file holds, under each locale.
fn full(text: &str, stretch: u64, expected: impl Fn(u64) -> String) {
    let key = Source::new(131).key();
    for (locale, mark) in LOCALES {
        let header = header_of(locale.as_bytes());
        let text = text.replace(',', mark);
        let string = sealed(&key, &header, stretch, text.as_bytes());
        // Three counts, the header after its length, each record with its index entry.
        let count = (65_536 - 12 - 2 - header.len()) / (11 + string.len());
        let records: Vec<DayRecord> = vec![(0, stretch as u8, string); count];
        let file = day_file(&[header], &records);
        let line = report(&key, &file).unwrap();
        assert_eq!(line, expected(count as u64), "{locale}");
        assert!(line.len() <= LONGEST_REPORT);
        let more: Vec<DayRecord> = [&records[..], &records[..1]].concat();
        assert_eq!(
            report(&key, &day_file(&[header_of(locale.as_bytes())], &more)),
            Err(9)
        );
    }
}

#[test]
fn full_files_of_the_longest_pauses() {
    full("999999999,999 s", 0, |count| {
        assert_eq!(count, 2_519);
        format!("{count} 0 {} {LONGEST} {LONGEST}/1\n", count * LONGEST)
    });
    full("999999999,999 ms", 64, |count| {
        let longest = LONGEST / 1_000;
        format!("{count} 0 {} {longest} {longest}/1\n", count * longest)
    });
}

#[test]
fn full_files_of_the_shortest_pauses() {
    full("1 s", 0, |count| {
        assert_eq!(count, 4_679);
        format!("{count} 0 {} 1000000 1000000/1\n", count * 1_000_000)
    });
}

/// The most records that a file holds: 5,956 without bytes, all of them refused.
#[test]
fn the_most_records() {
    let key = Source::new(132).key();
    let records: Vec<DayRecord> = vec![(0, 0, vec![]); 5_956];
    let file = day_file(&[[1, 0, 0]], &records);
    assert_eq!(file.len(), 65_533);
    assert_eq!(report(&key, &file).unwrap(), "0 5956 0 0 0/1\n");
    full("", 0, |count| format!("0 {count} 0 0 0/1\n"));
}

/// A mean over many whose terms have nothing in common: every figure is long.
#[test]
fn a_long_line() {
    let key = Source::new(133).key();
    let header = header_of(b"de");
    let [one, other] = ["999999999,999 s", "0,001 ms"]
        .map(|text| (0, 0, sealed(&key, &header, 0, text.as_bytes())));
    let mut records: Vec<DayRecord> = vec![one; 2_500];
    records.extend(vec![other; 3]);
    let sum = 2_500 * LONGEST + 3;
    let expected = format!("2503 0 {sum} {LONGEST} {sum}/2503\n");
    assert_eq!(
        report(&key, &day_file(&[header], &records)).unwrap(),
        expected
    );
}

/// Sealed strings of every length up to 100, with every stretch: texts of digits, of
/// which none is a pause, and pauses filled with zeros in front.
#[test]
fn every_length_and_stretch() {
    let key = Source::new(134).key();
    let header = header_of(b"it");
    for stretch in [0, 1, 4, 15, 16, 17, 32, 48, 63, 64] {
        let mut records: Vec<DayRecord> = Vec::new();
        for length in 0..=100 - stretch as usize {
            let digits = vec![b'7'; length];
            records.push((0, stretch as u8, sealed(&key, &header, stretch, &digits)));
        }
        let refused = records.len();
        for length in 3..=9 {
            let text = format!("{:0>length$},25 s", 7);
            let string = sealed(&key, &header, stretch, text.as_bytes());
            records.push((0, stretch as u8, string));
        }
        let line = report(&key, &day_file(&[&header], &records)).unwrap();
        let expected = format!("7 {refused} 50750000 7250000 7250000/1\n");
        assert_eq!(line, expected, "{stretch}");
    }
}

/// Long records between pauses: they are refused, whether they open or not.
#[test]
fn long_records() {
    let mut source = Source::new(135);
    let key = source.key();
    let header = header_of(b"fr");
    let pause = (0, 4, sealed(&key, &header, 4, b"1,5 ms"));
    for length in [64, 76, 77, 80, 81, 1_000, 30_000] {
        let text = source.bytes(length);
        let opens = (0, 4, sealed(&key, &header, 4, &text));
        let fails = (0, 4, source.bytes(length + 4));
        let records = [pause.clone(), opens, fails, pause.clone()];
        let line = report(&key, &day_file(&[&header], &records)).unwrap();
        assert_eq!(line, "2 2 3000 1500 1500/1\n");
    }
}
