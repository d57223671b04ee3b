//! Days that are written: the file reads back the same, in rooms of every length.

use support::{day_file, header, Source};

use super::both::{reads, write, Owned};
use super::reading::parts;

#[test]
fn what_is_written_reads_back() {
    let mut source = Source::new(91);
    for longest in [0, 1, 20, 300] {
        for _ in 0..200 {
            let (headers, records) = parts(&mut source, longest);
            let mut day = Owned::default();
            for header in &headers {
                day.header(header);
            }
            for (header, stretch, sealed) in &records {
                day.record(u64::from(*header), u64::from(*stretch), sealed);
            }
            let file = day_file(&headers, &records);
            let written = write(day.lists(), day.length() + source.below(3));
            assert_eq!((written.number, written.part()), (0, &file[..]));
            assert!(reads(&file));
        }
    }
}

/// Out of a file's own parts the same file is written again.
#[test]
fn what_reads_is_written_again() {
    let mut source = Source::new(92);
    for _ in 0..100 {
        let (headers, records) = parts(&mut source, 40);
        let file = day_file(&headers, &records);
        let mut places = vec![0; jarrovento::Day::places(file.len())];
        let day = jarrovento::Day::read(&file, &mut places).unwrap();
        let mut writer = jarrovento::DayWriter::<Vec<u8>, Vec<u64>>::new();
        for (number, header) in day.headers().enumerate() {
            assert_eq!(writer.header(header), number as u64);
        }
        for record in &day {
            writer.record(record.header_number as u64, record.stretch, record.sealed);
        }
        let written = write(writer.lists(), file.len());
        assert_eq!((written.number, written.part()), (0, &file[..]));
    }
}

#[test]
fn every_room() {
    let mut source = Source::new(93);
    let mut day = Owned::default();
    day.header(&header(&[&[7][..], b"n7"]));
    day.header(&header(&[[8]]));
    day.record(1, 4, &source.bytes(9));
    day.record(0, 0, &[]);
    day.record(1, 64, &source.bytes(20));
    for day in [day, Owned::default()] {
        let length = day.length();
        for room in 0..length + 20 {
            let expected = if room < length { 6 } else { 0 };
            assert_eq!(write(day.lists(), room).number, expected, "{room}");
        }
    }
}

/// Files of 65,535 to 65,538 bytes: of the shortest records, of the shortest headers,
/// of one long record.
#[test]
fn lengths_around_65536() {
    let mut records = Owned::default();
    records.header(&header(&[[7; 2]]));
    let mut headers = Owned::default();
    let mut long = Owned::default();
    long.header(&header(&[[7; 2]]));
    for _ in 0..5_955 {
        records.record(0, 0, &[]);
    }
    for _ in 0..13_102 {
        headers.header(&[1, 0, 0]);
    }
    for day in [records, headers, long] {
        for length in 65_535..=65_538 {
            let mut day = day.clone();
            let left = length - day.length() - 11;
            day.record(0, 64, &vec![9; left]);
            assert_eq!(day.length(), length);
            for room in [0, 65_535, 65_536, 65_540] {
                let expected = match length {
                    65_537.. => 4,
                    _ if room < length => 6,
                    _ => 0,
                };
                let written = write(day.lists(), room);
                assert_eq!(written.number, expected, "{length} {room}");
                assert!(written.number > 0 || reads(written.part()));
            }
        }
    }
}
