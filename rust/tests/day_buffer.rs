//! Clearing and appending (request E13) by the library, held to its own calls of request
//! E1: opening by number, reading and writing.

use jarrovento::{Day, DayBuffer, DayWriter, Key, Refusal, LONGEST_DAY};
use support::{header, pattern, Source};

type Writer = DayWriter<Vec<u8>, Vec<u64>>;

/// What opening a record hands back, and all that it leaves in its output.
type Opened = (Result<Vec<u8>, Refusal>, Vec<u8>);

/// A record with the header that it names.
#[derive(Clone, Debug, PartialEq)]
struct Entry {
    header: Vec<u8>,
    stretch: u64,
    sealed: Vec<u8>,
}

fn key(source: &mut Source) -> Key {
    Key::try_from(&source.key()[..]).unwrap()
}

/// Some headers, no two of them equal.
fn headers(source: &mut Source) -> Vec<Vec<u8>> {
    let count = 1 + source.below(6);
    (0..count)
        .map(|number| header(&[vec![number as u8], source.bytes(number)]))
        .collect()
}

/// A sealed text; now and then with a byte damaged, or cut shorter than its stretch.
fn sealed(source: &mut Source, key: &Key, header: &[u8], stretch: u64) -> Vec<u8> {
    let length = source.below(60);
    let text = source.bytes(length);
    let mut out = [0; 200];
    let sealed = key.seal(header, stretch, &text, &mut out).unwrap().to_vec();
    match source.below(8) {
        0 if !sealed.is_empty() => {
            let place = source.below(sealed.len());
            source.damaged(&sealed, place)
        }
        1 => sealed[..source.below(sealed.len() + 1)].to_vec(),
        _ => sealed,
    }
}

/// A day of some records, as it is written: headers that several name, and some that
/// none does.
fn written_day(source: &mut Source, key: &Key, out: &mut [u8]) -> usize {
    let headers = headers(source);
    let mut writer = Writer::new();
    for header in &headers {
        writer.header(header);
    }
    for _ in 0..source.below(12) {
        let number = source.below(headers.len());
        let stretch = source.below(65) as u64;
        let sealed = sealed(source, key, &headers[number], stretch);
        writer.record(number as u64, stretch, &sealed);
    }
    writer.write(out).unwrap().len()
}

fn entries(file: &[u8]) -> Vec<Entry> {
    let mut places = vec![0; Day::places(file.len())];
    let day = Day::read(file, &mut places).unwrap();
    let entry = |record: jarrovento::Record| Entry {
        header: record.header.to_vec(),
        stretch: record.stretch,
        sealed: record.sealed.to_vec(),
    };
    day.records().map(entry).collect()
}

/// Each record opened by its number.
fn opened(key: &Key, file: &[u8]) -> Vec<Opened> {
    let count = Day::count(file).unwrap() as u64;
    let open = |number| {
        let mut out = pattern(200);
        let text = key.open_record(file, number, &mut out);
        (text.map(|text| text.to_vec()), out)
    };
    (0..count).map(open).collect()
}

fn some_below(source: &mut Source, count: usize) -> Vec<u64> {
    (0..count as u64).filter(|_| source.below(3) == 0).collect()
}

/// The items whose number is not on the list.
fn kept<T: Clone>(items: &[T], dropped: &[u64]) -> Vec<T> {
    let numbered = (0..).zip(items);
    let staying = numbered.filter(|(number, _)| !dropped.contains(number));
    staying.map(|(_, item)| item.clone()).collect()
}

/// In their order, with their headers, stretches and strings; and opening says the same,
/// of those that open and of those that do not.
#[test]
fn kept_records_open_as_before() {
    let mut source = Source::new(141);
    let (mut texts, mut refusals) = (0, 0);
    for _ in 0..400 {
        let key = key(&mut source);
        let mut buffer = pattern(3_000);
        let length = written_day(&mut source, &key, &mut buffer);
        let (before, opening) = (entries(&buffer[..length]), opened(&key, &buffer[..length]));
        let dropped = some_below(&mut source, before.len());

        let mut day = DayBuffer::read(&mut buffer, length).unwrap();
        let file = day.clear(&dropped).unwrap();
        assert_eq!(entries(file), kept(&before, &dropped));
        let after = opened(&key, file);
        assert!(after == kept(&opening, &dropped));
        texts += after.iter().filter(|(text, _)| text.is_ok()).count();
        refusals += after.iter().filter(|(text, _)| text.is_err()).count();
    }
    assert!(texts > 500 && refusals > 100, "{texts} and {refusals}");
}

/// The cleared file is what is written of the records that are kept and of the headers
/// that these name, in the order in which the file has them. Behind it zeros, and what
/// was behind the file.
#[test]
fn the_cleared_file_is_what_is_written() {
    let mut source = Source::new(142);
    let key = key(&mut source);
    for _ in 0..400 {
        let mut buffer = pattern(3_000);
        let length = written_day(&mut source, &key, &mut buffer);
        let file = buffer[..length].to_vec();
        let mut places = vec![0; Day::places(length)];
        let day = Day::read(&file, &mut places).unwrap();
        let dropped = some_below(&mut source, day.len());
        let records = kept(&day.records().collect::<Vec<_>>(), &dropped);

        let mut writer = Writer::new();
        let numbers: Vec<Option<u64>> = (0..)
            .zip(day.headers())
            .map(|(number, header)| {
                let named = records.iter().any(|record| record.header_number == number);
                named.then(|| writer.header(header))
            })
            .collect();
        for record in records {
            let number = numbers[record.header_number].unwrap();
            writer.record(number, record.stretch, record.sealed);
        }
        let mut expected = pattern(3_000);
        expected[..length].fill(0);
        let written = writer.write(&mut expected).unwrap().len();

        let mut changed = DayBuffer::read(&mut buffer, length).unwrap();
        assert_eq!(changed.clear(&dropped).unwrap().len(), written);
        assert!(buffer == expected);
    }
}

#[test]
fn clearing_again_changes_nothing() {
    let mut source = Source::new(143);
    let key = key(&mut source);
    for _ in 0..400 {
        let mut buffer = pattern(3_000);
        let length = written_day(&mut source, &key, &mut buffer);
        let mut day = DayBuffer::read(&mut buffer, length).unwrap();
        let count = Day::count(day.file()).unwrap();
        let dropped = some_below(&mut source, count);
        let length = day.clear(&dropped).unwrap().len();

        let before = buffer.clone();
        let mut day = DayBuffer::read(&mut buffer, length).unwrap();
        assert_eq!(day.clear(&[]).unwrap().len(), length);
        assert!(buffer == before);
    }
}

/// It is the last record then, and all others open as before.
#[test]
fn what_was_appended_opens_as_its_text() {
    let mut source = Source::new(144);
    for _ in 0..60 {
        let key = key(&mut source);
        let mut buffer = vec![0; LONGEST_DAY];
        let length = written_day(&mut source, &key, &mut buffer);
        let mut day = DayBuffer::read(&mut buffer, length).unwrap();
        for _ in 0..10 {
            let before = opened(&key, day.file());
            let mut places = vec![0; Day::places(day.file().len())];
            let there: Vec<Vec<u8>> = {
                let day = day.day(&mut places).unwrap();
                day.headers().map(<[u8]>::to_vec).collect()
            };
            // A header that is there, or one more.
            let number = source.below(there.len() + 1);
            let new = header(&[source.bytes(9)]);
            let under = there.get(number).unwrap_or(&new);
            let (stretch, length) = (source.below(65) as u64, source.below(100));
            let text = source.bytes(length);
            let mut out = [0; 200];
            let sealed = key.seal(under, stretch, &text, &mut out).unwrap();
            let file = day.append(number as u64, &new, stretch, sealed).unwrap();

            let mut after = opened(&key, file);
            assert_eq!(after.pop().unwrap().0, Ok(text));
            assert!(after == before);
            assert_eq!(entries(file).last().unwrap().header, *under);
        }
    }
}

/// An append fits exactly where the day with the record can be written, and is then the
/// same file.
#[test]
fn an_append_fits_where_the_written_day_does() {
    let mut source = Source::new(145);
    let (mut fitting, mut not) = (0, 0);
    for _ in 0..2_000 {
        let headers = headers(&mut source);
        let there = source.below(headers.len());
        let mut writer = Writer::new();
        for header in &headers[..there] {
            writer.header(header);
        }
        let mut buffer = pattern(200);
        let length = writer.write(&mut buffer).unwrap().len();
        let room = length + source.below(60);
        let (sealed, number) = (source.below(40), source.below(there + 1));
        let sealed = source.bytes(sealed);
        if number == there {
            writer.header(&headers[there]);
        }
        writer.record(number as u64, 4, &sealed);
        let mut expected = buffer.clone();
        let written = writer.write(&mut expected[..room]).map(|file| file.len());

        let mut day = DayBuffer::read(&mut buffer[..room], length).unwrap();
        let grown = day.append(number as u64, &headers[there], 4, &sealed);
        assert_eq!(grown.map(<[u8]>::len), written);
        assert!(buffer == expected);
        match written {
            Ok(_) => fitting += 1,
            Err(refusal) => {
                assert_eq!(refusal, Refusal::OutputTooShort);
                not += 1;
            }
        }
    }
    assert!(fitting > 500 && not > 500, "{fitting} and {not}");
}

/// A record can take the bytes that were freed, and the buffer is then as full as it was.
#[test]
fn freed_bytes_take_new_records() {
    let mut buffer = [0; 100];
    let mut day = DayBuffer::empty(&mut buffer).unwrap();
    day.append(0, &[1, 0, 0], 0, &[1; 20]).unwrap();
    let full = day.append(0, &[], 0, &[2; 41]).unwrap().to_vec();
    assert_eq!(full.len(), 100);
    assert_eq!(day.append(0, &[], 0, &[]), Err(Refusal::OutputTooShort));
    day.clear(&[0]).unwrap();
    assert_eq!(
        day.append(0, &[], 0, &[3; 21]),
        Err(Refusal::OutputTooShort)
    );
    assert_eq!(day.append(0, &[], 0, &[3; 20]).unwrap().len(), 100);
    assert_eq!(day.clear(&[0, 1]).unwrap(), [0; 12]);
    assert_eq!(buffer, [0; 100]);
}

/// After a refusal the buffer, and the file's length, are what they were.
#[test]
fn refusals_change_nothing() {
    let mut source = Source::new(146);
    let key = key(&mut source);
    let mut buffer = pattern(3_000);
    let length = written_day(&mut source, &key, &mut buffer);
    let before = buffer.clone();
    let records = Day::count(&buffer[..length]).unwrap() as u64;
    assert!(records > 1);
    let mut day = DayBuffer::read(&mut buffer, length).unwrap();
    for wrong in [&[records][..], &[0, 0], &[1, 0], &[0, u64::MAX]] {
        assert_eq!(day.clear(wrong), Err(Refusal::WrongList));
        assert_eq!(day.file(), &before[..length]);
    }
    for (number, header, stretch, long, refusal) in [
        (9, &[1, 0, 0][..], 4, 0, Refusal::DayUnreadable),
        (u64::MAX, &[1, 0, 0], 4, 0, Refusal::DayUnreadable),
        (0, &[1, 0, 0], 65, 0, Refusal::DayUnreadable),
        (0, &[], 4, 3_000, Refusal::OutputTooShort),
    ] {
        let sealed = vec![0; long];
        assert_eq!(day.append(number, header, stretch, &sealed), Err(refusal));
        assert_eq!(day.file(), &before[..length]);
    }
    assert!(buffer == before);
    for length in [0, length - 1, length + 1, 3_001, usize::MAX] {
        let read = DayBuffer::read(&mut buffer, length);
        assert_eq!(read.unwrap_err(), Refusal::DayUnreadable);
    }
    let mut short = [7; 11];
    let empty = DayBuffer::empty(&mut short);
    assert_eq!(empty.unwrap_err(), Refusal::OutputTooShort);
    assert_eq!(short, [7; 11]);
}

#[test]
fn shown_without_its_bytes() {
    let mut buffer = [0; 20];
    let day = DayBuffer::empty(&mut buffer).unwrap();
    let shown = "DayBuffer { length: 12, buffer_length: 20, .. }";
    assert_eq!(format!("{day:?}"), shown);
}
