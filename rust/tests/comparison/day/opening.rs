//! Records of a day file, opened by their number.

use jarrovento::{Day, Key};
use support::{day_file, header, DayRecord, Source};

use super::both::open;
use crate::both;

/// A sealed text, and the record that holds it.
struct Sealed {
    text: Vec<u8>,
    record: DayRecord,
}

/// Texts of several lengths and stretches, under the headers in turn.
fn sealed(source: &mut Source, key: &[u8], headers: &[Vec<u8>]) -> Vec<Sealed> {
    let lengths = [0, 0, 1, 7, 15, 16, 31, 32, 40, 100, 1_000];
    let stretches = [0, 4, 16, 64, 1];
    let mut sealed = Vec::new();
    for (turn, length) in lengths.into_iter().enumerate() {
        let (named, stretch) = (
            turn * 2 % headers.len(),
            stretches[turn % stretches.len()] as u64,
        );
        let text = source.bytes(length);
        let room = length + stretch as usize;
        let string = both::seal(key, &headers[named], stretch, &text, room);
        let record = (named as u16, stretch as u8, string.part().to_vec());
        sealed.push(Sealed { text, record });
    }
    sealed
}

fn headers(source: &mut Source) -> Vec<Vec<u8>> {
    [1, 8, 2]
        .map(|length| header(&[source.bytes(length), source.bytes(2)]))
        .to_vec()
}

fn file_of(headers: &[Vec<u8>], sealed: &[Sealed]) -> Vec<u8> {
    let records: Vec<DayRecord> = sealed.iter().map(|one| one.record.clone()).collect();
    day_file(headers, &records)
}

/// Each record opens to its text, by its number and out of the list of records.
#[test]
fn records_open_to_their_texts() {
    let mut source = Source::new(101);
    let key = source.key();
    let headers = headers(&mut source);
    let sealed = sealed(&mut source, &key, &headers);
    let file = file_of(&headers, &sealed);
    let mut places = vec![0; Day::places(file.len())];
    let day = Day::read(&file, &mut places).unwrap();
    let of_type = Key::try_from(&key[..]).unwrap();
    for (number, (one, record)) in sealed.iter().zip(&day).enumerate() {
        let whole = one.record.2.len();
        for room in [whole, whole + 5] {
            let opened = open(&key, &file, number as u64, room);
            assert_eq!((opened.number, opened.part()), (0, &one.text[..]));
        }
        let mut out = vec![0; whole];
        assert_eq!(record.open(&of_type, &mut out).unwrap(), one.text);
        let opened = of_type.open_record(&file, number as u64, &mut out);
        assert_eq!(opened.unwrap(), one.text);
    }
}

/// The answers and bytes are those of opening with the record's parts, whatever the
/// key, the room and the record: 1, 5, 6, 7 and 0.
#[test]
fn as_document_01_opens() {
    let mut source = Source::new(102);
    let key = source.key();
    let headers = headers(&mut source);
    let mut sealed = sealed(&mut source, &key, &headers);
    for length in [0, 3, 15] {
        // Shorter than the stretch.
        let record = (1, 16, source.bytes(length));
        let text = Vec::new();
        sealed.push(Sealed { text, record });
    }
    let file = file_of(&headers, &sealed);
    let keys = [key.clone(), source.key(), key[1..].to_vec(), vec![]];
    let mut seen = [false; 8];
    for key in &keys {
        for (number, one) in sealed.iter().enumerate() {
            let (named, stretch, string) = &one.record;
            let header = &headers[usize::from(*named)];
            for room in [0, string.len().saturating_sub(1), string.len(), 1_100] {
                let plain = both::open(key, header, u64::from(*stretch), string, room);
                let opened = open(key, &file, number as u64, room);
                assert_eq!(opened.number, plain.number);
                assert_eq!(opened.part(), plain.part());
                seen[opened.number as usize] = true;
            }
        }
    }
    assert_eq!(seen, [true, true, false, false, false, true, true, true]);
}

/// 9 comes before document 01's numbers: a record that is not there, and a file that
/// does not read, whatever else is wrong.
#[test]
fn refusal_9_comes_first() {
    let mut source = Source::new(103);
    let key = source.key();
    let headers = headers(&mut source);
    let sealed = sealed(&mut source, &key, &headers);
    let file = file_of(&headers, &sealed);
    let count = sealed.len() as u64;
    for key in [&key[..], &key[1..], &[]] {
        for room in [0, 2_000] {
            for number in [
                count,
                count + 1,
                count + 256,
                1 << 16,
                1 << 32,
                (1 << 32) + 1,
                1 << 62,
                1 << 63,
                u64::MAX - 1,
                u64::MAX,
            ] {
                assert_eq!(open(key, &file, number, room).number, 9);
            }
            for cut in [0, 1, 11, 12, file.len() - 4, file.len() - 1] {
                assert_eq!(open(key, &file[..cut], 0, room).number, 9);
            }
            assert_eq!(open(key, &[0; 12], 0, room).number, 9);
        }
    }
}

/// A damaged record opens no more, and where another record is outside the layout no
/// record does.
#[test]
fn damaged_files() {
    let mut source = Source::new(104);
    let key = source.key();
    let headers = headers(&mut source);
    let records: Vec<DayRecord> = (0..3)
        .map(|number: u16| {
            let sealed = both::seal(&key, &headers[usize::from(number)], 16, b"1,204 s", 23);
            (number, 16, sealed.part().to_vec())
        })
        .collect();
    let file = day_file(&headers, &records);
    let mut seen = [0; 10];
    for place in 0..file.len() {
        for _ in 0..4 {
            let damaged = source.damaged(&file, place);
            for number in 0..3 {
                seen[open(&key, &damaged, number, 64).number as usize] += 1;
            }
        }
    }
    // Most damage is to the layout. In a sealed string, a header or a stretch it is one
    // record's, and the two others open.
    for number in [0, 7, 9] {
        assert!(seen[number] > 100, "{number} came {} times", seen[number]);
    }
}
