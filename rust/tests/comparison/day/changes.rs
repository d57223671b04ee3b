//! Long runs of clearings and appends in one buffer, and every small case.

use second::day_file;
use support::{day_file as file_of, header, Source};

use super::both::reads;
use super::changed::{Buffer, New};
use super::reading::short_header;

/// How many headers and records the file has.
fn counts(file: &[u8]) -> (u64, u64) {
    let day = day_file::read(file).expect("the file of a run reads");
    (day.headers.len() as u64, day.records.len() as u64)
}

/// Some of the numbers below the count, each with a chance of one in `rare`.
fn some_of(source: &mut Source, count: u64, rare: usize) -> Vec<u64> {
    (0..count).filter(|_| source.below(rare) == 0).collect()
}

/// Numbers that are none of so many: the next, and such that would be one if they were
/// cut to 8, 16 or 32 bits.
fn too_large(source: &mut Source, count: u64) -> u64 {
    let far = [1 << 8, 1 << 16, 1 << 32, 1 << 63, u64::MAX - count];
    count + [0, 1, far[source.below(far.len())]][source.below(3)]
}

/// A list that is not strictly rising, or that names a record that is not there.
fn wrong_list(source: &mut Source, records: u64) -> Vec<u64> {
    let mut list = some_of(source, records, 2);
    let place = source.below(list.len() + 1);
    match (source.below(3), list.get(place).copied()) {
        (0, Some(number)) => list.insert(place, number),
        (1, Some(_)) if list.len() > 1 => list.reverse(),
        // Last, where it rises, and elsewhere.
        (2, _) => list.insert(place, too_large(source, records)),
        _ => list.push(too_large(source, records)),
    }
    list
}

/// A record under a header that is there, or under a new one.
fn right_record(source: &mut Source, headers: u64, longest: usize) -> New {
    let length = source.below(longest + 1);
    let number = match source.below(3) {
        0 => headers,
        _ => source.below(headers as usize + 1) as u64,
    };
    // Where the number is that of a header, any bytes.
    let header = match number == headers || source.below(2) == 0 {
        true => short_header(source),
        false => source.bytes(3),
    };
    New {
        number,
        header,
        stretch: source.below(65) as u64,
        sealed: source.bytes(length),
    }
}

/// A record that is outside the layout, in one of three ways.
fn wrong_record(source: &mut Source, headers: u64) -> New {
    let mut new = right_record(source, headers, 5);
    match source.below(3) {
        0 => new.number = too_large(source, headers + 1),
        1 => {
            new.number = headers;
            let bad: [&[u8]; 6] = [&[], &[0], &[17], &[1, 0], &[1, 0, 1], &[1, 0, 0, 0]];
            new.header = bad[source.below(bad.len())].to_vec();
        }
        _ => new.stretch = too_large(source, 65),
    }
    new
}

/// How often each answer came.
#[derive(Default)]
struct Seen {
    clearing: [usize; 18],
    appending: [usize; 18],
}

impl Seen {
    #[track_caller]
    fn clear(&mut self, buffer: &mut Buffer, dropped: &[u64]) -> u32 {
        let number = buffer.clear(dropped);
        self.clearing[number as usize] += 1;
        number
    }

    #[track_caller]
    fn append(&mut self, buffer: &mut Buffer, new: &New) -> u32 {
        let number = buffer.append(new);
        self.appending[number as usize] += 1;
        number
    }

    #[track_caller]
    fn at_least(&self, times: usize) {
        for number in [0, 9, 17] {
            let came = self.clearing[number];
            assert!(came >= times, "clearing: {number} came {came} times");
        }
        for number in [0, 6, 9] {
            let came = self.appending[number];
            assert!(came >= times, "appending: {number} came {came} times");
        }
    }
}

/// One step of a run: a change, good or bad, and what it is expected to answer.
fn step(source: &mut Source, buffer: &mut Buffer, longest: usize, seen: &mut Seen) {
    let (headers, records) = counts(buffer.file());
    match source.below(16) {
        0..=6 => {
            seen.append(buffer, &right_record(source, headers, longest));
        }
        7 => filled(source, buffer, seen),
        8 => assert_eq!(seen.append(buffer, &wrong_record(source, headers)), 9),
        9..=10 => {
            let rare = [1, 2, 2, 8, 8, 40][source.below(6)];
            let dropped = some_of(source, records, rare);
            assert_eq!(seen.clear(buffer, &dropped), 0);
            cleared_again(buffer, seen);
        }
        11 => assert_eq!(seen.clear(buffer, &[]), 0),
        12 => assert_eq!(seen.clear(buffer, &wrong_list(source, records)), 17),
        13 => of_another_length(source, buffer, seen),
        _ => damaged(source, buffer, seen),
    }
}

/// Clearing again with an empty list changes nothing.
fn cleared_again(buffer: &mut Buffer, seen: &mut Seen) {
    let before = buffer.clone();
    assert_eq!(seen.clear(buffer, &[]), 0);
    assert_eq!(buffer.size, before.size);
    assert!(buffer.bytes() == before.bytes());
}

/// A record that is a byte too long for the buffer or for a file, and then the longest
/// that fits.
fn filled(source: &mut Source, buffer: &mut Buffer, seen: &mut Seen) {
    let room = buffer.bytes().len().min(65_536) - buffer.size as usize;
    let (headers, _) = counts(buffer.file());
    let mut new = right_record(source, headers, 0);
    let parts = match new.number == headers {
        true => 11 + 2 + new.header.len(),
        false => 11,
    };
    let Some(length) = room.checked_sub(parts) else {
        assert_eq!(seen.append(buffer, &new), 6);
        return;
    };
    new.sealed = source.bytes(length + 1);
    assert_eq!(seen.append(buffer, &new), 6);
    new.sealed.pop();
    if source.below(2) == 0 {
        assert_eq!(seen.append(buffer, &new), 0);
        assert_eq!(buffer.size, buffer.bytes().len().min(65_536) as u64);
    }
}

/// Changes with a length that is not the file's. It is left as it was.
fn of_another_length(source: &mut Source, buffer: &mut Buffer, seen: &mut Seen) {
    let size = buffer.size;
    let room = buffer.bytes().len() as u64;
    let lengths = [
        0,
        size - 1,
        // Past the buffer, or into what stands behind the file.
        size + 1,
        room + 1,
        size + (1 << 16),
        size + (1 << 32),
        u64::MAX,
    ];
    buffer.size = lengths[source.below(lengths.len())];
    assert_eq!(seen.clear(buffer, &[]), 9);
    assert_eq!(seen.append(buffer, &New::default()), 9);
    buffer.size = size;
}

/// Changes to a file with one byte damaged. Where it still reads it goes on with it, and
/// otherwise it is mended.
fn damaged(source: &mut Source, buffer: &mut Buffer, seen: &mut Seen) {
    let place = source.below(buffer.size as usize);
    let right = *buffer.byte(place);
    *buffer.byte(place) ^= 1 + source.below(255) as u8;
    let (headers, records) = (source.below(5) as u64, source.below(5) as u64);
    let new = right_record(source, headers, 5);
    seen.append(buffer, &new);
    let dropped = some_of(source, records, 2);
    seen.clear(buffer, &dropped);
    if day_file::read(buffer.file()).is_none() {
        *buffer.byte(place) = right;
    }
}

#[test]
fn long_runs_in_small_buffers() {
    let mut source = Source::new(131);
    let mut seen = Seen::default();
    for (room, longest) in [(12, 3), (30, 5), (60, 9), (120, 12), (300, 20), (2_000, 40)] {
        let mut buffer = Buffer::of(&[0; 12], room);
        for turn in 0..2_500 {
            step(&mut source, &mut buffer, longest, &mut seen);
            if turn % 50 == 0 {
                assert!(reads(buffer.file()));
            }
        }
    }
    seen.at_least(500);
}

/// The buffer is as long as a file can be, or a little less, or more.
#[test]
fn long_runs_in_large_buffers() {
    let mut source = Source::new(132);
    let mut seen = Seen::default();
    for (room, longest) in [
        (65_535, 400),
        (65_536, 4_000),
        (65_700, 1_000),
        (65_536, 20),
    ] {
        let mut buffer = Buffer::of(&[0; 12], room);
        for _ in 0..250 {
            step(&mut source, &mut buffer, longest, &mut seen);
        }
    }
    seen.at_least(20);
}

/// Four headers and four records: every way to name them, and every list of what goes.
#[test]
fn every_small_day() {
    let headers: Vec<Vec<u8>> = (0..4).map(|length| header(&[vec![7; length]])).collect();
    for naming in 0..256_u16 {
        let records: Vec<_> = (0..4)
            .map(|record| (naming >> (2 * record) & 3, 4, vec![9; record]))
            .collect();
        let file = file_of(&headers, &records);
        for kept in 0..16_u64 {
            let dropped: Vec<u64> = (0..4).filter(|record| kept >> record & 1 == 0).collect();
            let mut buffer = Buffer::of(&file, file.len() + 3);
            assert_eq!(buffer.clear(&dropped), 0);
            assert_eq!(counts(buffer.file()).1, u64::from(kept.count_ones()));
        }
    }
}

/// Every list of up to three numbers from 0 to 3, where there are three records: those
/// that rise strictly and stay below 3 are eight.
#[test]
fn every_small_list() {
    let records = [(0, 4, vec![1]), (0, 0, vec![]), (0, 64, vec![2, 3])];
    let file = file_of(&[header(&[[7]])], &records);
    let mut right = 0;
    for length in 0..=3 {
        for digits in 0..1_u64 << (2 * length) {
            let dropped: Vec<u64> = (0..length).map(|place| digits >> (2 * place) & 3).collect();
            let mut buffer = Buffer::of(&file, file.len());
            right += usize::from(buffer.clear(&dropped) == 0);
        }
    }
    assert_eq!(right, 8);
}

/// The order of the answers: 9 before 17, and 9 before 6.
#[test]
fn refusal_9_comes_first() {
    let file = file_of(&[header(&[[7]])], &[(0, 4, vec![1])]);
    let mut buffer = Buffer::of(&file, file.len());
    let too_long = |number, header: &[u8], stretch| New {
        number,
        header: header.to_vec(),
        stretch,
        sealed: vec![9; 70_000],
    };
    assert_eq!(buffer.clear(&[1]), 17);
    assert_eq!(buffer.append(&too_long(0, &[], 64)), 6);
    assert_eq!(buffer.append(&too_long(1, &[1, 0, 0], 64)), 6);
    assert_eq!(buffer.append(&too_long(0, &[], 65)), 9);
    assert_eq!(buffer.append(&too_long(1, &[], 64)), 9);
    assert_eq!(buffer.append(&too_long(2, &[1, 0, 0], 64)), 9);
    buffer.size -= 1;
    assert_eq!(buffer.clear(&[1]), 9);
    assert_eq!(buffer.append(&too_long(0, &[], 64)), 9);
}
