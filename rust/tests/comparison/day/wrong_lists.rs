//! Lists that are outside the layout or do not fit each other: 9, before 4 and 6.

use support::{header, Source};

use super::both::{write, Owned};

/// Two headers and three records.
fn right() -> Owned {
    let mut day = Owned::default();
    day.header(&header(&[&[7][..], b"n7"]));
    day.header(&header(&[[8]]));
    day.record(1, 4, &[9; 9]);
    day.record(0, 0, &[]);
    day.record(1, 64, &[9; 20]);
    day
}

/// The same with a fourth record, so long that the file is above 65,536 bytes.
fn too_long() -> Owned {
    let mut day = right();
    day.record(0, 16, &[9; 65_536]);
    day
}

/// Holds the writer to 9 with a change to the lists, in a room that is long enough and
/// in none, where the file would be short and where it would be too long.
#[track_caller]
fn refused(change: impl Fn(&mut Owned)) {
    for (mut day, before) in [(right(), 0), (too_long(), 4)] {
        assert_eq!(write(day.lists(), 200).number, before);
        change(&mut day);
        for room in [0, 200, 70_000] {
            assert_eq!(write(day.lists(), room).number, 9);
        }
    }
}

/// Numbers that are too large for what they are, up to 2^64 - 1: some of them would
/// pass if they were cut to 8, 16 or 32 bits.
const LARGE: [u64; 12] = [
    65_536,
    65_537,
    65_540,
    1 << 24,
    (1 << 32) - 1,
    1 << 32,
    (1 << 32) + 1,
    (1 << 32) + 4,
    1 << 63,
    u64::MAX - 8,
    u64::MAX - 1,
    u64::MAX,
];

#[test]
fn stretches_above_64() {
    for record in 0..3 {
        for stretch in [65, 66, 128, 255, 256, 260, 320].into_iter().chain(LARGE) {
            refused(|day| day.record_stretches[record] = stretch);
        }
    }
}

#[test]
fn headers_that_are_not_there() {
    for record in 0..3 {
        for number in [2, 3, 255, 256, 257, 65_535].into_iter().chain(LARGE) {
            refused(|day| day.record_headers[record] = number);
        }
    }
}

#[test]
fn headers_that_do_not_read() {
    for bad in [
        &[][..],
        &[0],
        &[17],
        &[1, 0],
        &[1, 0, 0, 0],
        &header(&[[7; 1_025]]),
        &header(&[[]; 17]),
    ] {
        refused(|day| day.header(bad));
        // As the only header, and with no record.
        let mut day = Owned::default();
        day.header(bad);
        assert_eq!(write(day.lists(), 2_000).number, 9);
        day.record(0, 0, &[]);
        assert_eq!(write(day.lists(), 0).number, 9);
    }
}

#[test]
fn lists_of_records_of_different_lengths() {
    type List = fn(&mut Owned) -> &mut Vec<u64>;
    let lists: [List; 3] = [
        |day| &mut day.record_headers,
        |day| &mut day.record_stretches,
        |day| &mut day.record_lengths,
    ];
    for list in lists {
        refused(|day| list(day).push(0));
        refused(|day| {
            list(day).pop();
        });
        refused(|day| list(day).clear());
    }
    // Two of the three.
    for kept in lists {
        refused(|day| {
            let before = kept(day).clone();
            for list in lists {
                list(day).push(0);
            }
            *kept(day) = before;
        });
    }
    // Without records, and with sealed bytes.
    let mut day = Owned::default();
    day.sealed.push(9);
    assert_eq!(write(day.lists(), 100).number, 9);
    day.sealed.clear();
    day.record_lengths.push(0);
    assert_eq!(write(day.lists(), 100).number, 9);
}

/// Lengths that do not sum to the bytes: by one, by more, and sums that come out right
/// if they wrap at 2^64 or at 2^32.
#[test]
fn lengths_that_are_not_those_of_the_bytes() {
    refused(|day| day.headers.push(0));
    refused(|day| {
        day.headers.pop();
    });
    refused(|day| day.headers.clear());
    refused(|day| day.header_lengths.clear());
    refused(|day| day.sealed.push(0));
    refused(|day| {
        day.sealed.pop();
    });
    refused(|day| day.sealed.clear());
    for place in 0..2 {
        for add in [1, 1 << 8, 1 << 16, 1 << 32, 1 << 63, u64::MAX] {
            refused(|day| day.header_lengths[place] = day.header_lengths[place].wrapping_add(add));
        }
    }
    for place in 0..3 {
        for add in [1, 1 << 8, 1 << 16, 1 << 32, 1 << 63, u64::MAX] {
            refused(|day| day.record_lengths[place] = day.record_lengths[place].wrapping_add(add));
        }
    }
}

#[test]
fn sums_that_wrap() {
    // The same sum, modulo 2^64. Where it is close below that, one length is smaller
    // and another larger, and the lists are as good as before.
    for large in LARGE.into_iter().filter(|&large| large <= 1 << 63) {
        for (one, other) in [(0, 1), (1, 0)] {
            refused(|day| {
                let lengths = &mut day.header_lengths;
                lengths[one] = lengths[one].wrapping_add(large);
                lengths[other] = lengths[other].wrapping_sub(large);
            });
        }
        for (one, other) in [(0, 1), (1, 0), (0, 2), (2, 1)] {
            refused(|day| {
                let lengths = &mut day.record_lengths;
                lengths[one] = lengths[one].wrapping_add(large);
                lengths[other] = lengths[other].wrapping_sub(large);
            });
        }
    }
    refused(|day| day.header_lengths.extend([u64::MAX, 1]));
    refused(|day| day.header_lengths.extend([1 << 63, 1 << 63]));
    refused(|day| {
        day.record(0, 0, &[]);
        day.record(0, 0, &[]);
        let last = day.record_lengths.len() - 2;
        day.record_lengths[last..].fill(1 << 63);
    });
}

/// More than 65,535 headers make a file that is too long. A header's number above
/// 65,535 is refused first, also where there is such a header.
#[test]
fn more_headers_than_two_bytes_name() {
    let mut day = Owned::default();
    for _ in 0..65_540 {
        day.header(&[1, 0, 0]);
    }
    assert_eq!(write(day.lists(), 0).number, 4);
    for (number, expected) in [
        (0, 4),
        (65_535, 4),
        (65_536, 9),
        (65_539, 9),
        (65_540, 9),
        (u64::MAX, 9),
    ] {
        let mut day = day.clone();
        day.record(number, 0, &[]);
        for room in [0, 500_000] {
            assert_eq!(write(day.lists(), room).number, expected, "{number}");
        }
    }
}

/// Several lists changed at random: the two programs agree, whatever comes.
#[test]
fn lists_changed_at_random() {
    let mut source = Source::new(94);
    let mut seen = [0; 10];
    for _ in 0..20_000 {
        let mut day = if source.below(8) == 0 {
            too_long()
        } else {
            right()
        };
        for _ in 0..source.below(3) {
            let number = match source.below(4) {
                0 => LARGE[source.below(LARGE.len())],
                _ => source.below(30) as u64,
            };
            let list = match source.below(4) {
                0 => &mut day.header_lengths,
                1 => &mut day.record_headers,
                2 => &mut day.record_stretches,
                _ => &mut day.record_lengths,
            };
            let place = source.below(list.len());
            list[place] = number;
        }
        let room = source.below(2 * right().length());
        seen[write(day.lists(), room).number as usize] += 1;
    }
    for number in [0, 4, 6, 9] {
        assert!(seen[number] > 100, "{number} came {} times", seen[number]);
    }
}
