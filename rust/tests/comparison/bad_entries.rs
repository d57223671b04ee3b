//! Which entry of a header is bad (request E5): every kind of damage at every string
//! of headers of every count.

use support::{header, Source};

use crate::both::{open, read_header, seal};

const TEXT: &[u8] = b"1,204 s";
const STRETCH: u64 = 4;
const ROOM: usize = 11;

/// Holds reading, sealing and opening to the number of the bad entry, where but for
/// the header nothing is wrong.
#[track_caller]
fn told(key: &[u8], header: &[u8], entry: usize) {
    let entry = entry as u64;
    assert_eq!(read_header(header), Err(entry));
    let sealed = seal(key, header, STRETCH, TEXT, ROOM);
    assert_eq!((sealed.number, sealed.place), (3, entry));
    let opened = open(key, header, STRETCH, TEXT, ROOM);
    assert_eq!((opened.number, opened.place), (3, entry));
}

/// Every count, with so many strings of 1 to 20 bytes.
fn every_count(source: &mut Source) -> Vec<Vec<Vec<u8>>> {
    let mut string = || {
        let length = 1 + source.below(20);
        source.bytes(length)
    };
    (1..=16)
        .map(|count| (0..count).map(|_| string()).collect())
        .collect()
}

/// Where the length bytes of string `k` stand.
fn start(strings: &[Vec<u8>], k: usize) -> usize {
    header(&strings[..k - 1]).len()
}

/// The header with another length before string `k`.
fn with_length(strings: &[Vec<u8>], k: usize, length: usize) -> Vec<u8> {
    let mut header = header(strings);
    let start = start(strings, k);
    header[start..start + 2].copy_from_slice(&(length as u16).to_be_bytes());
    header
}

/// The strings with one of `length` bytes, which are all there, as string `k`.
fn with_string(strings: &[Vec<u8>], k: usize, length: usize) -> Vec<Vec<u8>> {
    let mut strings = strings.to_vec();
    strings[k - 1] = vec![7; length];
    strings
}

/// Before the damage: all of these read.
#[test]
fn headers_without_damage() {
    let mut source = Source::new(61);
    let key = source.key();
    for strings in every_count(&mut source) {
        let whole = header(&strings);
        assert_eq!(read_header(&whole), Ok(strings));
        let sealed = seal(&key, &whole, STRETCH, TEXT, ROOM);
        let opened = open(&key, &whole, STRETCH, sealed.part(), ROOM);
        assert_eq!((sealed.place, opened.place), (0, 0));
        assert_eq!(opened.part(), TEXT);
    }
}

/// Cut off in entry k: with no length byte left, with one, with both and no byte of
/// the string, and so on to its last byte.
#[test]
fn cut_off_in_every_string() {
    let mut source = Source::new(62);
    let key = source.key();
    for strings in every_count(&mut source) {
        let whole = header(&strings);
        for k in 1..=strings.len() {
            let start = start(&strings, k);
            for kept in 0..2 + strings[k - 1].len() {
                told(&key, &whole[..start + kept], k);
            }
        }
    }
}

/// Above 1,024, whether so many bytes are there or not.
#[test]
fn too_long_at_every_string() {
    let mut source = Source::new(63);
    let key = source.key();
    for strings in every_count(&mut source) {
        for k in 1..=strings.len() {
            for length in [1_025, 1_026, 1_279, 2_048] {
                told(&key, &header(&with_string(&strings, k, length)), k);
            }
            for length in [1_025, 1_279, 1_280, 32_768, 65_535] {
                told(&key, &with_length(&strings, k, length), k);
            }
        }
    }
}

/// A length that is allowed, and runs past the end by one byte or by more.
#[test]
fn past_the_end_at_every_string() {
    let mut source = Source::new(64);
    let key = source.key();
    for strings in every_count(&mut source) {
        for k in 1..=strings.len() {
            let left = header(&strings).len() - start(&strings, k) - 2;
            for length in [left + 1, left + 2, 1_023, 1_024] {
                told(&key, &with_length(&strings, k, length), k);
            }
        }
    }
}

#[test]
fn left_over_after_every_count() {
    let mut source = Source::new(65);
    let key = source.key();
    for strings in every_count(&mut source) {
        for more in [&[0][..], &[0, 0], &[0, 1, 7], &[255; 40]] {
            told(&key, &[&header(&strings), more].concat(), 17);
        }
    }
}

#[test]
fn the_count_itself() {
    let mut source = Source::new(66);
    let key = source.key();
    told(&key, &[], 0);
    for count in (17..=255).chain([0]) {
        told(&key, &[count], 0);
        // With the bytes of strings after it, and with bytes of no sense.
        let mut whole = header(&vec![b"n7"; usize::from(count)]);
        told(&key, &whole, 0);
        whole.truncate(1);
        told(&key, &[&whole[..], &[255; 9]].concat(), 0);
    }
}

/// The first of two bad strings is told, and a bad string before bytes left over.
#[test]
fn the_first_of_two() {
    let mut source = Source::new(67);
    let key = source.key();
    for strings in every_count(&mut source) {
        for k in 1..=strings.len() {
            let bad = with_string(&strings, k, 1_025);
            told(&key, &[&header(&bad)[..], &[0]].concat(), k);
            for later in k + 1..=strings.len() {
                // Too long as well; a length past the end; cut off.
                told(&key, &header(&with_string(&bad, later, 1_025)), k);
                told(&key, &with_length(&bad, later, 1_024), k);
                told(&key, &header(&bad)[..start(&bad, later) + 1], k);
            }
        }
    }
}

/// Beside every other answer the number is 0, also where the header is bad as well.
#[test]
fn no_number_beside_another_answer() {
    let mut source = Source::new(68);
    let key = source.key();
    let good = header(&[source.bytes(8), source.bytes(2)]);
    let bad = &good[..good.len() - 1];
    told(&key, bad, 2);

    let long = vec![0; 65_537];
    let mut sealed = seal(&key, &good, 16, TEXT, 23).part().to_vec();
    sealed[0] ^= 1;
    for (answer, outcome) in [
        (1, seal(&key[..47], bad, 4, TEXT, ROOM)),
        (1, open(&key[..47], bad, 4, TEXT, ROOM)),
        (2, seal(&key, bad, 65, TEXT, ROOM)),
        (2, open(&key, bad, 65, TEXT, ROOM)),
        (4, seal(&key, &good, 4, &long, ROOM)),
        (4, open(&key, &good, 4, &long, ROOM)),
        (5, open(&key, &good, 8, TEXT, ROOM)),
        (6, seal(&key, &good, 4, TEXT, ROOM - 1)),
        (6, open(&key, &good, 4, TEXT, TEXT.len() - 1)),
        (7, open(&key, &good, 16, &sealed, 23)),
        (0, seal(&key, &good, 4, TEXT, ROOM)),
        (0, open(&key, &good, 0, TEXT, ROOM)),
    ] {
        assert_eq!((outcome.number, outcome.place), (answer, 0));
    }
}

/// Some bytes changed anywhere, and then cut or not: what is bad is for the two
/// programs to agree on.
#[test]
fn damaged_in_several_places() {
    let mut source = Source::new(69);
    let key = source.key();
    let mut seen = [false; 18];
    for _ in 0..5_000 {
        let count = 1 + source.below(16);
        let strings: Vec<Vec<u8>> = (0..count)
            .map(|_| {
                let length = source.below(5);
                source.bytes(length)
            })
            .collect();
        let mut bytes = header(&strings);
        for _ in 0..source.below(4) {
            let place = source.below(bytes.len());
            bytes[place] = source.below(20) as u8;
        }
        let kept = source.below(2 * bytes.len());
        bytes.truncate(kept);
        match read_header(&bytes) {
            Ok(_) => assert_eq!(seal(&key, &bytes, STRETCH, TEXT, ROOM).number, 0),
            Err(entry) => {
                told(&key, &bytes, entry as usize);
                seen[entry as usize] = true;
            }
        }
    }
    assert_eq!(seen, [true; 18], "an entry that was never bad");
}
