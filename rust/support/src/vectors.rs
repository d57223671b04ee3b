//! The vectors that the gate's program `known_answers` reads, and what the second
//! program answers to them.
//!
//! A call is five lines: which it is (s, o or h), the stretch, the bytes of output
//! that are lent and the bytes of four strings, all in hex of a fixed width; then
//! the strings, in hex. The output is filled with a5. An answer is two lines: the
//! number and the length, and then the whole output.

use second::document01::{log_header, open, seal, Answer};

use crate::{counting, four_strings, four_values, header, hex, Source};

/// A call and its answer, as their lines.
pub struct Vector {
    pub call: String,
    pub answer: String,
}

/// Every vector, in the order of the files.
pub fn vectors() -> Vec<Vector> {
    let mut vectors = Vec::new();
    for (stretch, text, sealed) in four_values() {
        let (key, header) = (counting(48), four_strings());
        vectors.push(sealing(&key, &header, stretch, &text, sealed.len()));
        vectors.push(opening(&key, &header, stretch, &sealed, sealed.len()));
    }
    vectors.extend(there_and_back());
    vectors.extend(refusals());
    vectors.extend(log_headers());
    vectors
}

/// Document 01's cuts and others: each length sealed, opened, and opened with a
/// byte changed.
fn there_and_back() -> Vec<Vector> {
    let mut source = Source::new(101);
    let mut vectors = Vec::new();
    let lengths = [
        0, 1, 2, 3, 4, 15, 16, 17, 31, 32, 33, 47, 48, 49, 63, 64, 65, 96, 300, 600,
    ];
    let mut cuts = Vec::new();
    for whole in lengths {
        cuts.extend([0, 4, 16].map(|stretch| (whole, stretch)));
    }
    cuts.extend([(64, 64), (127, 64), (65_536, 4)]);
    for (whole, stretch) in cuts.into_iter().filter(|&(whole, t)| t <= whole) {
        let key = source.key();
        let header = header(&[source.bytes(8), source.bytes(0), source.bytes(20)]);
        let text = source.bytes(whole - stretch);
        let mut sealed = vec![0; whole];
        seal(&key, &header, stretch as u64, &text, &mut sealed);
        vectors.push(sealing(&key, &header, stretch as u64, &text, whole + 2));
        vectors.push(opening(&key, &header, stretch as u64, &sealed, whole + 2));
        if (1..65_536).contains(&whole) {
            let place = source.below(whole);
            let damaged = source.damaged(&sealed, place);
            vectors.push(opening(&key, &header, stretch as u64, &damaged, whole + 2));
        }
    }
    vectors
}

/// Each refusal of sealing and opening, most with a later rule broken too.
fn refusals() -> Vec<Vector> {
    let (key, header) = (counting(48), four_strings());
    let long = vec![0; 65_537];
    let mut vectors = Vec::new();
    for call in [sealing, opening] {
        vectors.extend([
            call(&[], &[], 65, b"hello", 0),
            call(&key[..47], &[], 65, b"hello", 0),
            call(&counting(49), &header, 4, b"hello", 9),
            call(&key, &[], 65, b"hello", 0),
            call(&key, &header, (1 << 32) + 4, b"hello", 0),
            call(&key, &[], 6, b"hello", 0),
            call(&key, &[0], 6, b"hello", 0),
            call(&key, &[17], 6, b"hello", 0),
            call(&key, &header[..header.len() - 1], 4, b"hello", 9),
            call(&key, &[&header[..], &[0]].concat(), 4, b"hello", 9),
            call(&key, &header, 6, b"hello", 0),
            call(&key, &header, 4, b"hello", 4),
            call(&key, &header, 0, &long, 0),
        ]);
    }
    vectors
}

/// The log header of items with and without bytes, in every way, and of items that
/// are as long as they may be, in rooms too short, just long enough and longer; and
/// with one in each place that is too long, in no room and in room enough.
fn log_headers() -> Vec<Vector> {
    let mut sets = Vec::new();
    for nonce in [&[1][..], b""] {
        for host in [&b"n7"[..], b""] {
            for (collector, locale) in [("", "de"), ("de", ""), ("", ""), ("c1", "de")] {
                sets.push([nonce, host, collector.as_bytes(), locale.as_bytes()]);
            }
        }
    }
    let longest = [0; 1_024];
    sets.push([&longest, b"", b"", b""]);
    sets.push([&longest; 4]);

    let mut vectors = Vec::new();
    for items in sets {
        let whole = header(&items).len();
        for room in [whole - 1, whole, whole + 8] {
            vectors.push(building(items, room));
        }
    }
    for place in 0..4 {
        let mut items = [&[1][..], b"n7", b"", b"de"];
        items[place] = &[0; 1_025];
        vectors.extend([0, 1_040].map(|room| building(items, room)));
    }
    vectors
}

fn sealing(key: &[u8], header: &[u8], stretch: u64, text: &[u8], room: usize) -> Vector {
    vector('s', stretch, [key, header, text, &[]], room, |out| {
        seal(key, header, stretch, text, out)
    })
}

fn opening(key: &[u8], header: &[u8], stretch: u64, sealed: &[u8], room: usize) -> Vector {
    vector('o', stretch, [key, header, sealed, &[]], room, |out| {
        open(key, header, stretch, sealed, out)
    })
}

fn building(items: [&[u8]; 4], room: usize) -> Vector {
    let [nonce, host, collector, locale] = items;
    vector('h', 0, items, room, |out| {
        log_header(nonce, host, collector, locale, out)
    })
}

fn vector(
    which: char,
    stretch: u64,
    strings: [&[u8]; 4],
    room: usize,
    call: impl FnOnce(&mut [u8]) -> Answer,
) -> Vector {
    let mut out = vec![0xa5; room];
    let Answer { number, length, .. } = call(&mut out);
    let [a, b, c, d] = strings.map(<[u8]>::len);
    let digits = strings.map(hex).join("\n");
    Vector {
        call: format!(
            "{which} {stretch:016x} {room:08x} {a:08x} {b:08x} {c:08x} {d:08x}\n{digits}\n"
        ),
        answer: format!("{number:x} {length:x}\n{}\n", hex(&out)),
    }
}
