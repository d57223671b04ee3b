//! How long it takes to clear records out of a day file and to append one, beside the
//! check of the file that each change starts with. Prints a table in Markdown:
//!
//!     cargo bench --bench day_edits

mod timing;

use std::hint::black_box;

use jarrovento::{Day, DayBuffer, DayWriter, LONGEST_DAY};
use second::day_edits;
use timing::{best_of, machine, Contender, TURNS};

/// A header of the fewest bytes.
const SHORTEST: [u8; 3] = [1, 0, 0];

/// Of files of the same kind one is full, one has a quarter of its parts and one a
/// sixteenth.
const PARTS: [usize; 3] = [16, 4, 1];

/// What files are full of: so many headers of the fewest bytes, records of so many bytes,
/// how many of them, and the header that each names. They leave room for one header and
/// one record more.
struct Kind {
    full_of: &'static str,
    headers: usize,
    records: usize,
    length: usize,
    /// From the number of the record and the count of headers.
    names: fn(usize, usize) -> usize,
}

const KINDS: [Kind; 4] = [
    Kind {
        full_of: "long records",
        headers: 1,
        records: 15,
        length: 4_083,
        names: |_, _| 0,
    },
    Kind {
        full_of: "the shortest records",
        headers: 1,
        records: 5_954,
        length: 0,
        names: |_, _| 0,
    },
    Kind {
        full_of: "records, each under its own header",
        headers: 4_094,
        records: 4_094,
        length: 0,
        names: |record, _| record,
    },
    Kind {
        full_of: "headers, and records under the last",
        headers: 6_552,
        records: 2_976,
        length: 0,
        names: |_, headers| headers - 1,
    },
];

fn main() {
    println!(
        "Machine: {}. Command: `cargo bench --bench day_edits`. Microseconds, the best of {TURNS} \
         alternating turns. Each column starts from a copy of the file in a buffer, and all but \
         the last by its check.\n",
        machine()
    );
    println!(
        "| File full of | Bytes | Headers | Records | Copy and check | Clear none | Clear every \
         other | Clear all | Append | Append with a header | Second program, clear none |"
    );
    println!("|---|--:|--:|--:|--:|--:|--:|--:|--:|--:|--:|");
    let files: [Vec<u8>; 12] = std::array::from_fn(|row| file(&KINDS[row / 3], PARTS[row % 3]));
    let best = best_of(TURNS, files.each_ref().map(|file| contenders(file)));
    for ((row, file), times) in files.iter().enumerate().zip(best) {
        let (headers, records) = counts(file);
        let times = times.map(|nanoseconds| format!("{:.1}", nanoseconds / 1_000.0));
        println!(
            "| {} | {} | {headers} | {records} | {} |",
            KINDS[row / 3].full_of,
            file.len(),
            times.join(" | ")
        );
    }
}

/// The file of a kind with so many sixteenths of its headers and records.
fn file(kind: &Kind, sixteenths: usize) -> Vec<u8> {
    let part = |count: usize| (count * sixteenths / 16).max(1);
    let headers = part(kind.headers);
    let sealed = vec![9; kind.length];
    let mut day = DayWriter::<Vec<u8>, Vec<u64>>::new();
    for _ in 0..headers {
        day.header(&SHORTEST);
    }
    for record in 0..part(kind.records) {
        let header = (kind.names)(record, headers) as u64;
        day.record(header, 0, &sealed);
    }
    let mut out = vec![0; LONGEST_DAY];
    day.write(&mut out).expect("the day fits a file").to_vec()
}

/// How many headers and records a file has.
fn counts(file: &[u8]) -> (usize, usize) {
    let mut places = vec![0; Day::places(file.len())];
    let day = Day::read(file, &mut places).expect("the file reads");
    let headers = day.headers().len();
    (headers, day.len())
}

/// The check alone; clearing with three lists; appending with and without a header; and
/// clearing by the second program.
fn contenders(file: &[u8]) -> [Contender; 7] {
    let (headers, records) = counts(file);
    let (next, records) = (headers as u64, records as u64);
    let every_other: Vec<u64> = (0..records).step_by(2).collect();
    let all: Vec<u64> = (0..records).collect();
    let again = file.to_vec();
    let mut buffer = vec![0; LONGEST_DAY];
    [
        on_a_copy(file, |_| ()),
        on_a_copy(file, |day| assert!(day.clear(black_box(&[])).is_ok())),
        on_a_copy(file, move |day| assert!(day.clear(&every_other).is_ok())),
        on_a_copy(file, move |day| assert!(day.clear(&all).is_ok())),
        on_a_copy(file, |day| assert!(day.append(0, &[], 0, &[]).is_ok())),
        on_a_copy(file, move |day| {
            assert!(day.append(next, &SHORTEST, 0, &[]).is_ok());
        }),
        Box::new(move || {
            buffer[..again.len()].copy_from_slice(&again);
            let answer = day_edits::clear(black_box(&mut buffer), again.len() as u64, &[]);
            assert_eq!(answer.number, 0);
        }),
    ]
}

/// A change to a copy of the file, in a buffer with room for the longest.
fn on_a_copy(file: &[u8], change: impl Fn(&mut DayBuffer) + 'static) -> Contender {
    let file = file.to_vec();
    let mut buffer = vec![0; LONGEST_DAY];
    Box::new(move || {
        buffer[..file.len()].copy_from_slice(&file);
        let day = DayBuffer::read(black_box(&mut buffer), file.len());
        change(&mut day.expect("the file reads"));
    })
}
