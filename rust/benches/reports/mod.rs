//! How long a report on a day file takes, on the files that are dearest for it: many
//! headers, and records that name the last of them. The cost should grow with the
//! file's length alone.

use std::hint::black_box;

use jarrovento::{DayWriter, LONGEST_DAY};
use second::ledger;

use crate::contenders::{HEADER, STRETCH};
use crate::timing::{best_of, Contender, TURNS};

/// Of files of the same kind one is full, one has a quarter of its parts and one a
/// sixteenth.
const PARTS: [usize; 3] = [16, 4, 1];

const KEY: [u8; 48] = [7; 48];

/// A file, what it is full of, and how many headers and records it has.
struct File {
    full_of: &'static str,
    headers: usize,
    records: usize,
    bytes: Vec<u8>,
}

/// Prints the table.
pub fn print() {
    println!(
        "| File full of | Bytes | Headers | Records | Report, ns a byte \
         | Second program, ns a byte | Report, ns a file |"
    );
    println!("|---|--:|--:|--:|--:|--:|--:|");
    let files: [File; 12] = std::array::from_fn(|row| file(row / 3, PARTS[row % 3]));
    let best = best_of(TURNS, files.each_ref().map(contenders));
    for (file, [report, second]) in files.iter().zip(best) {
        let length = file.bytes.len();
        let [each, second] = [report, second].map(|call| call / length as f64);
        println!(
            "| {} | {length} | {} | {} | {each:.2} | {second:.2} | {report:.0} |",
            file.full_of, file.headers, file.records
        );
    }
}

/// The file of a kind with so many sixteenths of the parts that fill it. Its headers come
/// by the 64, so that the last is as far from a mark as a header can be. The shortest
/// header has no locale, so its records are not opened; a record of 9 sealed bytes is a
/// pause of 5.
fn file(kind: usize, sixteenths: usize) -> File {
    let (full_of, times_64, pauses, empty_records) = match kind {
        0 => ("headers, and records of the last", 103, 0, 2_960),
        1 => ("headers, and pauses of the last", 102, 1_643, 0),
        2 => ("pauses of one header", 0, 3_275, 0),
        _ => ("headers", 204, 0, 0),
    };
    let of = |parts: usize| parts * sixteenths / 16;
    let (headers, records) = (1.max(64 * of(times_64)), of(pauses + empty_records));
    let mut sealed = [0; 9];
    jarrovento::seal(&KEY, HEADER, STRETCH, b"1,2 s", &mut sealed).expect("the pause seals");
    let mut day = DayWriter::<Vec<u8>, Vec<u64>>::new();
    for _ in 1..headers {
        day.header(&[1, 0, 0]);
    }
    let (header, stretch, sealed): (&[u8], u64, &[u8]) = if 0 < pauses {
        (HEADER, STRETCH, &sealed)
    } else {
        (&[1, 0, 0], 0, &[])
    };
    let last = day.header(header);
    for _ in 0..records {
        day.record(last, stretch, sealed);
    }
    let mut out = vec![0; LONGEST_DAY];
    let bytes = day.write(&mut out).expect("the day fits a file").to_vec();
    File {
        full_of,
        headers,
        records,
        bytes,
    }
}

/// The report by the proved library and by the second program, on which both agree.
fn contenders(file: &File) -> [Contender; 2] {
    let [a, b] = std::array::from_fn(|_| file.bytes.clone());
    let mut figures = [0; 6];
    assert_eq!(ledger::report_figures(&KEY, &a, &mut figures), 0);
    let [read, refused, ..] = figures;
    assert_eq!(read + refused, file.records as u64);
    [
        Box::new(move || {
            let report = jarrovento::report(black_box(&KEY), &a).expect("the file reads");
            assert_eq!((report.read, report.refused), (read, refused));
        }),
        Box::new(move || {
            let mut figures = [0; 6];
            assert_eq!(ledger::report_figures(black_box(&KEY), &b, &mut figures), 0);
            black_box(figures);
        }),
    ]
}
