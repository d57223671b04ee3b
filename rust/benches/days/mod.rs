//! How long it takes to read a day file, beside a plain copy of its bytes. The cost
//! should grow with the file's length alone, whatever it is full of.

use std::hint::black_box;

use jarrovento::{Day, DayWriter, LONGEST_DAY};
use second::day_file;

use crate::timing::{best_of, Contender, TURNS};

/// Of files of the same kind one is full, one has a quarter of its parts and one a
/// sixteenth.
const PARTS: [usize; 3] = [16, 4, 1];

/// A file and what it is full of.
struct File {
    full_of: &'static str,
    bytes: Vec<u8>,
}

/// Prints the table.
pub fn print() {
    println!(
        "| File full of | Bytes | Records | Check, ns a byte | List, ns a byte \
         | List and walk, ns a byte | Second program, ns a byte | Copy, ns a byte \
         | List and walk, ns a file |"
    );
    println!("|---|--:|--:|--:|--:|--:|--:|--:|--:|");
    let files: [File; 9] = std::array::from_fn(|row| file(row / 3, PARTS[row % 3]));
    let best = best_of(TURNS, files.each_ref().map(contenders));
    for (file, [check, list, walk, second, copy]) in files.iter().zip(best) {
        let length = file.bytes.len();
        let records = Day::count(&file.bytes).expect("the file reads");
        let [check, list, each, second, copy] =
            [check, list, walk, second, copy].map(|call| call / length as f64);
        println!(
            "| {} | {length} | {records} | {check:.3} | {list:.3} | {each:.3} | {second:.3} \
             | {copy:.3} | {walk:.0} |",
            file.full_of
        );
    }
}

/// The file of a kind with so many sixteenths of the parts that fill it.
fn file(kind: usize, sixteenths: usize) -> File {
    let mut day = DayWriter::<Vec<u8>, Vec<u64>>::new();
    day.header(&[1, 0, 3, 7, 7, 7]);
    let of = |parts: usize| 0..parts * sixteenths / 16;
    let full_of = match kind {
        0 => {
            of(5_956).for_each(|_| day.record(0, 0, &[]));
            "the shortest records"
        }
        1 => {
            of(16).for_each(|_| day.record(0, 4, &[9; 4_083]));
            "long records"
        }
        _ => {
            of(13_103).for_each(|_| {
                day.header(&[1, 0, 0]);
            });
            "the shortest headers"
        }
    };
    let mut out = vec![0; LONGEST_DAY];
    let bytes = day.write(&mut out).expect("the day fits a file").to_vec();
    File { full_of, bytes }
}

/// The check alone; the list of places; the list and then all records by it; reading
/// by the second program, on which both agree; and a copy of the file.
fn contenders(file: &File) -> [Contender; 5] {
    let [a, b, c, d, e] = std::array::from_fn(|_| file.bytes.clone());
    let mut places = vec![0; Day::places(a.len())];
    let mut again = places.clone();
    let mut copy = vec![0; a.len()];
    let records = day_file::count(&a).length;
    [
        Box::new(move || assert_eq!(Day::count(black_box(&a)), Ok(records))),
        Box::new(move || {
            let day = Day::read(black_box(&b), &mut places);
            assert!(black_box(day).is_ok());
        }),
        Box::new(move || {
            let day = Day::read(black_box(&c), &mut again).expect("the file reads");
            let bytes: usize = day
                .records()
                .map(|record| record.header.len() + record.sealed.len())
                .sum();
            black_box(bytes);
        }),
        Box::new(move || assert!(black_box(day_file::read(black_box(&d))).is_some())),
        Box::new(move || {
            copy.copy_from_slice(black_box(&e));
            black_box(&mut copy);
        }),
    ]
}
