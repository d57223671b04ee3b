//! How long a call takes: the proved library beside the second program and AEZ with
//! T-tables, and beside software AES-128-CTR of BearSSL on as many bytes of text; reading
//! a day file beside a copy of it; and reporting on one. Prints tables in Markdown. It
//! needs Debian's libbearssl-dev:
//!
//!     cargo bench --features bearssl
//!
//! With a file's name, from the repository's root, it draws the time for each byte over
//! the length as well:
//!
//!     cargo bench --features bearssl -- --picture docs/speed.svg

mod bearssl;
mod contenders;
mod days;
mod picture;
mod reports;
mod t_tables;
mod timing;

use std::path::{Path, PathBuf};
use std::process::exit;
use std::{env, fs};

use contenders::{compare, opening, sealing, STRETCH};
use picture::{svg, Line, Words};
use timing::{best_of, machine, Contender, TURNS};

/// The tables' lengths.
const LENGTHS: [usize; 6] = [5, 31, 64, 1_024, 4_096, 65_472];
/// The picture's.
const MORE_LENGTHS: [usize; 22] = [
    1, 2, 3, 5, 8, 12, 16, 22, 27, 31, 48, 64, 128, 256, 512, 1_024, 2_048, 4_096, 8_192, 16_384,
    32_768, 65_472,
];
/// How many turns each contender of the picture has.
const PICTURE_TURNS: usize = 9;
/// More lengths to compare.
const COMPARED: [usize; 14] = [0, 1, 15, 16, 17, 31, 32, 33, 63, 64, 65, 95, 96, 1_023];

fn main() {
    let picture = picture_file();
    compare(&[&LENGTHS[..], &MORE_LENGTHS, &COMPARED].concat());
    println!(
        "Machine: {}. Command: `cargo bench --features bearssl`. Stretch {STRETCH}, a header of \
         four strings, the best of {TURNS} alternating turns. BearSSL is AES-128-CTR on the \
         text alone, its key schedule not counted.\n",
        machine()
    );
    print_calls();
    println!();
    days::print();
    println!();
    reports::print();
    if let Some(file) = picture {
        if let Err(error) = fs::write(&file, drawn()) {
            eprintln!("{}: {error}", file.display());
            exit(1);
        }
    }
}

/// The file that is named for the picture; cargo runs the benchmark in the package's
/// folder, and says `--bench`.
fn picture_file() -> Option<PathBuf> {
    let mut file = None;
    let mut arguments = env::args_os()
        .skip(1)
        .filter(|argument| argument != "--bench");
    while let Some(argument) = arguments.next() {
        let name = arguments.next().filter(|_| argument == "--picture");
        let Some(name) = name else {
            eprintln!("the benchmark takes nothing but --picture FILE");
            exit(64);
        };
        let root = Path::new(env!("CARGO_MANIFEST_DIR")).join("..");
        file = Some(root.join(name));
    }
    file
}

/// The two tables on calls: all times, and the proved library's in other terms.
fn print_calls() {
    let best = best_of(TURNS, LENGTHS.map(both_calls));
    let rows: Vec<(&str, usize, [f64; 7])> = LENGTHS
        .into_iter()
        .zip(best)
        .flat_map(|(length, [a, b, c, big, small, ct, ct64, d, e, f])| {
            [
                ("seal", length, [a, b, c, big, small, ct, ct64]),
                ("open", length, [d, e, f, big, small, ct, ct64]),
            ]
        })
        .collect();
    println!(
        "| ns a call | Bytes of text | Proved | Second program | AEZ with T-tables \
         | BearSSL big | BearSSL small | BearSSL ct | BearSSL ct64 |"
    );
    println!("|---|--:|--:|--:|--:|--:|--:|--:|--:|");
    for (call, length, times) in &rows {
        let times = times.map(|time| format!("{time:.0}")).join(" | ");
        println!("| {call} | {length} | {times} |");
    }
    println!(
        "\n| Proved | Bytes of text | ns a byte | / second program | / AEZ with T-tables \
         | / BearSSL big | / BearSSL small | / BearSSL ct | / BearSSL ct64 |"
    );
    println!("|---|--:|--:|--:|--:|--:|--:|--:|--:|");
    for (call, length, [proved, peers @ ..]) in &rows {
        let each = proved / *length as f64;
        let ratios = peers
            .map(|peer| format!("{:.2}", proved / peer))
            .join(" | ");
        println!("| {call} | {length} | {each:.1} | {ratios} |");
    }
}

fn both_calls(length: usize) -> [Contender; 10] {
    let [a, b, c, big, small, ct, ct64] = sealing(length);
    let [d, e, f] = opening(length);
    [a, b, c, big, small, ct, ct64, d, e, f]
}

/// The picture: sealing by each contender, for each byte over the length. AEZ has whole
/// lines and AES-128-CTR dashed ones; among each the colours differ in grey too.
fn drawn() -> String {
    let looks = [
        ("AEZ, proved", "#000000", "", 3.0),
        ("AEZ, second program", "#8b1a4a", "", 2.0),
        ("AEZ with T-tables", "#4f9be8", "", 2.0),
        ("BearSSL big", "#e69f00", "2 4", 2.0),
        ("BearSSL small", "#3cae6e", "6 4", 2.0),
        ("BearSSL ct", "#4b2a99", "10 4 2 4", 2.0),
        ("BearSSL ct64", "#c0392b", "14 4", 2.0),
    ];
    let best = best_of(PICTURE_TURNS, MORE_LENGTHS.map(sealing));
    let lines = looks.into_iter().enumerate();
    let lines = lines.map(|(number, (name, colour, dashes, width))| {
        let each = |(length, row): (usize, &[f64; 7])| (length as f64, row[number] / length as f64);
        let points = MORE_LENGTHS.into_iter().zip(&best).map(each).collect();
        Line {
            name,
            colour,
            dashes,
            width,
            points,
        }
    });
    let header = format!(
        "Stretch {STRETCH}, a header of four strings; {}.",
        machine()
    );
    let words = Words {
        title: "Sealing: time for each byte of text",
        below_title: [
            "Whole lines: AEZ, the whole call. Dashed: AES-128-CTR on the text alone. Numbers: the \
             longest text's.",
            &header,
        ],
        across: "bytes of text",
        up: "nanoseconds a byte",
    };
    svg(&words, &lines.collect::<Vec<_>>())
}
