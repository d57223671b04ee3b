//! `check-header`, and what `seal` and `open` say of a header that does not read.

use jarrovento::{BadEntry, Refusal};
use support::{counting, header, hex};

use crate::{done, fails, file, folder, jarrovento, HEADER};

/// A header of 16 strings, each of one byte.
fn sixteen() -> Vec<u8> {
    header(&[b"x"; 16])
}

/// Headers that do not read, for every number, in the order of the numbers.
fn bad_headers() -> Vec<Vec<u8>> {
    // Each string has three bytes with its length: cut off in string k.
    let strings = (1..=16).map(|k| sixteen()[..3 * k].to_vec());
    let left_over = [&sixteen()[..], &[0]].concat();
    [vec![]]
        .into_iter()
        .chain(strings)
        .chain([left_over])
        .collect()
}

#[test]
fn the_strings_are_listed() {
    let expected = "\
string 1, length 1: \"\\x01\"
string 2, length 2: \"n7\"
string 3, length 0: \"\"
string 4, length 2: \"de\"
";
    let run = jarrovento(&["check-header", "--header", HEADER], b"");
    done(&run);
    assert_eq!(String::from_utf8(run.stdout).unwrap(), expected);

    let run = jarrovento(&["check-header", "--header", &hex(&sixteen())], b"");
    done(&run);
    let listed = String::from_utf8(run.stdout).unwrap();
    let numbered = (1..=16).map(|number| format!("string {number}, length 1: \"x\"\n"));
    assert_eq!(listed, numbered.collect::<String>());
}

/// From a file too, as long as a string may be. Nothing that is not printable ASCII
/// gets to the terminal, nor a quote or a backslash that could be taken for ours.
#[test]
fn bytes_are_shown_safely() {
    let folder = folder("shown_safely");
    let all: Vec<u8> = (0..=255).collect();
    let long = [b'y'; 1_024];
    let name = file(
        &folder,
        "header",
        &header(&[&all[..], b"\x1b[2J\"\\\n", &long]),
    );
    let run = jarrovento(&["check-header", "--header-file", &name], b"");
    done(&run);
    let listed = String::from_utf8(run.stdout).unwrap();
    assert!(listed
        .chars()
        .all(|c| c == '\n' || (' '..='~').contains(&c)));

    let lines: Vec<&str> = listed.lines().collect();
    assert_eq!(lines.len(), 3);
    assert!(lines[0].starts_with("string 1, length 256: \"\\x00\\x01"));
    assert!(lines[0].ends_with("\\xfe\\xff\""));
    assert_eq!(lines[1], "string 2, length 7: \"\\x1b[2J\\\"\\\\\\n\"");
    let shown = "y".repeat(1_024);
    assert_eq!(lines[2], format!("string 3, length 1024: \"{shown}\""));
}

/// Every number, from the three commands.
#[test]
fn the_bad_entry_is_told() {
    let folder = folder("bad_entries");
    let key = file(&folder, "key", &counting(48));
    for (number, bytes) in (0..=17).zip(bad_headers()) {
        let entry = BadEntry::from_number(number).unwrap();
        let message = Refusal::HeaderUnreadable(entry).to_string();
        let told = format!("refusal 3: the header does not read; entry {number} is bad: ");
        assert!(message.starts_with(&told), "{message}");

        let digits = hex(&bytes);
        let run = jarrovento(&["check-header", "--header", &digits], b"");
        fails(&run, 3, &message);
        for command in ["seal", "open"] {
            let options = ["--key", &key, "--header", &digits, "--stretch", "4"];
            let run = jarrovento(&[&[command], &options[..]].concat(), b"hello");
            fails(&run, 3, &message);
        }
    }
}

/// The words, which support staff read: one of each kind.
#[test]
fn the_words_for_a_bad_entry() {
    for (digits, words) in [
        (
            "00",
            "entry 0 is bad: the count of strings is missing, 0 or above 16",
        ),
        (
            "02000000",
            "entry 2 is bad: the length of string 2 is missing, above 1,024 or runs past the end",
        ),
        (
            "01000000",
            "entry 17 is bad: bytes are left over after the last string",
        ),
    ] {
        let run = jarrovento(&["check-header", "--header", digits], b"");
        fails(
            &run,
            3,
            &format!("refusal 3: the header does not read; {words}"),
        );
    }
}

/// Of a file without an end enough is read to tell what is bad.
#[test]
fn header_files_without_an_end() {
    let folder = folder("endless_headers");
    let longest = header(&vec![counting(1_024); 16]);
    for (start, number) in [(vec![], 0), (longest, 17)] {
        let endless = [start, vec![0; 100_000]].concat();
        let name = file(&folder, "header", &endless);
        let run = jarrovento(&["check-header", "--header-file", &name], b"");
        let entry = BadEntry::from_number(number).unwrap();
        fails(&run, 3, &Refusal::HeaderUnreadable(entry).to_string());
    }
}
