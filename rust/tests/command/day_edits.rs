//! `day clear` and `day add`.

use std::fs::{self, Permissions};
use std::os::unix::fs::PermissionsExt;
use std::path::Path;
use std::process::Command;

use jarrovento::{BadEntry, Refusal};
use second::{day_edits, day_file, document01};
use support::{counting, day_file as file_of, hex, unhex};

use crate::{done, fails, file, folder, jarrovento, names, Link, HEADER, SAMPLE_DAY, SAMPLE_KEY};

/// A copy of the sample, which may be changed.
fn sample_in(folder: &Path) -> String {
    file(folder, "day", &fs::read(SAMPLE_DAY).unwrap())
}

/// The sample without these records, by the second program.
fn cleared(dropped: &[u64]) -> Vec<u8> {
    let mut sample = fs::read(SAMPLE_DAY).unwrap();
    let size = sample.len() as u64;
    let answer = day_edits::clear(&mut sample, size, dropped);
    assert_eq!(answer.number, 0);
    sample.truncate(answer.length);
    sample
}

/// The file with one record more, by the second program.
fn grown(file: &[u8], number: u64, header: &[u8], stretch: u64, sealed: &[u8]) -> Vec<u8> {
    let mut buffer = file.to_vec();
    buffer.resize(65_536, 0);
    let size = file.len() as u64;
    let answer = day_edits::append(&mut buffer, size, number, header, stretch, sealed);
    assert_eq!(answer.number, 0);
    buffer.truncate(answer.length);
    buffer
}

/// The words of `day add` for a header in hex.
fn add<'a>(day: &'a str, header: &'a str, stretch: &'a str, more: &[&'a str]) -> Vec<&'a str> {
    let words = ["day", "add", day, "--header", header, "--stretch", stretch];
    [&words[..], more].concat()
}

/// Holds a command to a refusal, with more words on it, that leaves the day file alone.
#[track_caller]
fn refused(words: &[&str], input: &[u8], refusal: Refusal, more: &str) {
    let day = words[2];
    let before = fs::read(day).unwrap();
    let run = jarrovento(words, input);
    fails(&run, refusal.number() as i32, &format!("{refusal}{more}"));
    assert!(fs::read(day).unwrap() == before);
    let folder = Path::new(day).parent().unwrap();
    let second = |name: &String| name.starts_with(".jarrovento");
    assert_eq!(names(folder).into_iter().find(second), None);
}

#[test]
fn records_are_cleared_out() {
    let folder = folder("day_clear");
    for (list, dropped) in [
        ("0", &[0][..]),
        ("1,2", &[1, 2]),
        ("0,1,2,3", &[0, 1, 2, 3]),
        ("+0,03", &[0, 3]),
        ("", &[]),
    ] {
        let day = sample_in(&folder);
        done(&jarrovento(&["day", "clear", &day, "--drop", list], b""));
        assert_eq!(hex(&fs::read(&day).unwrap()), hex(&cleared(dropped)));
        assert_eq!(names(&folder), ["day"]);
    }
}

/// An empty list is for headers that no record names.
#[test]
fn headers_without_a_record_go() {
    let folder = folder("day_clear_headers");
    let headers = [unhex("010000"), unhex("01000107")];
    let day = file(&folder, "day", &file_of(&headers, &[(1, 0, vec![9])]));
    let words = ["day", "clear", &day, "--drop", ""];
    for _ in 0..2 {
        done(&jarrovento(&words, b""));
        let kept = file_of(&headers[1..], &[(0, 0, vec![9])]);
        assert_eq!(fs::read(&day).unwrap(), kept);
    }
}

#[test]
fn refusals_of_clearing() {
    let folder = folder("day_clear_refusals");
    let day = sample_in(&folder);
    let last = "; the file reads, and its last record is 3";
    for (list, more) in [
        ("4", last),
        ("0,4", last),
        ("18446744073709551615", last),
        ("1,1", "; 1 is listed after 1"),
        ("0,3,2", "; 2 is listed after 3"),
        // The first that is wrong.
        ("2,1,4", "; 1 is listed after 2"),
        ("4,1", last),
    ] {
        let words = ["day", "clear", &day, "--drop", list];
        refused(&words, b"", Refusal::WrongList, more);
    }
    let empty = file(&folder, "empty", &[0; 12]);
    let none = "; the file reads, and has no records";
    let words = ["day", "clear", &empty, "--drop", "0"];
    refused(&words, b"", Refusal::WrongList, none);

    let sample = fs::read(SAMPLE_DAY).unwrap();
    let cut = file(&folder, "cut", &sample[1..]);
    let long = file(&folder, "long", &[0; 65_537]);
    let nothing = file(&folder, "nothing", b"");
    for day in [&cut, &long, &nothing] {
        for list in ["", "0", "1,1"] {
            let words = ["day", "clear", day, "--drop", list];
            let more = "; the file does not read";
            refused(&words, b"", Refusal::DayUnreadable, more);
        }
    }
}

/// A sealed string, as bytes and as hex, from standard input and from a file, under a
/// new header.
#[test]
fn a_sealed_string_is_added() {
    let folder = folder("day_add");
    let sample = fs::read(SAMPLE_DAY).unwrap();
    let (header, sealed) = ("01000109", [0xaa, 0xbb, 0xcc]);
    let expected = grown(&sample, 4, &unhex(header), 4, &sealed);
    let bytes = file(&folder, "bytes", &sealed);
    let digits = file(&folder, "digits", b"aa BB\ncc\n");
    let header_file = file(&folder, "header", &unhex(header));
    for (more, input) in [
        (&[][..], &sealed[..]),
        (&["--hex-in"], b"aabbcc\n"),
        (&["--in", &bytes], b""),
        (&["--in", &digits, "--hex-in"], b""),
    ] {
        let day = sample_in(&folder);
        done(&jarrovento(&add(&day, header, "4", more), input));
        assert_eq!(hex(&fs::read(&day).unwrap()), hex(&expected));
    }
    let day = sample_in(&folder);
    let words = [
        "day",
        "add",
        "--header-file",
        &header_file,
        "--stretch",
        "4",
        &day,
    ];
    done(&jarrovento(&words, &sealed));
    assert_eq!(hex(&fs::read(&day).unwrap()), hex(&expected));
}

/// A text is sealed under its header, and opens again.
#[test]
fn a_text_is_sealed_and_added() {
    let folder = folder("day_add_text");
    let day = sample_in(&folder);
    let header = "0400010300026e37000000026465";
    let words = add(&day, header, "4", &["--key", SAMPLE_KEY]);
    done(&jarrovento(&words, b"12 s"));

    let mut sealed = [0; 8];
    document01::seal(&counting(48), &unhex(header), 4, b"12 s", &mut sealed);
    let sample = fs::read(SAMPLE_DAY).unwrap();
    let expected = grown(&sample, 4, &unhex(header), 4, &sealed);
    assert_eq!(hex(&fs::read(&day).unwrap()), hex(&expected));
    let words = ["day", "open", &day, "--record", "4", "--key", SAMPLE_KEY];
    let opened = jarrovento(&words, b"");
    done(&opened);
    assert_eq!(opened.stdout, b"12 s");
}

/// A header that the file has is named, by its bytes or by its number, and not put there
/// again.
#[test]
fn a_header_that_is_there() {
    let folder = folder("day_add_there");
    let sample = fs::read(SAMPLE_DAY).unwrap();
    let header = day_file::read(&sample).unwrap().headers[2].clone();
    let header = sample[header].to_vec();
    let mut sealed = [0; 8];
    document01::seal(&counting(48), &header, 4, b"12 s", &mut sealed);
    let expected = grown(&sample, 2, &[], 4, &sealed);

    let digits = hex(&header);
    let by_number = ["--header-number", "2"];
    for under in [["--header", &digits], by_number] {
        let with_key = ["--key", SAMPLE_KEY];
        for (more, input) in [(&[][..], &sealed[..]), (&with_key[..], b"12 s")] {
            let day = sample_in(&folder);
            let words = [&["day", "add", &day, "--stretch", "4"], &under[..], more];
            done(&jarrovento(&words.concat(), input));
            assert_eq!(hex(&fs::read(&day).unwrap()), hex(&expected));
        }
    }
}

/// A day that starts with none, and is added to record by record.
#[test]
fn a_day_from_nothing() {
    let folder = folder("day_from_nothing");
    let day = folder.join("day");
    let day = day.to_str().unwrap();
    done(&jarrovento(&["day", "write", "--out", day], b""));
    let sample = jarrovento(&["day", "list", SAMPLE_DAY, "--hex-out"], b"").stdout;
    let sample = String::from_utf8(sample).unwrap();
    for line in sample.lines() {
        let fields: Vec<&str> = line.split(' ').collect();
        let words = add(day, fields[0], fields[1], &["--hex-in"]);
        done(&jarrovento(&words, fields[2].as_bytes()));
    }
    assert_eq!(fs::read(day).unwrap(), fs::read(SAMPLE_DAY).unwrap());
}

#[test]
fn refusals_of_adding() {
    let folder = folder("day_add_refusals");
    let day = sample_in(&folder);
    let sample = fs::read(SAMPLE_DAY).unwrap();
    let outside = Refusal::DayUnreadable;
    let entry = |number| BadEntry::from_number(number).unwrap();
    let unreadable = format!("; the header does not read, {}", entry(17));
    refused(&add(&day, "01000000", "4", &[]), b"", outside, &unreadable);
    let stretch = "; the stretch is above 64 bytes";
    for header in [HEADER, "01000109"] {
        refused(&add(&day, header, "65", &[]), b"", outside, stretch);
    }
    for number in ["4", "5", "18446744073709551615"] {
        for more in [&[][..], &["--key", SAMPLE_KEY]] {
            let number = ["--header-number", number, "--stretch", "65"];
            let words = [&["day", "add", &day], &number[..], more].concat();
            let last = "; the file reads, and its last header is 3";
            refused(&words, b"", outside, last);
        }
    }
    let cut = file(&folder, "cut", &sample[1..]);
    let short_key = file(&folder, "short", &counting(47));
    let unread = "; the file does not read";
    for more in [&[][..], &["--key", &short_key]] {
        refused(&add(&cut, HEADER, "65", more), b"", outside, unread);
    }
}

/// With a key those of sealing come before, in its order.
#[test]
fn refusals_of_sealing_what_is_added() {
    let folder = folder("day_add_sealing");
    let day = sample_in(&folder);
    let short_key = file(&folder, "short", &counting(47));
    for (header, stretch, key, text, refusal) in [
        ("00", "65", &short_key[..], 70_000, Refusal::KeyLength),
        ("00", "65", SAMPLE_KEY, 70_000, Refusal::StretchTooLong),
        (
            "00",
            "64",
            SAMPLE_KEY,
            70_000,
            Refusal::HeaderUnreadable(BadEntry::Count),
        ),
        (HEADER, "64", SAMPLE_KEY, 65_473, Refusal::TooLong),
    ] {
        let words = add(&day, header, stretch, &["--key", key]);
        refused(&words, &vec![0; text], refusal, "");
    }
}

/// The longest record that fits, and one byte more.
#[test]
fn a_full_file() {
    let folder = folder("day_add_full");
    let day = file(&folder, "day", &[0; 12]);
    let fits = 65_536 - 12 - 5 - 11;
    let words = add(&day, "010000", "0", &[]);
    let full = Refusal::OutputTooShort;
    let empty = "; the file has 12 bytes of at most 65536";
    refused(&words, &vec![7; fits + 1], full, empty);
    refused(&words, &[7; 70_000], full, empty);
    done(&jarrovento(&words, &vec![7; fits]));
    let expected = file_of(&[[1, 0, 0]], &[(0, 0, vec![7; fits])]);
    assert_eq!(fs::read(&day).unwrap(), expected);
    refused(
        &words,
        b"",
        full,
        "; the file has 65536 bytes of at most 65536",
    );
    // What is cleared out makes room.
    done(&jarrovento(&["day", "clear", &day, "--drop", "0"], b""));
    assert_eq!(fs::read(&day).unwrap(), [0; 12]);
    done(&jarrovento(&words, &vec![7; fits]));
}

/// The file keeps its permissions, a link leads to the new file, and nothing is left.
#[test]
fn links_and_permissions() {
    let folder = folder("day_edits_links");
    let day = sample_in(&folder);
    fs::set_permissions(&day, Permissions::from_mode(0o640)).unwrap();
    let link = Link::to("day", folder.join("link"));
    let words = ["day", "clear", link.to_str().unwrap(), "--drop", "0"];
    done(&jarrovento(&words, b""));
    assert!(link.is_symlink());
    assert_eq!(fs::read(&day).unwrap(), cleared(&[0]));
    let mode = fs::metadata(&day).unwrap().permissions().mode() & 0o7777;
    assert_eq!(mode, 0o640);
    assert_eq!(names(&folder), ["day", "link"]);
}

/// Nothing but a file can be replaced, as here a pipe. No device is named: were the
/// command wrong, it would replace it.
#[test]
fn what_is_no_file() {
    let folder = folder("no_file");
    let pipe = folder.join("pipe");
    let made = Command::new("mkfifo").arg(&pipe).status();
    assert!(made.unwrap().success());
    let pipe = pipe.to_str().unwrap();
    for words in [
        &["day", "clear", pipe, "--drop", "0"][..],
        &add(pipe, HEADER, "4", &[]),
    ] {
        let message = format!("{pipe}: not a file that can be replaced");
        fails(&jarrovento(words, b""), 74, &message);
    }
}
