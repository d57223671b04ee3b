//! `day list` and `day open`, on the sample and on files that do not read.

use std::fs;

use jarrovento::Refusal;
use second::{day_file, document01};
use support::{counting, day_file as file_of, header, hex, unhex};

use crate::{done, fails, file, folder, jarrovento, SAMPLE_DAY, SAMPLE_KEY};

const PAUSES: [(u8, &str, &str, &str); 4] = [
    (1, "n7", "de", "1,204 s"),
    (2, "n7", "de", "870 ms"),
    (1, "n8", "en", "1.204 s"),
    (2, "n8", "en", "1,204 s"),
];

/// What follows refusal 9.
#[track_caller]
fn refused_9(words: &[&str], more: &str) {
    let refusal = Refusal::DayUnreadable;
    fails(&jarrovento(words, b""), 9, &format!("{refusal}; {more}"));
}

/// The sample is what the second program makes of the four texts.
#[test]
fn the_sample_is_the_second_program_s() {
    let mut headers = Vec::new();
    let mut records = Vec::new();
    for (number, (nonce, host, locale, text)) in (0..).zip(PAUSES) {
        let header = header(&[&[nonce][..], host.as_bytes(), b"", locale.as_bytes()]);
        let mut sealed = vec![0; text.len() + 4];
        document01::seal(&counting(48), &header, 4, text.as_bytes(), &mut sealed);
        headers.push(header);
        records.push((number, 4, sealed));
    }
    let sample = fs::read(SAMPLE_DAY).unwrap();
    assert_eq!(hex(&sample), hex(&file_of(&headers, &records)));
    assert_eq!(day_file::count(&sample).length, 4);
}

#[test]
fn records_are_listed() {
    let run = jarrovento(&["day", "list", SAMPLE_DAY], b"");
    done(&run);
    let expected = "\
record 0, stretch 4, length 11, header \"\\x01\" \"n7\" \"\" \"de\"
record 1, stretch 4, length 10, header \"\\x02\" \"n7\" \"\" \"de\"
record 2, stretch 4, length 11, header \"\\x01\" \"n8\" \"\" \"en\"
record 3, stretch 4, length 11, header \"\\x02\" \"n8\" \"\" \"en\"
";
    assert_eq!(String::from_utf8(run.stdout).unwrap(), expected);
}

/// Nothing that is not printable ASCII gets to the terminal.
#[test]
fn bytes_are_shown_safely() {
    let folder = folder("day_shown");
    let header = header(&[&b"\x1b[2J\"\\\n"[..], &[0xff]]);
    let day = file_of(&[header], &[(0, 0, vec![0x1b])]);
    let name = file(&folder, "day", &day);
    let run = jarrovento(&["day", "list", &name], b"");
    done(&run);
    let expected = "record 0, stretch 0, length 1, header \"\\x1b[2J\\\"\\\\\\n\" \"\\xff\"\n";
    assert_eq!(String::from_utf8(run.stdout).unwrap(), expected);
}

#[test]
fn records_open_by_their_number() {
    for (number, (.., text)) in PAUSES.into_iter().enumerate() {
        let number = number.to_string();
        let words = [
            "day", "open", SAMPLE_DAY, "--record", &number, "--key", SAMPLE_KEY,
        ];
        let run = jarrovento(&words, b"");
        done(&run);
        assert_eq!(String::from_utf8(run.stdout).unwrap(), text);
    }
    // The file last, as hex, and into a file.
    let folder = folder("day_open");
    let out = file(&folder, "out", b"before");
    let words = [
        "day",
        "open",
        "--record",
        "0",
        "--hex-out",
        "--key",
        SAMPLE_KEY,
        "--out",
        &out,
        SAMPLE_DAY,
    ];
    done(&jarrovento(&words, b""));
    assert_eq!(
        fs::read(&out).unwrap(),
        format!("{}\n", hex(b"1,204 s")).into_bytes()
    );
}

/// Each refusal of `day open`; the output file is left alone.
#[test]
fn refusals_of_opening() {
    let folder = folder("day_refusals");
    let out = file(&folder, "out", b"as it was");
    let short_key = file(&folder, "short", &counting(47));
    let other_key = file(&folder, "other", &[7; 48]);
    let sample = fs::read(SAMPLE_DAY).unwrap();
    let cut = file(&folder, "cut", &sample[..sample.len() - 1]);
    let long = file(&folder, "long", &[&sample[..], &[0; 70_000]].concat());
    let empty = file(&folder, "empty", &[0; 12]);
    let below = file_of(&[unhex("010000")], &[(0, 4, vec![9; 3])]);
    let below = file(&folder, "below", &below);

    let words = |day, record, key| {
        let options = ["--record", record, "--key", key, "--out", &out];
        [&["day", "open", day][..], &options].concat()
    };
    for key in [SAMPLE_KEY, &short_key] {
        let last = "the file reads, and its last record is 3";
        for record in ["4", "5", "4294967296", "18446744073709551615"] {
            refused_9(&words(SAMPLE_DAY, record, key), last);
        }
        for day in [&cut, &long, SAMPLE_KEY, "/dev/zero", "/dev/null"] {
            refused_9(&words(day, "0", key), "the file does not read");
        }
        let none = "the file reads, and has no records";
        refused_9(&words(&empty, "0", key), none);
    }
    for (day, key, refusal) in [
        (SAMPLE_DAY, &short_key[..], Refusal::KeyLength),
        (SAMPLE_DAY, &other_key, Refusal::CheckFails),
        (&below, SAMPLE_KEY, Refusal::ShorterThanStretch),
    ] {
        let run = jarrovento(&words(day, "0", key), b"");
        fails(&run, refusal.number() as i32, &refusal.to_string());
    }
    assert_eq!(fs::read(&out).unwrap(), b"as it was");
}

#[test]
fn files_that_do_not_read_are_not_listed() {
    let folder = folder("day_not_listed");
    let sample = fs::read(SAMPLE_DAY).unwrap();
    for place in [3, 5, 20, sample.len() - 1] {
        let mut damaged = sample.clone();
        damaged[place] ^= 1;
        let name = file(&folder, "day", &damaged);
        for more in [&[][..], &["--hex-out"]] {
            let words = [&["day", "list", &name], more].concat();
            refused_9(&words, "the file does not read");
        }
    }
    refused_9(&["day", "list", "/dev/zero"], "the file does not read");
}
