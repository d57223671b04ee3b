//! `report`, as a line and at length.

use std::fs;

use jarrovento::Refusal;
use second::{document01, ledger};
use support::{counting, day_file as file_of, header};

use crate::{done, fails, file, folder, jarrovento, SAMPLE_DAY, SAMPLE_KEY};

/// What `report` writes of a file, with these options too.
#[track_caller]
fn reported(day: &str, more: &[&str]) -> String {
    let words = [&["report", day, "--key", SAMPLE_KEY], more].concat();
    let run = jarrovento(&words, b"");
    done(&run);
    String::from_utf8(run.stdout).unwrap()
}

/// The second program's line, with the sample's key.
fn expected(day: &[u8]) -> String {
    let mut out = [0; 100];
    let answer = ledger::report(&counting(48), day, &mut out);
    assert_eq!(answer.number, 0);
    String::from_utf8(out[..answer.length].to_vec()).unwrap()
}

fn record(number: u16, header: &[u8], text: &str) -> (u16, u8, Vec<u8>) {
    let mut sealed = vec![0; text.len() + 4];
    document01::seal(&counting(48), header, 4, text.as_bytes(), &mut sealed);
    (number, 4, sealed)
}

#[test]
fn the_sample_s_line() {
    let line = "3 1 3278000 1204000 3278000/3\n";
    assert_eq!(reported(SAMPLE_DAY, &[]), line);
    assert_eq!(expected(&fs::read(SAMPLE_DAY).unwrap()), line);
    // The file last, and into a file.
    let out = file(&folder("report_out"), "out", b"before");
    let words = ["report", "--out", &out, "--key", SAMPLE_KEY, SAMPLE_DAY];
    let run = jarrovento(&words, b"");
    done(&run);
    assert!(run.stdout.is_empty());
    assert_eq!(fs::read(&out).unwrap(), line.as_bytes());
}

#[test]
fn a_day_without_records() {
    let empty = file(&folder("report_empty"), "day", &[0; 12]);
    assert_eq!(reported(&empty, &[]), "0 0 0 0 0/1\n");
    let long = "\
records read     0
records refused  0
sum              0 microseconds, 0.000000 s
longest          0 microseconds, 0.000000 s
mean             0/1 microseconds, 0.000000 s
";
    assert_eq!(reported(&empty, &["--long"]), long);
}

/// Records refused for each number there is, some of them twice; the rest are read.
#[test]
fn a_long_report_counts_each_refusal() {
    let headers =
        ["de", "en", "es"].map(|locale| header(&[&[1][..], b"n7", b"", locale.as_bytes()]));
    let [de, en, es] = &headers;
    let mut damaged = record(0, de, "1 s");
    damaged.2[0] ^= 1;
    let records = [
        record(0, de, "1,204 s"),
        record(1, de, "1,204 s"),
        record(2, es, "1 s"),
        record(1, en, "0.001 ms"),
        record(0, de, "1.204 s"),
        damaged,
        (0, 4, vec![9; 3]),
        record(1, en, "1,204 s"),
        record(0, de, "999999999,999 s"),
    ];
    let day = file_of(&headers, &records);
    let name = file(&folder("report_long"), "day", &day);
    let line = reported(&name, &[]);
    assert_eq!(line, expected(&day));
    assert_eq!(
        line,
        "3 6 1000000001203001 999999999999000 1000000001203001/3\n"
    );
    let meanings = [
        Refusal::ShorterThanStretch,
        Refusal::CheckFails,
        Refusal::LocaleUnknown,
        Refusal::NotAPause,
    ]
    .map(Refusal::meaning);
    let long = format!(
        "\
records read     3
records refused  6
  by refusal 5   1: {}
  by refusal 7   2: {}
  by refusal 15  1: {}
  by refusal 16  2: {}
sum              1000000001203001 microseconds, 1000000001.203001 s
longest          999999999999000 microseconds, 999999999.999000 s
mean             1000000001203001/3 microseconds, 333333333.734333 s and 2/3 of a microsecond
",
        meanings[0], meanings[1], meanings[2], meanings[3]
    );
    assert_eq!(reported(&name, &["--long"]), long);
}

/// 9 and then 1, each with its words; the output file is left alone.
#[test]
fn refusals_of_reporting() {
    let folder = folder("report_refusals");
    let out = file(&folder, "out", b"as it was");
    let short_key = file(&folder, "short", &counting(47));
    let sample = fs::read(SAMPLE_DAY).unwrap();
    let cut = file(&folder, "cut", &sample[..sample.len() - 1]);
    let empty = file(&folder, "empty", &[0; 12]);
    for more in [&[][..], &["--long"]] {
        let words = |day, key| [&["report", day, "--key", key, "--out", &out], more].concat();
        for key in [SAMPLE_KEY, &short_key] {
            for day in [&cut, SAMPLE_KEY, "/dev/zero", "/dev/null"] {
                let message = format!("{}; the file does not read", Refusal::DayUnreadable);
                fails(&jarrovento(&words(day, key), b""), 9, &message);
            }
        }
        for day in [SAMPLE_DAY, &empty] {
            let message = Refusal::KeyLength.to_string();
            fails(&jarrovento(&words(day, &short_key), b""), 1, &message);
        }
    }
    assert_eq!(fs::read(&out).unwrap(), b"as it was");
}

/// Under another key every record is refused, and the report says so and is done.
#[test]
fn another_key() {
    let other = file(&folder("report_other"), "key", &[7; 48]);
    let run = jarrovento(&["report", SAMPLE_DAY, "--key", &other], b"");
    done(&run);
    assert_eq!(run.stdout, b"0 4 0 0 0/1\n");
}
