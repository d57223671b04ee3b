//! `day write`, and the lines that it reads and `day list --hex-out` writes.

use std::fs;
use std::path::Path;
use std::process::Command;

use jarrovento::{BadEntry, Refusal};
use support::{day_file, header, hex, Source};

use crate::{done, fails, file, folder, jarrovento, program, run, SAMPLE_DAY};

const SAMPLE_LINES: &str = concat!(env!("CARGO_MANIFEST_DIR"), "/sample/pauses.txt");

/// The file that is written of these lines.
#[track_caller]
fn written(lines: &str) -> Vec<u8> {
    let run = jarrovento(&["day", "write"], lines.as_bytes());
    done(&run);
    run.stdout
}

/// Holds writing to a refusal, which leaves the output file alone.
#[track_caller]
fn refused(folder: &Path, lines: &str, refusal: Refusal, more: &str) {
    let out = file(folder, "out", b"as it was");
    let run = jarrovento(&["day", "write", "--out", &out], lines.as_bytes());
    fails(&run, refusal.number() as i32, &format!("{refusal}{more}"));
    assert_eq!(fs::read(&out).unwrap(), b"as it was");
}

#[test]
fn the_sample_is_what_is_written_of_its_lines() {
    let sample = fs::read(SAMPLE_DAY).unwrap();
    let folder = folder("day_write");
    let out = file(&folder, "out", b"before");
    let words = ["day", "write", "--in", SAMPLE_LINES, "--out", &out];
    done(&jarrovento(&words, b""));
    assert_eq!(fs::read(&out).unwrap(), sample);

    let listed = jarrovento(&["day", "list", SAMPLE_DAY, "--hex-out"], b"");
    done(&listed);
    assert_eq!(listed.stdout, fs::read(SAMPLE_LINES).unwrap());

    let in_hex = jarrovento(&["day", "write", "--hex-out"], &listed.stdout);
    done(&in_hex);
    assert_eq!(in_hex.stdout, (hex(&sample) + "\n").into_bytes());
}

/// Equal headers are kept once, and numbered as they come first.
#[test]
fn equal_headers_are_kept_once() {
    let file = written("010000 0 aa\n01000107 4 bbcc\n010000 64 -\n01000107 0 dd\n");
    let headers = [vec![1, 0, 0], vec![1, 0, 1, 7]];
    let records = [
        (0, 0, vec![0xaa]),
        (1, 4, vec![0xbb, 0xcc]),
        (0, 64, vec![]),
        (1, 0, vec![0xdd]),
    ];
    assert_eq!(hex(&file), hex(&day_file(&headers, &records)));
}

#[test]
fn white_space_and_no_lines() {
    let expected = written("010000 4 aa\n01000107 0 -\n");
    for lines in [
        "010000 4 aa\n01000107 0 -",
        "\n  010000\t4 \t AA  \r\n\n \n01000107 0 -\n\n",
        "010000 +4 aa\n01000107 000 -\n",
    ] {
        assert_eq!(written(lines), expected);
    }
    for lines in ["", "\n", " \n\n"] {
        assert_eq!(written(lines), [0; 12]);
    }
}

#[test]
fn lines_that_are_no_records() {
    let fields = "is not a header, a stretch and a sealed string";
    let not_hex = "has a header or a sealed string that is not pairs of hex digits";
    let stretch = "has a stretch that is not a number of bytes";
    for (line, what) in [
        ("010000", fields),
        ("010000 4", fields),
        ("010000 4 aa bb", fields),
        ("0100 4 a", not_hex),
        ("0100g 4 aa", not_hex),
        ("- 4 aa", not_hex),
        ("010000 4 --", not_hex),
        ("010000 4 é", not_hex),
        ("010000 -4 aa", stretch),
        ("010000 four aa", stretch),
        ("010000 18446744073709551616 aa", stretch),
        ("010000 é aa", stretch),
    ] {
        for (lines, number) in [
            (format!("{line}\n"), 1),
            (format!("010000 4 aa\n\n{line}\n00 0 -"), 3),
        ] {
            let run = jarrovento(&["day", "write"], lines.as_bytes());
            fails(&run, 65, &format!("line {number} {what}"));
        }
    }
}

/// The first line that can't be in a day file is told.
#[test]
fn lines_outside_the_layout() {
    let folder = folder("day_outside");
    let unreadable = Refusal::DayUnreadable;
    let of = |line: u32, entry: u32| {
        let entry = BadEntry::from_number(entry).unwrap();
        format!("; line {line}: the header does not read, {entry}")
    };
    refused(&folder, "00 4 aa\n", unreadable, &of(1, 0));
    refused(&folder, "010000 4 aa\n\n0100 4 aa\n", unreadable, &of(3, 1));
    refused(&folder, "01000000 4 aa\n00 4 aa\n", unreadable, &of(1, 17));
    for stretch in ["65", "256", "18446744073709551615"] {
        refused(
            &folder,
            &format!("010000 4 aa\n010000 {stretch} aa\n00 4 aa\n"),
            unreadable,
            "; line 2: the stretch is above 64 bytes",
        );
    }
}

/// A file of 65,536 bytes is written, and with a byte more it is too long, unless a
/// line before, or that line, can't be in a day file.
#[test]
fn the_longest_file() {
    let folder = folder("day_longest");
    let mut source = Source::new(111);
    let sealed = source.bytes(65_536 - 12 - 5 - 11);
    let longest = format!("010000 4 {}\n", hex(&sealed));
    let file = written(&longest);
    assert_eq!(file, day_file(&[[1, 0, 0]], &[(0, 4, sealed.clone())]));
    assert_eq!(file.len(), 65_536);

    let longer = format!("010000 4 {}00\n", hex(&sealed));
    refused(&folder, &longer, Refusal::TooLong, "");
    refused(
        &folder,
        &(longest.clone() + "010000 4 -\n"),
        Refusal::TooLong,
        "",
    );
    refused(
        &folder,
        &format!("010000 65 {}00\n", hex(&sealed)),
        Refusal::DayUnreadable,
        "; line 1: the stretch is above 64 bytes",
    );
    refused(
        &folder,
        &(longest + "010000 65 -\n"),
        Refusal::DayUnreadable,
        "; line 2: the stretch is above 64 bytes",
    );
}

/// As many records as a file holds, and back.
#[test]
fn full_of_the_shortest_records() {
    let folder = folder("day_full");
    let lines = "010000 0 -\n".repeat(5_956);
    let day = file(&folder, "day", &written(&lines));
    let listed = jarrovento(&["day", "list", &day, "--hex-out"], b"");
    done(&listed);
    assert_eq!(listed.stdout, lines.as_bytes());
    refused(&folder, &(lines + "010000 0 -\n"), Refusal::TooLong, "");
}

/// The longest header there is, in a line.
#[test]
fn the_longest_line() {
    let longest = header(&vec![[7; 1_024]; 16]);
    let sealed = vec![9; 65_536 - 12 - 2 - longest.len() - 11];
    let lines = format!("{} 64 {}", hex(&longest), hex(&sealed));
    assert_eq!(written(&lines).len(), 65_536);
    let endless = "0".repeat(200_001);
    fails(
        &jarrovento(&["day", "write"], endless.as_bytes()),
        65,
        "line 1 is too long",
    );
}

#[test]
fn lines_without_an_end() {
    let mut shell = Command::new("sh");
    shell
        .args(["-c", "yes '010000 4 aa' | \"$0\" day write"])
        .arg(program().get_program());
    let refusal = Refusal::TooLong;
    fails(&run(&mut shell, b""), 4, &refusal.to_string());
    let run = jarrovento(&["day", "write", "--in", "/dev/zero"], b"");
    fails(&run, 65, "line 1 is too long");
}
