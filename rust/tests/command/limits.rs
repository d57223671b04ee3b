//! Input that is longer than any use of it, or has no end.

use std::fs::File;
use std::io::Seek;
use std::process::{Command, Stdio};

use jarrovento::{BadEntry, Refusal};
use support::{counting, hex};

use crate::{done, fails, file, folder, jarrovento, program, run, words};

#[track_caller]
fn refused(words: &[&str], refusal: Refusal) {
    let run = jarrovento(words, b"hello");
    fails(&run, refusal.number() as i32, &refusal.to_string());
}

#[test]
fn files_without_an_end() {
    let folder = folder("endless");
    let key = file(&folder, "key", &counting(48));
    let endless = "/dev/zero";
    for command in ["seal", "open"] {
        refused(
            &words(command, &key, "4", &["--in", endless]),
            Refusal::TooLong,
        );
        refused(&words(command, endless, "4", &[]), Refusal::KeyLength);
        let header = [
            command,
            "--key",
            &key,
            "--header-file",
            endless,
            "--stretch",
            "4",
        ];
        refused(&header, Refusal::HeaderUnreadable(BadEntry::Count));
    }
}

#[test]
fn hex_without_an_end() {
    let folder = folder("endless_hex");
    let key = file(&folder, "key", &counting(48));
    let mut shell = Command::new("sh");
    shell
        .args(["-c", "yes '0 a' | \"$0\" \"$@\""])
        .arg(program().get_program())
        .args(words("open", &key, "4", &["--hex-in"]));
    let refusal = Refusal::TooLong;
    fails(
        &run(&mut shell, b""),
        refusal.number() as i32,
        &refusal.to_string(),
    );
}

/// Standard input that is a file: what the command has not read is still there.
#[test]
fn no_more_than_is_of_use_is_read() {
    let folder = folder("position");
    let key = file(&folder, "key", &counting(48));
    let long = file(&folder, "long", &[b'0'; 1_000_000]);
    // Digits are read in pieces of some thousand.
    let hex = 2 * 65_537;
    for (more, expected) in [
        (&[][..], 65_537..65_538),
        (&["--hex-in"], hex..hex + 10_000),
    ] {
        let mut input = File::open(&long).unwrap();
        let status = program()
            .args(words("seal", &key, "4", more))
            .stdin(Stdio::from(input.try_clone().unwrap()))
            .stderr(Stdio::null())
            .status()
            .unwrap();
        assert_eq!(status.code(), Some(4));
        let position = input.stream_position().unwrap();
        assert!(expected.contains(&position), "{position}");
    }
}

/// In hex a string of 65,536 bytes opens, and one byte more is too many, whatever
/// follows it.
#[test]
fn the_longest_string_in_hex() {
    let folder = folder("longest_hex");
    let key = file(&folder, "key", &counting(48));
    let open = words("open", &key, "0", &["--hex-in"]);
    let longest = hex(&counting(65_536));
    let opened = jarrovento(&open, longest.as_bytes());
    done(&opened);
    assert_eq!(opened.stdout.len(), 65_536);
    let refusal = Refusal::TooLong;
    for more in ["00", "00\n", "00 not hex", "000"] {
        let run = jarrovento(&open, (longest.clone() + more).as_bytes());
        fails(&run, refusal.number() as i32, &refusal.to_string());
    }
}

/// Digits may stand far apart in a key file, but a file that was not read to its end
/// is no key.
#[test]
fn the_longest_key_file() {
    let folder = folder("longest_key");
    let mut content = hex(&counting(48)).into_bytes();
    content.resize(65_536, b' ');
    let key = file(&folder, "key", &content);
    done(&jarrovento(&words("seal", &key, "4", &[]), b"hello"));
    for more in [" ", " and more"] {
        let longer = [&content, more.as_bytes()].concat();
        let key = file(&folder, "key", &longer);
        refused(&words("seal", &key, "4", &[]), Refusal::KeyLength);
    }
}

/// The longest header reads from a file, and does not with a byte more.
#[test]
fn the_longest_header_file() {
    let folder = folder("longest_header");
    let key = file(&folder, "key", &counting(48));
    let mut content = support::header(&vec![counting(1_024); 16]);
    let header = file(&folder, "header", &content);
    let words = |header| {
        let options = ["--header-file", header, "--stretch", "4"];
        [&["seal", "--key", &key], &options[..]].concat()
    };
    done(&jarrovento(&words(&header), b"hello"));
    content.push(0);
    let header = file(&folder, "header", &content);
    refused(
        &words(&header),
        Refusal::HeaderUnreadable(BadEntry::LeftOver),
    );
}
