//! The library's refusals, as the command reports them.

use std::fs;
use std::path::Path;

use jarrovento::{BadEntry, Refusal};
use support::{counting, hex, unhex};

use crate::{fails, file, folder, jarrovento, words, HELLO};

/// A refusal is said, is the exit status, and leaves the output file alone.
#[track_caller]
fn refused(folder: &Path, words: &[&str], input: &[u8], refusal: Refusal) {
    let out = file(folder, "out", b"as it was");
    let run = jarrovento(&[words, &["--out", &out]].concat(), input);
    fails(&run, refusal.number() as i32, &refusal.to_string());
    assert_eq!(fs::read(&out).unwrap(), b"as it was");
}

#[test]
fn refusals_of_sealing_and_opening() {
    let folder = folder("refusals");
    let key = file(&folder, "key", &counting(48));
    let mut damaged = unhex(HELLO);
    damaged[7] ^= 1;
    for command in ["seal", "open"] {
        for stretch in ["65", "4294967300", "18446744073709551615"] {
            refused(
                &folder,
                &words(command, &key, stretch, &[]),
                b"hello",
                Refusal::StretchTooLong,
            );
        }
        let bad_header = [command, "--key", &key, "--header", "0000", "--stretch", "4"];
        refused(
            &folder,
            &bad_header,
            b"hello",
            Refusal::HeaderUnreadable(BadEntry::Count),
        );
        refused(
            &folder,
            &words(command, &key, "0", &[]),
            &[0; 65_537],
            Refusal::TooLong,
        );
    }
    refused(
        &folder,
        &words("seal", &key, "64", &[]),
        &[0; 65_473],
        Refusal::TooLong,
    );
    refused(
        &folder,
        &words("open", &key, "6", &[]),
        b"hello",
        Refusal::ShorterThanStretch,
    );
    refused(
        &folder,
        &words("open", &key, "16", &[]),
        &damaged,
        Refusal::CheckFails,
    );
}

#[test]
fn key_files_that_hold_no_key() {
    let folder = folder("keys");
    let digits = hex(&counting(48));
    for content in [
        &[][..],
        &counting(47),
        &counting(49),
        &digits.as_bytes()[..94],
        [digits.as_bytes(), b"00"].concat().as_slice(),
        &[b'g'; 96],
    ] {
        let key = file(&folder, "key", content);
        for command in ["seal", "open"] {
            refused(
                &folder,
                &words(command, &key, "4", &[]),
                b"hello",
                Refusal::KeyLength,
            );
        }
    }
}

/// A key file that holds no key is told before all that document 01 tests later.
#[test]
fn the_key_is_tested_first() {
    let folder = folder("key_first");
    let key = file(&folder, "key", &counting(47));
    for command in ["seal", "open"] {
        refused(
            &folder,
            &words(command, &key, "65", &[]),
            b"hello",
            Refusal::KeyLength,
        );
        let bad_header = [command, "--key", &key, "--header", "00", "--stretch", "0"];
        refused(&folder, &bad_header, b"hello", Refusal::KeyLength);
        refused(
            &folder,
            &words(command, &key, "0", &[]),
            &[0; 65_537],
            Refusal::KeyLength,
        );
    }
    // Files are read before: what can't be read is told first.
    let missing = folder.join("missing");
    let missing = missing.to_str().unwrap();
    let words = words("seal", &key, "65", &["--in", missing]);
    fails(
        &jarrovento(&words, b""),
        74,
        &format!("{missing}: No such file or directory (os error 2)"),
    );
}

#[test]
fn items_of_a_header_that_are_too_long() {
    let folder = folder("items");
    let long = "x".repeat(1_025);
    for name in ["--host", "--collector", "--locale"] {
        let mut words = vec!["header", "--nonce", "01"];
        if name != "--host" {
            words.extend(["--host", "n7"]);
        }
        words.extend([name, &long]);
        refused(&folder, &words, b"", Refusal::ItemTooLong);
    }
    let nonce = "00".repeat(1_025);
    refused(
        &folder,
        &["header", "--nonce", &nonce, "--host", "n7"],
        b"",
        Refusal::ItemTooLong,
    );
}
