//! `seal` and then `open`, by streams and by files, as bytes and as hex.

use std::fs;

use support::{counting, four_strings, hex, Source};

use crate::{done, file, folder, jarrovento, words, HELLO};

#[test]
fn from_standard_input_to_standard_output() {
    let folder = folder("streams");
    let key = file(&folder, "key", &counting(48));
    let sealed = jarrovento(&words("seal", &key, "16", &[]), b"hello");
    done(&sealed);
    assert_eq!(hex(&sealed.stdout), HELLO);
    let opened = jarrovento(&words("open", &key, "16", &[]), &sealed.stdout);
    done(&opened);
    assert_eq!(opened.stdout, b"hello");
}

#[test]
fn from_file_to_file_in_hex() {
    let folder = folder("files");
    let key = file(&folder, "key", &counting(48));
    let text = file(&folder, "text", b"hello");
    let sealed = file(
        &folder,
        "sealed",
        b"what was here before, and is longer than what comes",
    );
    let opened = file(&folder, "opened", b"");

    done(&jarrovento(
        &words(
            "seal",
            &key,
            "16",
            &["--in", &text, "--out", &sealed, "--hex-out"],
        ),
        b"",
    ));
    assert_eq!(
        fs::read(&sealed).unwrap(),
        format!("{HELLO}\n").into_bytes()
    );
    done(&jarrovento(
        &words(
            "open",
            &key,
            "16",
            &["--hex-in", "--in", &sealed, "--out", &opened],
        ),
        b"",
    ));
    assert_eq!(fs::read(&opened).unwrap(), b"hello");
}

#[test]
fn hex_of_either_case_with_white_space() {
    let folder = folder("hex");
    let key = file(&folder, "key", &counting(48));
    let (first, second) = HELLO.split_at(13);
    let input = format!(" {}\n\t{second}\r\n", first.to_uppercase());
    let opened = jarrovento(
        &words("open", &key, "16", &["--hex-in", "--hex-out"]),
        input.as_bytes(),
    );
    done(&opened);
    assert_eq!(opened.stdout, b"68656c6c6f\n");
}

#[test]
fn keys_and_headers_in_hex_or_not() {
    let folder = folder("forms");
    let header = file(&folder, "header", &four_strings());
    for (name, content) in [
        ("bytes", counting(48)),
        ("digits", hex(&counting(48)).into_bytes()),
        ("line", (hex(&counting(48)) + "\n").into_bytes()),
    ] {
        let key = file(&folder, name, &content);
        let words = [
            "seal",
            "--key",
            &key,
            "--header-file",
            &header,
            "--stretch",
            "16",
        ];
        let sealed = jarrovento(&words, b"hello");
        done(&sealed);
        assert_eq!(hex(&sealed.stdout), HELLO);
    }
}

#[test]
fn any_bytes_of_any_length() {
    let folder = folder("bytes");
    let key = file(&folder, "key", &counting(48));
    let mut source = Source::new(61);
    for (stretch, length) in [("0", 0), ("4", 0), ("0", 1), ("4", 300), ("64", 65_472)] {
        let text = source.bytes(length);
        let sealed = jarrovento(&words("seal", &key, stretch, &[]), &text);
        done(&sealed);
        assert_eq!(
            sealed.stdout.len(),
            length + stretch.parse::<usize>().unwrap()
        );
        let opened = jarrovento(&words("open", &key, stretch, &[]), &sealed.stdout);
        done(&opened);
        assert!(opened.stdout == text);
    }
}
