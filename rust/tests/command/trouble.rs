//! Command lines that are wrong, input that is not hex, and files in trouble.

use std::fs::File;
use std::process::Stdio;

use support::counting;

use crate::{fails, file, folder, jarrovento, program, words, HEADER, SAMPLE_DAY, SAMPLE_KEY};

#[test]
fn wrong_command_lines() {
    let key = ["--key", "key"];
    let header = ["--header", HEADER];
    let stretch = ["--stretch", "4"];
    let cases: [(Vec<&str>, &str); 52] = [
        (vec![], "no command"),
        (vec!["sale"], "no such command: sale"),
        (vec!["demo", "more"], "no such option here: more"),
        (vec!["header", "--key", "key"], "no such option here: --key"),
        (vec!["header", "--host", "n7"], "--nonce is missing"),
        (vec!["header", "--nonce", "01"], "--host is missing"),
        (vec!["header", "--nonce"], "--nonce has no value after it"),
        (
            vec!["header", "--nonce", "1", "--host", "n7"],
            "--nonce is not pairs of hex digits",
        ),
        (
            vec!["header", "--nonce", "+1", "--host", "n7"],
            "--nonce is not pairs of hex digits",
        ),
        (vec!["check-header"], "--header or --header-file is missing"),
        (
            vec!["check-header", "--header", "0"],
            "--header is not pairs of hex digits",
        ),
        (
            vec!["check-header", "--nonce", "01"],
            "no such option here: --nonce",
        ),
        (
            [&["seal"], &header[..], &stretch].concat(),
            "--key is missing",
        ),
        (
            [&["seal"], &key[..], &stretch].concat(),
            "--header or --header-file is missing",
        ),
        (
            [&["open"], &key[..], &header].concat(),
            "--stretch is missing",
        ),
        (
            [
                &["open"],
                &key[..],
                &header,
                &stretch,
                &["--header-file", "file"],
            ]
            .concat(),
            "--header and --header-file are both given",
        ),
        ([&["seal"], &key[..], &key].concat(), "--key is given twice"),
        (
            vec!["seal", "--hex-in", "--hex-in"],
            "--hex-in is given twice",
        ),
        (
            [&["seal"], &key[..], &["--header", "0g"], &stretch].concat(),
            "--header is not pairs of hex digits",
        ),
        (
            [&["seal"], &key[..], &header, &["--stretch", "-1"]].concat(),
            "--stretch -1 is not a number of bytes",
        ),
        (
            [
                &["seal"],
                &key[..],
                &header,
                &["--stretch", "18446744073709551616"],
            ]
            .concat(),
            "--stretch 18446744073709551616 is not a number of bytes",
        ),
        (
            [&["seal"], &key[..], &header, &["--stretch", ""]].concat(),
            "--stretch  is not a number of bytes",
        ),
        (vec!["day"], "no command after day"),
        (vec!["day", "close"], "no such command: day close"),
        (vec!["day", "list"], "the file is missing"),
        (
            vec!["day", "list", "one", "two"],
            "a second file is given: two",
        ),
        (
            vec!["day", "list", "file", "--key", "key"],
            "no such option here: --key",
        ),
        (
            vec!["day", "open", "file", "--key", "key"],
            "--record is missing",
        ),
        (
            vec!["day", "open", "file", "--record", "0"],
            "--key is missing",
        ),
        (
            vec!["day", "open", "--record", "0", "--key", "key"],
            "the file is missing",
        ),
        (
            vec!["day", "open", "file", "--record", "-1", "--key", "key"],
            "--record -1 is not the number of a record",
        ),
        (
            vec!["day", "open", "file", "--record", "18446744073709551616"],
            "--record 18446744073709551616 is not the number of a record",
        ),
        (vec!["day", "write", "file"], "no such option here: file"),
        (vec!["day", "clear", "--drop", "1"], "the file is missing"),
        (vec!["day", "clear", "file"], "--drop is missing"),
        (
            vec!["day", "clear", "file", "--drop", "1,,4"],
            "--drop 1,,4 is not a list of record numbers like 1,4,7",
        ),
        (
            vec!["day", "clear", "file", "--drop", "1, 4"],
            "--drop 1, 4 is not a list of record numbers like 1,4,7",
        ),
        (
            vec!["day", "clear", "file", "--drop", "-1"],
            "--drop -1 is not a list of record numbers like 1,4,7",
        ),
        (
            vec!["day", "clear", "file", "--drop", "0,18446744073709551616"],
            "--drop 0,18446744073709551616 is not a list of record numbers like 1,4,7",
        ),
        (
            vec!["day", "clear", "file", "--drop", "1", "--out", "out"],
            "no such option here: --out",
        ),
        (
            vec!["day", "add", "file", "--stretch", "4"],
            "--header, --header-file or --header-number is missing",
        ),
        (
            vec!["day", "add", "file", "--header", HEADER],
            "--stretch is missing",
        ),
        (
            vec!["day", "add", "--header", HEADER, "--stretch", "4"],
            "the file is missing",
        ),
        (
            vec!["day", "add", "file", "--header-number", "-1"],
            "--header-number -1 is not the number of a header",
        ),
        (
            vec![
                "day",
                "add",
                "file",
                "--header-number",
                "0",
                "--header",
                HEADER,
            ],
            "--header and --header-number are both given",
        ),
        (
            vec![
                "day",
                "add",
                "file",
                "--header",
                HEADER,
                "--header-file",
                "file",
            ],
            "--header and --header-file are both given",
        ),
        (
            vec!["day", "add", "file", "--header", "0", "--stretch", "4"],
            "--header is not pairs of hex digits",
        ),
        (vec!["report", "--key", "key"], "the file is missing"),
        (vec!["report", "file"], "--key is missing"),
        (
            vec!["report", "file", "--key", "key", "--hex-out"],
            "no such option here: --hex-out",
        ),
        (
            vec!["report", "file", "--long", "--long"],
            "--long is given twice",
        ),
        (vec!["day", "write", "--in"], "--in has no value after it"),
    ];
    for (words, message) in cases {
        fails(
            &jarrovento(&words, b""),
            64,
            &format!("{message}; see jarrovento --help"),
        );
    }
}

#[test]
fn input_that_is_not_hex() {
    let folder = folder("not_hex");
    let key = file(&folder, "key", &counting(48));
    for input in ["0", "0g", "012", "zz", "é"] {
        let run = jarrovento(&words("open", &key, "0", &["--hex-in"]), input.as_bytes());
        fails(&run, 65, "what was read is not pairs of hex digits");
    }
}

#[test]
fn files_that_cannot_be_read_or_written() {
    let folder = folder("trouble");
    let key = file(&folder, "key", &counting(48));
    let missing = folder.join("missing").join("file");
    let missing = missing.to_str().unwrap();
    let is_a_folder = folder.to_str().unwrap();
    for words in [
        words("seal", missing, "4", &[]),
        words("seal", &key, "4", &["--in", missing]),
        words("seal", &key, "4", &["--out", missing]),
        vec![
            "seal",
            "--key",
            &key,
            "--header-file",
            missing,
            "--stretch",
            "4",
        ],
        vec!["header", "--nonce", "01", "--host", "n7", "--out", missing],
        vec!["check-header", "--header-file", missing],
        vec!["day", "list", missing],
        vec!["day", "open", missing, "--record", "0", "--key", &key],
        vec!["day", "open", &key, "--record", "0", "--key", missing],
        vec!["day", "write", "--in", missing],
        vec!["day", "clear", missing, "--drop", "0"],
        vec!["day", "add", missing, "--header", HEADER, "--stretch", "4"],
        vec![
            "day",
            "add",
            &key,
            "--header",
            HEADER,
            "--stretch",
            "4",
            "--in",
            missing,
        ],
        vec![
            "day",
            "add",
            &key,
            "--header",
            HEADER,
            "--stretch",
            "4",
            "--key",
            missing,
        ],
        vec!["report", missing, "--key", &key],
        vec!["report", &key, "--key", missing],
    ] {
        let run = jarrovento(&words, b"hello");
        fails(
            &run,
            74,
            &format!("{missing}: No such file or directory (os error 2)"),
        );
    }
    for words in [
        words("open", &key, "0", &["--in", is_a_folder]),
        vec!["day", "list", is_a_folder],
        vec!["day", "write", "--in", is_a_folder],
        vec!["day", "clear", is_a_folder, "--drop", "0"],
    ] {
        fails(
            &jarrovento(&words, b""),
            74,
            &format!("{is_a_folder}: Is a directory (os error 21)"),
        );
    }
}

#[test]
fn standard_output_that_is_full() {
    for words in [
        &["--help"][..],
        &["demo"],
        &["header", "--nonce", "01", "--host", "n7"],
        &["check-header", "--header", HEADER],
        &["day", "write"],
        &["day", "list", SAMPLE_DAY],
        &["day", "list", SAMPLE_DAY, "--hex-out"],
        &["report", SAMPLE_DAY, "--key", SAMPLE_KEY],
    ] {
        let full = File::options().write(true).open("/dev/full").unwrap();
        let output = program()
            .args(words)
            .stdin(Stdio::null())
            .stdout(full)
            .output()
            .unwrap();
        assert_eq!(output.status.code(), Some(74));
        let message = String::from_utf8(output.stderr).unwrap();
        assert!(
            message.starts_with("jarrovento: standard output: "),
            "{message}"
        );
    }
}
