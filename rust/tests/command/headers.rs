//! `header`: log headers.

use std::ffi::OsStr;
use std::os::unix::ffi::OsStrExt;

use support::unhex;

use crate::{done, jarrovento};

#[test]
fn headers() {
    let run = jarrovento(
        &["header", "--nonce", "01", "--host", "n7", "--locale", "de"],
        b"",
    );
    done(&run);
    assert_eq!(run.stdout, unhex("0400010100026e37000000026465"));

    let items = ["--nonce", "0aFF", "--host", "", "--collector", "c"];
    let run = jarrovento(&[&["header", "--hex-out"], &items[..]].concat(), b"");
    done(&run);
    assert_eq!(run.stdout, b"0400020aff00000001630000\n");
}

/// A collector or a locale that is not given is one without bytes, and each has its
/// own place.
#[test]
fn items_that_are_not_given() {
    let n7 = ["header", "--hex-out", "--nonce", "01", "--host", "n7"];
    for (items, expected) in [
        (&[][..], "0400010100026e3700000000\n"),
        (&["--collector", ""], "0400010100026e3700000000\n"),
        (&["--locale", ""], "0400010100026e3700000000\n"),
        (&["--locale", "de"], "0400010100026e37000000026465\n"),
        (
            &["--locale", "de", "--collector", ""],
            "0400010100026e37000000026465\n",
        ),
        (&["--collector", "de"], "0400010100026e37000264650000\n"),
        (
            &["--locale", "", "--collector", "de"],
            "0400010100026e37000264650000\n",
        ),
    ] {
        let run = jarrovento(&[&n7, items].concat(), b"");
        done(&run);
        assert_eq!(String::from_utf8(run.stdout).unwrap(), expected);
    }
}

#[test]
fn a_host_need_not_be_text() {
    let words = [
        &b"header"[..],
        b"--host",
        &[0xff, 0x80],
        b"--nonce",
        b"",
        b"--hex-out",
    ];
    let run = jarrovento(&words.map(OsStr::from_bytes), b"");
    done(&run);
    assert_eq!(run.stdout, b"0400000002ff8000000000\n");
}
