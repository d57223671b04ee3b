//! The second program's pauses and reports against the values that the request names,
//! and some that were worked out by hand.

use second::document01::{seal, Answer};
use second::ledger::{figures, report, report_figures};
use second::pause::read_pause;
use support::{counting, day_file, header};

const MARK: u8 = 0xa5;

fn header_of(locale: &str) -> Vec<u8> {
    header(&[&[1][..], b"n7", b"", locale.as_bytes()])
}

#[track_caller]
fn reads(locale: &str, text: &str, expected: Result<u64, u32>) {
    let read = read_pause(&header_of(locale), text.as_bytes());
    assert_eq!(read, expected, "{text:?} under {locale}");
}

#[test]
fn the_request_s_examples() {
    reads("de", "1,204 s", Ok(1_204_000));
    reads("de", "1,204 ms", Ok(1_204));
    reads("en", "1,204 s", Err(16));
    reads("en", "1,204 ms", Err(16));
    reads("en", "1.204 s", Ok(1_204_000));
    reads("de", "1.204 s", Err(16));
}

#[test]
fn each_locale_has_its_mark() {
    for (locale, comma, point) in [
        ("de", Ok(1_204), Err(16)),
        ("fr", Ok(1_204), Err(16)),
        ("it", Ok(1_204), Err(16)),
        ("en", Err(16), Ok(1_204)),
    ] {
        reads(locale, "1,204 ms", comma);
        reads(locale, "1.204 ms", point);
        reads(locale, "870 ms", Ok(870_000));
    }
}

#[test]
fn values_by_hand() {
    for (text, expected) in [
        ("0 ms", 0),
        ("0,001 ms", 1),
        ("1,2 ms", 1_200),
        ("1,20 ms", 1_200),
        ("1,02 ms", 1_020),
        ("1,2 s", 1_200_000),
        ("007,050 s", 7_050_000),
        ("000000000,0 s", 0),
        ("999999999 s", 999_999_999_000_000),
        ("999999999,999 ms", 999_999_999_999),
        ("999999999,999 s", 999_999_999_999_000),
    ] {
        reads("fr", text, Ok(expected));
    }
}

#[test]
fn texts_that_are_no_pause() {
    for text in [
        "",
        " ",
        "s",
        "ms",
        " s",
        "1",
        "1 ",
        "1s",
        "1ms",
        "1  s",
        " 1 s",
        "1 s ",
        "1 s\n",
        "1\ts",
        "1 m",
        "1 sm",
        "1 mss",
        "1 MS",
        "1 S",
        "1 us",
        "1 s s",
        "1, s",
        "1 ,2 s",
        ",5 s",
        "1,2345 s",
        "1,2,3 s",
        "1,2.3 s",
        "1.000,5 s",
        "1000000000 s",
        "-1 s",
        "+1 s",
        "1,-2 s",
        "1,+2 s",
        "0x1 s",
        "1e3 s",
        "\u{661} s",
        "1\u{a0}s",
        "1 s\0",
    ] {
        reads("it", text, Err(16));
    }
}

/// Exactly four items, the last of them one of four locales; 15 comes before 16.
#[test]
fn locales_and_headers() {
    for locale in [
        "", "d", "dE", "DE", "De", "de ", "de\0", "den", "es", "ne", "e", "n", "end",
    ] {
        reads(locale, "1 s", Err(15));
        reads(locale, "no pause", Err(15));
    }
    let strings = [&b"\x01"[..], b"n7", b"", b"de", b"de"];
    for count in [1, 2, 3, 5] {
        assert_eq!(read_pause(&header(&strings[..count]), b"1 s"), Err(15));
    }
    // "de" as the collector or the host is no locale.
    for items in [
        [&b"\x01"[..], b"n7", b"de", b""],
        [b"de", b"de", b"de", b""],
    ] {
        assert_eq!(read_pause(&header(&items), b"1 s"), Err(15));
    }
    let cut = &header_of("de")[..13];
    assert_eq!(read_pause(cut, b"1 s"), Err(3));
    assert_eq!(read_pause(&[], b"no pause"), Err(3));
}

/// A day file of these texts, each sealed with a stretch of 4 under its locale.
fn day_of(texts: &[(&str, &str)]) -> Vec<u8> {
    let mut headers = Vec::new();
    let mut records = Vec::new();
    for (number, (locale, text)) in (0..).zip(texts) {
        let header = header_of(locale);
        let mut sealed = vec![0; text.len() + 4];
        seal(&counting(48), &header, 4, text.as_bytes(), &mut sealed);
        headers.push(header);
        records.push((number, 4, sealed));
    }
    day_file(&headers, &records)
}

#[track_caller]
fn line(key: &[u8], file: &[u8]) -> Result<String, u32> {
    let mut out = [MARK; 80];
    let Answer { number, length, .. } = report(key, file, &mut out);
    assert!(out[length..].iter().all(|&byte| byte == MARK));
    match number {
        0 => Ok(String::from_utf8(out[..length].to_vec()).unwrap()),
        number => Err(number),
    }
}

#[test]
fn reports_by_hand() {
    let key = counting(48);
    for (texts, expected) in [
        (&[][..], "0 0 0 0 0/1\n"),
        (&[("en", "1,204 s")], "0 1 0 0 0/1\n"),
        (&[("en", "1,204 s"), ("xx", "1 s")], "0 2 0 0 0/1\n"),
        (&[("de", "1,204 s")], "1 0 1204000 1204000 1204000/1\n"),
        (&[("de", "0 s")], "1 0 0 0 0/1\n"),
        // 3 microseconds over 2; 4 over 2.
        (&[("de", "0,001 ms"), ("en", "0.002 ms")], "2 0 3 2 3/2\n"),
        (&[("de", "0,001 ms"), ("en", "0.003 ms")], "2 0 4 3 2/1\n"),
        // The refused one counts neither for the longest nor for the mean.
        (
            &[
                ("de", "1 ms"),
                ("de", "9.9 s"),
                ("fr", "2 ms"),
                ("it", "3 ms"),
            ],
            "3 1 6000 3000 2000/1\n",
        ),
        // 10,000 over 6 is 5,000 over 3.
        (
            &[
                ("de", "1 ms"),
                ("de", "1 ms"),
                ("de", "1 ms"),
                ("de", "1 ms"),
                ("de", "1 ms"),
                ("de", "5 ms"),
            ],
            "6 0 10000 5000 5000/3\n",
        ),
    ] {
        assert_eq!(line(&key, &day_of(texts)), Ok(expected.to_string()));
    }
}

/// A record under a wrong header, one that is damaged and one that is shorter than its
/// stretch are refused like those that are no pause.
#[test]
fn records_that_do_not_open_are_refused() {
    let key = counting(48);
    let header = header_of("de");
    let mut sealed = vec![0; 11];
    seal(&key, &header, 4, b"1,204 s", &mut sealed);
    let mut damaged = sealed.clone();
    damaged[3] ^= 1;
    let records = [
        (0, 4, sealed.clone()),
        (1, 4, sealed),
        (0, 4, damaged),
        (0, 4, vec![9; 3]),
    ];
    let file = day_file(&[header, header_of("fr")], &records);
    let expected = "1 3 1204000 1204000 1204000/1\n";
    assert_eq!(line(&key, &file), Ok(expected.to_string()));
}

/// 9 is tested before 1, and 1 before 6; the key also where there is no record.
#[test]
fn the_order_of_the_refusals() {
    let key = counting(48);
    let file = day_of(&[("de", "1,204 s")]);
    assert_eq!(line(&[], &file[1..]), Err(9));
    assert_eq!(line(&key[1..], &file), Err(1));
    assert_eq!(line(&key[1..], &[0; 12]), Err(1));
    assert_eq!(report(&key[1..], &file, &mut []).number, 1);
    let length = "1 0 1204000 1204000 1204000/1\n".len();
    let mut out = vec![MARK; length];
    assert_eq!(report(&key, &file, &mut out[1..]).number, 6);
    assert_eq!(out, vec![MARK; length]);
    assert_eq!(report(&key, &file, &mut out).length, length);

    let mut places = [99; 7];
    assert_eq!(report_figures(&key[1..], &file, &mut places), 1);
    assert_eq!(report_figures(&key, &file, &mut places[..5]), 6);
    assert_eq!(places, [99; 7]);
    assert_eq!(report_figures(&key, &file, &mut places), 0);
    assert_eq!(places, [1, 0, 1_204_000, 1_204_000, 1_204_000, 1, 99]);
    assert_eq!(figures(&key, &file[1..]), Err(9));
}
