//! The safe library against values that are known without it.

use jarrovento::{log_header, open, seal, BadEntry, Key, Refusal};
use jarrovento::{KEY_LENGTH, LONGEST_LOG_HEADER, LONGEST_SEALED};
use support::{counting, four_strings, four_values, hex, pattern, unhex};

#[test]
fn the_four_values_seal() {
    for (stretch, text, expected) in four_values() {
        let mut out = [0; 64];
        let sealed = seal(&counting(48), &four_strings(), stretch, &text, &mut out).unwrap();
        assert_eq!(sealed, expected);
    }
}

#[test]
fn the_four_values_open() {
    for (stretch, text, sealed) in four_values() {
        let mut out = [0; 64];
        let opened = open(&counting(48), &four_strings(), stretch, &sealed, &mut out);
        assert_eq!(opened.unwrap(), text);
    }
}

/// By the key's own calls too.
#[test]
fn the_four_values_under_a_key() {
    let key = Key::try_from(&counting(48)[..]).unwrap();
    for (stretch, text, expected) in four_values() {
        let (mut out, mut back) = ([0; 64], [0; 64]);
        let sealed = key.seal(&four_strings(), stretch, &text, &mut out).unwrap();
        assert_eq!(sealed, expected);
        let opened = key.open(&four_strings(), stretch, sealed, &mut back);
        assert_eq!(opened.unwrap(), text);
    }
}

#[test]
fn a_key_has_48_bytes() {
    for length in 0..=100 {
        let key = Key::try_from(&counting(length)[..]);
        let refusal = (length != 48).then_some(Refusal::KeyLength);
        assert_eq!(key.err(), refusal, "{length} bytes");
    }
}

#[test]
fn a_key_s_bytes_are_not_shown() {
    let key = Key::from([7; KEY_LENGTH]);
    assert_eq!(format!("{key:?} {key:#?}"), "Key(..) Key(..)");
}

/// Document 01's example, as request E2 has it.
#[test]
fn the_log_header_of_the_example() {
    let mut out = [0; 20];
    let header = log_header(&[1], b"n7", b"", b"de", &mut out).unwrap();
    assert_eq!(hex(header), "0400010100026e37000000026465");
}

/// A collector or a locale without bytes, both, and nothing at all: each is there as
/// a string of length 0.
#[test]
fn log_headers_of_items_without_bytes() {
    type Items<'a> = [&'a [u8]; 4];
    let built: [(Items, &str); 4] = [
        ([&[1], b"n7", b"de", b""], "0400010100026e37000264650000"),
        ([&[1], b"n7", b"", b""], "0400010100026e3700000000"),
        ([b"", b"", b"", b""], "040000000000000000"),
        (
            [&[1], b"n7", b"c1", b"de"],
            "0400010100026e370002633100026465",
        ),
    ];
    for ([nonce, host, collector, locale], expected) in built {
        let mut out = [0; 20];
        let header = log_header(nonce, host, collector, locale, &mut out).unwrap();
        assert_eq!(hex(header), expected);
    }
}

/// What was sealed before request E2, under a header that left the collector out,
/// opens under that header's bytes as ever, and not under the header built now.
#[test]
fn a_record_from_before_request_e2() {
    let key = counting(48);
    let old = unhex("0300010100026e3700026465");
    let sealed = unhex("97196e5c8b216309bf3e62");
    let mut out = [0; 20];
    let opened = open(&key, &old, 4, &sealed, &mut out).unwrap();
    assert_eq!(opened, b"1,204 s");
    for (collector, locale) in [(&b""[..], &b"de"[..]), (b"de", b"")] {
        let mut room = [0; 20];
        let new = log_header(&[1], b"n7", collector, locale, &mut room).unwrap();
        let opened = open(&key, new, 4, &sealed, &mut out);
        assert_eq!(opened, Err(Refusal::CheckFails));
    }
}

/// A text that is empty is told from a refusal.
#[test]
fn an_empty_text_opens() {
    let (key, header) = (counting(48), four_strings());
    let mut out = [0xa5; 4];
    assert_eq!(open(&key, &header, 0, &[], &mut []), Ok(&mut [][..]));
    assert_eq!(open(&key, &header, 0, &[], &mut out), Ok(&mut [][..]));
    assert_eq!(out, [0xa5; 4]);
}

#[test]
fn after_opening_zeros_follow_the_text_and_the_rest_is_unchanged() {
    let sealed = unhex("e3600052f6f4be16f514d7f4fee221ddcf4d71fd5d");
    let mut out = pattern(30);
    open(&counting(48), &four_strings(), 16, &sealed, &mut out).unwrap();
    assert_eq!(out[..5], *b"hello");
    assert_eq!(out[5..21], [0; 16]);
    assert_eq!(out[21..], pattern(30)[21..]);
}

#[test]
fn after_a_failed_check_the_string_s_length_is_zeros_and_the_rest_unchanged() {
    let mut sealed = unhex("e3600052f6f4be16f514d7f4fee221ddcf4d71fd5d");
    sealed[20] ^= 1;
    let mut out = pattern(30);
    let opened = open(&counting(48), &four_strings(), 16, &sealed, &mut out);
    assert_eq!(opened, Err(Refusal::CheckFails));
    assert_eq!(out[..21], [0; 21]);
    assert_eq!(out[21..], pattern(30)[21..]);
}

/// Each refusal of sealing, opening and building, with its number, and with the
/// output as it was.
#[test]
fn refusals_have_their_numbers_and_leave_the_output() {
    let (key, header) = (counting(48), four_strings());
    let long = counting(LONGEST_SEALED + 1);
    let mut out = pattern(20);
    let answers = [
        (
            1,
            seal(&key[..47], &header, 4, b"text", &mut out).unwrap_err(),
        ),
        (2, seal(&key, &header, 65, b"text", &mut out).unwrap_err()),
        (3, seal(&key, &[17], 4, b"text", &mut out).unwrap_err()),
        (4, seal(&key, &header, 0, &long, &mut out).unwrap_err()),
        (5, open(&key, &header, 5, b"text", &mut out).unwrap_err()),
        (6, seal(&key, &header, 17, b"text", &mut out).unwrap_err()),
        (
            6,
            open(&key, &header, 4, &long[..21], &mut out).unwrap_err(),
        ),
        (
            6,
            log_header(&key[..8], b"n7", b"", b"de", &mut out).unwrap_err(),
        ),
        (
            8,
            log_header(&long[..1_025], b"n7", b"", b"de", &mut out).unwrap_err(),
        ),
    ];
    for (number, refusal) in answers {
        assert_eq!(refusal.number(), number);
    }
    assert_eq!(out, pattern(20));
}

#[test]
fn the_limits_are_the_library_s() {
    let header = four_strings();
    let long = vec![0; LONGEST_SEALED + 1];
    let mut out = vec![0; LONGEST_SEALED];
    let key = vec![0; KEY_LENGTH];
    let sealed = seal(&key, &header, 64, &long[..LONGEST_SEALED - 64], &mut out);
    assert_eq!(sealed.map(|sealed| sealed.len()), Ok(LONGEST_SEALED));
    let sealed = seal(&key, &header, 64, &long[..LONGEST_SEALED - 63], &mut out);
    assert_eq!(sealed, Err(Refusal::TooLong));

    let item = [0; 1_024];
    let mut out = [0; LONGEST_LOG_HEADER];
    let header = log_header(&item, &item, &item, &item, &mut out);
    assert_eq!(header.map(|header| header.len()), Ok(LONGEST_LOG_HEADER));
    let short = log_header(&item, &item, &item, &item, &mut out[1..]);
    assert_eq!(short, Err(Refusal::OutputTooShort));
}

#[test]
fn refusals_are_numbered_from_1_to_9_and_15_to_17() {
    let numbers = Refusal::ALL.iter().map(|refusal| refusal.number());
    assert!(numbers.eq((1..=9).chain(15..=17)));
}

#[test]
fn bad_entries_are_numbered_from_0_to_17() {
    for number in 0..=17 {
        let entry = BadEntry::from_number(number).unwrap();
        assert_eq!(entry.number(), number);
        assert_eq!(Refusal::from(entry).number(), 3);
    }
    for number in [18, 256, 1 << 16, u32::MAX] {
        assert_eq!(BadEntry::from_number(number), None);
    }
}
