//! The second program against known values: FIPS 197, the facts and the table
//! of document 01, and the four values of the definition.

use second::aes::{
    aes10, aes128, aes4, aesenc, key_expansion, mix_columns, shift_rows, sub_bytes, xor, Block,
    S_BOX,
};
use second::document01::{log_header, open, read_header, seal, Answer};
use second::figure5::{cut, decipher, encipher};
use second::figure6::{
    aez_hash, aez_prf, double, e, number, pad, power_times, powers_of_l, times, Key, ZERO,
};
use support::{counting, four_strings, four_values, unhex};

/// A byte that no call is likely to write, to tell what a call has left alone.
const MARK: u8 = 0xa5;

fn unhex_block(text: &str) -> Block {
    unhex(text).try_into().unwrap()
}

fn test_key() -> Key {
    Key::read(&counting(48)).unwrap()
}

fn header(strings: &[&[u8]]) -> Vec<u8> {
    support::header(strings)
}

fn answer(number: u32, length: usize) -> Answer {
    Answer {
        number,
        length,
        place: 0,
    }
}

/// Seals into a longer output and hands the sealed string back.
fn sealed(key: &[u8], header: &[u8], stretch: usize, text: &[u8]) -> Vec<u8> {
    let length = text.len() + stretch;
    let mut out = vec![MARK; length + 3];
    let got = seal(key, header, stretch as u64, text, &mut out);
    assert_eq!(got, answer(0, length));
    assert_eq!(out[length..], [MARK; 3]);
    out.truncate(length);
    out
}

/// Opens into a longer output, looks at all of it, and hands the text back or nothing.
fn opened(key: &[u8], header: &[u8], stretch: usize, sealed: &[u8]) -> Option<Vec<u8>> {
    let mut out = vec![MARK; sealed.len() + 3];
    let got = open(key, header, stretch as u64, sealed, &mut out);
    assert_eq!(out[sealed.len()..], [MARK; 3]);
    out.truncate(sealed.len());
    match got.number {
        0 => {
            assert_eq!(got.length, sealed.len() - stretch);
            assert!(out[got.length..].iter().all(|&byte| byte == 0));
            out.truncate(got.length);
            Some(out)
        }
        7 => {
            assert_eq!(got.length, 0);
            assert!(out.iter().all(|&byte| byte == 0));
            None
        }
        other => panic!("answer {other}"),
    }
}

// FIPS 197

#[test]
fn s_box_values() {
    assert_eq!(S_BOX[0x00], 0x63);
    assert_eq!(S_BOX[0x01], 0x7c);
    assert_eq!(S_BOX[0x53], 0xed);
    assert_eq!(S_BOX[0xff], 0x16);
    let mut sorted = S_BOX;
    sorted.sort_unstable();
    assert_eq!(sorted.to_vec(), counting(256));
}

#[test]
fn fips_197_appendix_b_first_round_step_by_step() {
    let start = unhex_block("193de3bea0f4e22b9ac68d2ae9f84808");
    let substituted = unhex_block("d42711aee0bf98f1b8b45de51e415230");
    let shifted = unhex_block("d4bf5d30e0b452aeb84111f11e2798e5");
    let mixed = unhex_block("046681e5e0cb199a48f8d37a2806264c");
    let round_key = unhex_block("a0fafe1788542cb123a339392a6c7605");
    assert_eq!(sub_bytes(start), substituted);
    assert_eq!(shift_rows(substituted), shifted);
    assert_eq!(mix_columns(shifted), mixed);
    assert_eq!(aesenc(start, round_key), xor(mixed, round_key));
}

#[test]
fn fips_197_appendix_a_key_schedule() {
    let keys = key_expansion(unhex_block("2b7e151628aed2a6abf7158809cf4f3c"));
    assert_eq!(keys[1], unhex_block("a0fafe1788542cb123a339392a6c7605"));
    assert_eq!(keys[10], unhex_block("d014f9a8c9ee2589e13f0cc8b6630ca6"));
}

#[test]
fn fips_197_appendix_b_and_c1() {
    for (key, plaintext, ciphertext) in [
        (
            "2b7e151628aed2a6abf7158809cf4f3c",
            "3243f6a8885a308d313198a2e0370734",
            "3925841d02dc09fbdc118597196a0b32",
        ),
        (
            "000102030405060708090a0b0c0d0e0f",
            "00112233445566778899aabbccddeeff",
            "69c4e0d86a7b0430d8cdb78070b4c55a",
        ),
    ] {
        let found = aes128(unhex_block(key), unhex_block(plaintext));
        assert_eq!(found, unhex_block(ciphertext));
    }
}

/// The file is what fips197_vectors.py prints.
#[test]
fn aes128_vectors_of_an_outside_implementation() {
    let lines: Vec<&str> = include_str!("aes128.txt").lines().collect();
    assert_eq!(lines.len(), 64);
    for line in lines {
        let blocks: Vec<Block> = line.split(' ').map(unhex_block).collect();
        let [key, plaintext, ciphertext] = blocks[..] else {
            panic!("not three blocks: {line}");
        };
        assert_eq!(aes128(key, plaintext), ciphertext);
    }
}

// Document 01's twelve facts, and more of the notation

#[test]
fn the_twelve_facts() {
    assert_eq!(
        double(unhex_block("80000000000000000000000000000000")),
        number(0x87)
    );
    assert_eq!(double(number(1)), number(2));
    assert_eq!(times(7, number(1)), number(7));
    assert_eq!(times(0, [0xff; 16]), ZERO);
    assert_eq!(pad(&[]), unhex_block("80000000000000000000000000000000"));
    assert_eq!(S_BOX[0x00], 0x63);
    assert_eq!(S_BOX[0x01], 0x7c);
    assert_eq!(S_BOX[0x53], 0xed);
    assert_eq!(aes4(&[ZERO; 5], ZERO), [0x76; 16]);
    assert_eq!(aes10(&[ZERO; 11], ZERO), [0x36; 16]);
    assert_eq!(cut(48), (0, 16));
    let mut out = [MARK; 14];
    assert_eq!(log_header(&[1], b"n7", b"", b"de", &mut out), answer(0, 14));
    assert_eq!(out.to_vec(), unhex("0400010100026e37000000026465"));
}

#[test]
fn multiples() {
    let x = unhex_block("c3f0a1b2c3d4e5f60718293a4b5c6d7e");
    assert_eq!(times(1, x), x);
    assert_eq!(times(2, x), double(x));
    assert_eq!(times(3, x), xor(double(x), x));
    assert_eq!(times(3, times(3, x)), times(5, x));
    for s in 0..20 {
        for r in 0..8 {
            assert_eq!(xor(times(8 * s, x), times(r, x)), times(8 * s + r, x));
        }
    }
    for exponent in 0..31 {
        assert_eq!(power_times(exponent, x), times(1 << exponent, x));
    }
}

#[test]
fn running_powers_of_l_are_the_powers_of_l() {
    let key = test_key();
    for (j, power) in (1..=2047).zip(powers_of_l(&key)) {
        assert_eq!(power, power_times((j - 1) / 8, key.l));
    }
}

#[test]
fn where_the_cuts_fall() {
    for (length, m, d) in [
        (32, 0, 0),
        (33, 0, 1),
        (47, 0, 15),
        (48, 0, 16),
        (63, 0, 31),
        (64, 1, 0),
        (65_536, 2_047, 0),
    ] {
        assert_eq!(cut(length), (m, d));
    }
}

// Figure 6, each line put together by hand

#[test]
fn block_function_line_by_line() {
    let key = test_key();
    let Key { i, j, l } = key;
    let x = unhex_block("00112233445566778899aabbccddeeff");
    let k0 = [ZERO, i, j, l, ZERO];
    let ten = [ZERO, i, l, j, i, l, j, i, l, j, i];
    assert_eq!(e(&key, 0, 0, x), aes4(&k0, x));
    assert_eq!(e(&key, 0, 5, x), aes4(&k0, xor(x, times(5, j))));
    assert_eq!(e(&key, -1, 0, x), aes10(&ten, x));
    assert_eq!(e(&key, -1, 7, x), aes10(&ten, xor(x, times(7, j))));
    // j = 8 has no J left and still the first power of L; j = 9 has the second.
    let k1 = [ZERO, j, l, i, ZERO];
    assert_eq!(e(&key, 1, 8, x), aes4(&k1, xor(x, l)));
    assert_eq!(e(&key, 1, 9, x), aes4(&k1, xor(xor(x, j), double(l))));
    let k2 = [ZERO, l, i, j, i];
    assert_eq!(e(&key, 2, 1, x), aes4(&k2, xor(xor(x, j), l)));
    assert_eq!(e(&key, 3, 0, x), aes4(&k0, xor(x, times(8, j))));
    assert_eq!(e(&key, 19, 0, x), aes4(&k0, xor(x, times(136, j))));
    assert_eq!(
        e(&key, 5, 17, x),
        aes4(&k0, xor(xor(x, times(25, j)), times(4, l)))
    );
}

#[test]
fn hash_and_prf_from_the_block_function() {
    let key = test_key();
    let strings = [
        number(128).to_vec(),
        counting(1024),
        counting(35),
        Vec::new(),
    ];
    let mut delta = e(&key, 3, 1, number(128));
    for (b, bytes) in (1..).zip(counting(1024).chunks(16)) {
        delta = xor(delta, e(&key, 4, b, bytes.try_into().unwrap()));
    }
    delta = xor(delta, e(&key, 5, 1, counting(16).try_into().unwrap()));
    delta = xor(delta, e(&key, 5, 2, counting(32)[16..].try_into().unwrap()));
    delta = xor(delta, e(&key, 5, 0, pad(&[32, 33, 34])));
    delta = xor(delta, e(&key, 6, 0, pad(&[])));
    assert_eq!(aez_hash(&key, &strings), delta);
    assert_eq!(aez_hash(&key, &[]), ZERO);

    let blocks: Vec<u8> = (0..4)
        .flat_map(|n| e(&key, -1, 3, xor(delta, number(n))))
        .collect();
    for length in [0, 1, 16, 17, 64] {
        assert_eq!(aez_prf(&key, &strings, 8 * length), blocks[..length]);
    }
}

// Figure 5

#[test]
fn the_four_values_in_both_directions() {
    let (key, header) = (counting(48), four_strings());
    for (stretch, text, expected) in four_values() {
        let stretch = stretch as usize;
        assert_eq!(sealed(&key, &header, stretch, &text), expected);
        assert_eq!(opened(&key, &header, stretch, &expected), Some(text));
    }
}

#[test]
fn round_trips_for_all_short_lengths() {
    let key = counting(48);
    let header = header(&[b"nonce", b"", b"host"]);
    for stretch in [0, 1, 4, 16, 64] {
        for length in 0..=200 {
            let text = counting(length);
            let string = sealed(&key, &header, stretch, &text);
            assert_eq!(opened(&key, &header, stretch, &string), Some(text));
        }
    }
}

#[test]
fn round_trip_of_the_longest_text() {
    let key = counting(48);
    let header = header(&[b"nonce"]);
    for stretch in [0, 64] {
        let text = counting(65_536 - stretch);
        let string = sealed(&key, &header, stretch, &text);
        assert_eq!(opened(&key, &header, stretch, &string), Some(text));
    }
}

#[test]
fn one_byte_texts_are_permuted() {
    let key = test_key();
    let tweak = [number(0).to_vec(), b"nonce".to_vec()];
    let mut found: Vec<Vec<u8>> = (0..=255).map(|a| encipher(&key, &tweak, &[a])).collect();
    for (a, string) in (0..=255).zip(&found) {
        assert_eq!(decipher(&key, &tweak, string), [a]);
    }
    found.sort();
    assert!((0..=255).map(|a| vec![a]).eq(found));
}

/// Lines 221 to 240 for one pair and d = 17, put together by hand.
#[test]
fn core_of_one_pair_line_by_line() {
    let key = test_key();
    let tweak = [number(0).to_vec(), b"nonce".to_vec()];
    let delta = aez_hash(&key, &tweak);
    let message = counting(32 + 17 + 32);
    let part = |at: usize| -> Block { message[at..at + 16].try_into().unwrap() };
    let (m_1, m_prime_1, m_u, m_v) = (part(0), part(16), part(32), message[48]);
    let (m_x, m_y) = (part(49), part(65));

    let w_1 = xor(m_1, e(&key, 1, 1, m_prime_1));
    let x_1 = xor(m_prime_1, e(&key, 0, 0, w_1));
    let x = xor(x_1, xor(e(&key, 0, 4, m_u), e(&key, 0, 5, pad(&[m_v]))));
    let s_x = xor(xor(m_x, delta), xor(x, e(&key, 0, 1, m_y)));
    let s_y = xor(m_y, e(&key, -1, 1, s_x));
    let s = xor(s_x, s_y);
    let s_prime = e(&key, 2, 1, s);
    let (y_1, z_1) = (xor(w_1, s_prime), xor(x_1, s_prime));
    let c_prime_1 = xor(y_1, e(&key, 0, 0, z_1));
    let c_1 = xor(z_1, e(&key, 1, 1, c_prime_1));
    let c_u = xor(m_u, e(&key, -1, 4, s));
    let c_v = [m_v ^ e(&key, -1, 5, s)[0]];
    let y = xor(y_1, xor(e(&key, 0, 4, c_u), e(&key, 0, 5, pad(&c_v))));
    let c_y = xor(s_x, e(&key, -1, 2, s_y));
    let c_x = xor(xor(s_y, delta), xor(y, e(&key, 0, 2, c_y)));

    let c = [&c_1[..], &c_prime_1, &c_u, &c_v, &c_x, &c_y].concat();
    assert_eq!(encipher(&key, &tweak, &message), c);
    assert_eq!(decipher(&key, &tweak, &c), message);
}

#[test]
fn empty_header_strings_count() {
    let key = counting(48);
    let one = sealed(&key, &unhex("010000"), 16, b"text");
    let two = sealed(&key, &unhex("0200000000"), 16, b"text");
    assert_ne!(one, two);
}

// Document 01: headers, answers and buffers

#[test]
fn headers_that_read() {
    assert_eq!(read_header(&unhex("010000")), Ok(vec![vec![]]));
    assert_eq!(
        read_header(&unhex("0400010100026e37000000026465")),
        Ok(vec![vec![1], b"n7".to_vec(), vec![], b"de".to_vec()])
    );
    assert_eq!(
        read_header(&unhex("0300010100026e3700026465")),
        Ok(vec![vec![1], b"n7".to_vec(), b"de".to_vec()])
    );
    let long = counting(1024);
    let most: Vec<&[u8]> = vec![&long; 16];
    assert_eq!(read_header(&header(&most)), Ok(vec![long.clone(); 16]));
}

/// Each with the number of the entry that fails.
#[test]
fn headers_that_do_not_read() {
    for (bytes, entry) in [
        ("", 0),
        ("00", 0),
        ("000000", 0),
        ("01", 1),
        ("0100", 1),
        ("010001", 1),
        ("01000201", 1),
        ("01000000", 17),
        ("020000", 2),
        ("02000000", 2),
        ("0400010100026e370000000264", 4),
        ("0400010100026e3700000002646500", 17),
        ("0400010100026e3700026465", 4),
        ("0400010104012e37", 2),
        ("1000000000ffff", 3),
    ] {
        assert_eq!(read_header(&unhex(bytes)), Err(entry), "{bytes}");
    }
    for count in 17..=255 {
        let strings: Vec<&[u8]> = vec![b""; count];
        assert_eq!(read_header(&header(&strings)), Err(0), "{count}");
    }
    for length in [1_025, 65_535] {
        assert_eq!(read_header(&header(&[&counting(length)])), Err(1));
        assert_eq!(read_header(&header(&[b"", &counting(length)])), Err(2));
    }
}

#[test]
fn log_headers() {
    let long = counting(1024);
    let too_long = counting(1025);
    let mut out = vec![MARK; 5000];
    let got = log_header(&long, &long, &long, &long, &mut out);
    assert_eq!(got, answer(0, 4105));
    assert_eq!(out[..4105], header(&[&long, &long, &long, &long]));
    assert!(out[4105..].iter().all(|&byte| byte == MARK));

    // Each item with a byte and without, in every way.
    let written: [([&[u8]; 4], &str); 16] = [
        ([b"", b"", b"", b""], "04 0000 0000 0000 0000"),
        ([b"", b"", b"", b"l"], "04 0000 0000 0000 00016c"),
        ([b"", b"", b"c", b""], "04 0000 0000 000163 0000"),
        ([b"", b"", b"c", b"l"], "04 0000 0000 000163 00016c"),
        ([b"", b"h", b"", b""], "04 0000 000168 0000 0000"),
        ([b"", b"h", b"", b"l"], "04 0000 000168 0000 00016c"),
        ([b"", b"h", b"c", b""], "04 0000 000168 000163 0000"),
        ([b"", b"h", b"c", b"l"], "04 0000 000168 000163 00016c"),
        ([b"n", b"", b"", b""], "04 00016e 0000 0000 0000"),
        ([b"n", b"", b"", b"l"], "04 00016e 0000 0000 00016c"),
        ([b"n", b"", b"c", b""], "04 00016e 0000 000163 0000"),
        ([b"n", b"", b"c", b"l"], "04 00016e 0000 000163 00016c"),
        ([b"n", b"h", b"", b""], "04 00016e 000168 0000 0000"),
        ([b"n", b"h", b"", b"l"], "04 00016e 000168 0000 00016c"),
        ([b"n", b"h", b"c", b""], "04 00016e 000168 000163 0000"),
        ([b"n", b"h", b"c", b"l"], "04 00016e 000168 000163 00016c"),
    ];
    for (items, expected) in written {
        let [nonce, host, collector, locale] = items;
        let expected = unhex(&expected.replace(' ', ""));
        let mut out = vec![MARK; expected.len() + 1];
        let got = log_header(nonce, host, collector, locale, &mut out);
        assert_eq!(got, answer(0, expected.len()));
        assert_eq!(out[..expected.len()], expected);
        assert_eq!(out[expected.len()], MARK);

        let mut short = vec![MARK; expected.len() - 1];
        let got = log_header(nonce, host, collector, locale, &mut short);
        assert_eq!(got, answer(6, 0));
        assert!(short.iter().all(|&byte| byte == MARK));
    }

    // 8 comes before 6, whichever item it is.
    for place in 0..4 {
        let mut items: [&[u8]; 4] = [b"x"; 4];
        items[place] = &too_long;
        let [nonce, host, collector, locale] = items;
        assert_eq!(
            log_header(nonce, host, collector, locale, &mut []),
            answer(8, 0)
        );
        let mut out = [MARK; 4200];
        assert_eq!(
            log_header(nonce, host, collector, locale, &mut out),
            answer(8, 0)
        );
        assert_eq!(out, [MARK; 4200]);
    }
}

/// One call's inputs and the refusal it must meet.
struct Refused {
    number: u32,
    place: u64,
    key: usize,
    header: Vec<u8>,
    stretch: u64,
    length: usize,
    out: usize,
}

type Call = fn(&[u8], &[u8], u64, &[u8], &mut [u8]) -> Answer;

fn refuses(call: Call, case: &Refused) {
    let mut out = vec![MARK; case.out];
    let got = call(
        &counting(case.key),
        &case.header,
        case.stretch,
        &counting(case.length),
        &mut out,
    );
    let expected = Answer {
        place: case.place,
        ..answer(case.number, 0)
    };
    assert_eq!(got, expected);
    assert!(out.iter().all(|&byte| byte == MARK));
}

fn refused(
    number: u32,
    key: usize,
    header: &[u8],
    stretch: u64,
    length: usize,
    out: usize,
) -> Refused {
    Refused {
        number,
        place: 0,
        key,
        header: header.to_vec(),
        stretch,
        length,
        out,
    }
}

/// The tests 1 to 3, each with all later ones also failing where they can.
fn refusals_in_common() -> Vec<Refused> {
    let good = header(&[b"nonce"]);
    let mut cases = Vec::new();
    for key in [0, 47, 49, 96] {
        cases.push(refused(1, key, &[], u64::MAX, 70_000, 0));
        cases.push(refused(1, key, &good, 16, 32, 100));
    }
    for stretch in [65, 256, (1 << 32) + 4, 1 << 61, 1 << 63, u64::MAX] {
        cases.push(refused(2, 48, &[], stretch, 70_000, 0));
        cases.push(refused(2, 48, &good, stretch, 32, 100));
    }
    for (bad, place) in [
        (&[] as &[u8], 0),
        (&[0], 0),
        (&[17], 0),
        (&[1, 4, 1], 1),
        (&[2, 0, 0, 0], 2),
        (&[1, 0, 0, 0], 17),
    ] {
        for (stretch, length, out) in [(64, 70_000, 0), (16, 32, 100)] {
            cases.push(Refused {
                place,
                ..refused(3, 48, bad, stretch, length, out)
            });
        }
    }
    cases
}

#[test]
fn refusals_of_sealing() {
    let good = header(&[b"nonce"]);
    let mut cases = refusals_in_common();
    for (stretch, length) in [(0, 65_537), (64, 65_473), (1, 65_536), (16, 70_000)] {
        cases.push(refused(4, 48, &good, stretch, length, 0));
        cases.push(refused(4, 48, &good, stretch, length, 70_064));
    }
    for (stretch, length) in [(0, 1), (16, 0), (4, 20), (64, 65_472)] {
        cases.push(refused(6, 48, &good, stretch, length, 0));
        let out = stretch as usize + length - 1;
        cases.push(refused(6, 48, &good, stretch, length, out));
    }
    for case in &cases {
        refuses(seal, case);
    }
}

#[test]
fn refusals_of_opening() {
    let good = header(&[b"nonce"]);
    let mut cases = refusals_in_common();
    for (stretch, length) in [(0, 65_537), (64, 65_537), (16, 70_000)] {
        cases.push(refused(4, 48, &good, stretch, length, 0));
        cases.push(refused(4, 48, &good, stretch, length, 70_064));
    }
    for (stretch, length) in [(1, 0), (16, 15), (64, 63), (64, 0)] {
        cases.push(refused(5, 48, &good, stretch, length, 0));
        cases.push(refused(5, 48, &good, stretch, length, 100));
    }
    for (stretch, length) in [(0, 1), (16, 16), (4, 20), (64, 65_536)] {
        cases.push(refused(6, 48, &good, stretch, length, 0));
        cases.push(refused(6, 48, &good, stretch, length, length - 1));
    }
    for case in &cases {
        refuses(open, case);
    }
}

#[test]
fn a_changed_bit_fails_the_check() {
    let key = counting(48);
    let right = header(&[b"nonce", b"host"]);
    let wrong = header(&[b"nonce", b"hosu"]);
    for stretch in [16, 64] {
        for length in [0, 1, 2, 10, 15, 16, 17, 31, 32, 47, 48, 49, 64, 100] {
            let string = sealed(&key, &right, stretch, &counting(length));
            for bit in 0..8 * string.len() {
                let mut changed = string.clone();
                changed[bit / 8] ^= 0x80 >> (bit % 8);
                assert_eq!(opened(&key, &right, stretch, &changed), None);
            }
            assert_eq!(opened(&key, &wrong, stretch, &string), None);
        }
    }
}

#[test]
fn stretch_zero_opens_everything() {
    let key = counting(48);
    let header = header(&[b"nonce"]);
    for length in 0..100 {
        let text = opened(&key, &header, 0, &counting(length)).unwrap();
        assert_eq!(sealed(&key, &header, 0, &text), counting(length));
    }
}
