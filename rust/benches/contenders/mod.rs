//! What is timed: a call by the three programs for AEZ, and AES-128-CTR by BearSSL on as
//! many bytes of text. Before that the programs are compared.

use std::hint::black_box;

use second::aes::aes128;
use second::document01;

use crate::bearssl::Ctr;
use crate::t_tables;
use crate::timing::Contender;

pub const STRETCH: u64 = 4;
/// The strings 01, "n7", no bytes, "de".
pub const HEADER: &[u8] = b"\x04\x00\x01\x01\x00\x02n7\x00\x00\x00\x02de";
/// The lengths of a header's strings for the comparison: with and without a short last
/// block, and up to 64 blocks.
const LONG_HEADER: [usize; 16] = [
    0, 1, 15, 16, 17, 31, 32, 33, 127, 128, 129, 144, 160, 255, 256, 1_024,
];

/// Key, header, stretch, text and output of sealing, or for opening the sealed string in
/// the place of the text. The answer is whether the call was not refused.
type Call = fn(&[u8], &[u8], u64, &[u8], &mut [u8]) -> bool;

/// A program for AEZ.
struct Aez {
    seal: Call,
    open: Call,
}

/// In the order of `sealing` and `opening`, the proved library first.
const PROGRAMS: [Aez; 3] = [
    Aez {
        seal: |key, header, stretch, text, out| {
            jarrovento::seal(key, header, stretch, text, out).is_ok()
        },
        open: |key, header, stretch, sealed, out| {
            jarrovento::open(key, header, stretch, sealed, out).is_ok()
        },
    },
    Aez {
        seal: |key, header, stretch, text, out| {
            document01::seal(key, header, stretch, text, out).number == 0
        },
        open: |key, header, stretch, sealed, out| {
            document01::open(key, header, stretch, sealed, out).number == 0
        },
    },
    Aez {
        seal: |key, header, stretch, text, out| {
            t_tables::seal(key, header, stretch, text, out).is_some()
        },
        open: |key, header, stretch, sealed, out| {
            t_tables::open(key, header, stretch, sealed, out).is_some()
        },
    },
];

fn key() -> [u8; 48] {
    std::array::from_fn(|place| place as u8)
}

fn text(length: usize) -> Vec<u8> {
    (0..length).map(|place| place as u8).collect()
}

/// Texts of this length: sealing by the three programs, and BearSSL's `big`, `small`,
/// `ct` and `ct64`.
pub fn sealing(length: usize) -> [Contender; 7] {
    let [proved, second, t_tables] = PROGRAMS.map(|program| timed(program.seal, text(length)));
    let [big, small, ct, ct64] = yardsticks().map(|cipher| -> Contender {
        let mut data = text(length);
        Box::new(move || cipher.run(black_box(&mut data)))
    });
    [proved, second, t_tables, big, small, ct, ct64]
}

/// Texts of this length: opening by the three programs.
pub fn opening(length: usize) -> [Contender; 3] {
    let mut sealed = vec![0; length + STRETCH as usize];
    (PROGRAMS[0].seal)(&key(), HEADER, STRETCH, &text(length), &mut sealed);
    PROGRAMS.map(|program| timed(program.open, sealed.clone()))
}

/// The call, of which the compiler can foresee nothing.
fn timed(call: Call, lent: Vec<u8>) -> Contender {
    let key = key();
    let mut out = vec![0; lent.len() + STRETCH as usize];
    Box::new(move || {
        let (key, header, lent) = (black_box(&key), black_box(HEADER), black_box(&lent));
        assert!(call(key, header, black_box(STRETCH), lent, &mut out));
        black_box(&mut out);
    })
}

/// Stops with a message where a program differs from the proved library on a text of one
/// of these lengths: in the sealed string, in what it opens to, or in refusing it changed.
pub fn compare(lengths: &[usize]) {
    let mut long = vec![LONG_HEADER.len() as u8];
    for length in LONG_HEADER {
        long.extend((length as u16).to_be_bytes());
        long.extend(text(length));
    }
    for &length in lengths {
        for stretch in [0, STRETCH, 16, 64] {
            for header in [HEADER, &long] {
                compare_at(header, stretch, &text(length));
            }
        }
    }
}

fn compare_at(header: &[u8], stretch: u64, text: &[u8]) {
    let results = |call: fn(&Aez) -> Call, lent: &[u8]| {
        PROGRAMS.each_ref().map(|program| {
            let mut out = vec![0xaa; text.len() + stretch as usize];
            let done = call(program)(&key(), header, stretch, lent, &mut out);
            (done, out)
        })
    };
    let agree = |call, [proved, second, t_tables]: [(bool, Vec<u8>); 3]| {
        for (name, other) in [("second program", second), ("AEZ with T-tables", t_tables)] {
            let (length, strings) = (text.len(), header[0]);
            assert!(
                proved == other,
                "{call}: the {name} differs from the proved library at {length} bytes of text, \
                 stretch {stretch} and a header of {strings} strings"
            );
        }
        proved
    };
    let (done, mut sealed) = agree("sealing", results(|program| program.seal, text));
    assert!(done, "sealing refuses {} bytes", text.len());
    let (done, opened) = agree("opening", results(|program| program.open, &sealed));
    assert!(done && opened.starts_with(text), "opening has no text");
    if let Some(last) = sealed.last_mut() {
        *last ^= 1;
        agree("opening", results(|program| program.open, &sealed));
    }
}

/// BearSSL's four ciphers, seen to be AES on the first blocks that they make.
fn yardsticks() -> [Ctr; 4] {
    const BLOCKS: usize = 9;
    let key = key()[..16].try_into().expect("16 of 48 bytes");
    let mut expected = [[0; 16]; BLOCKS];
    for (counter, block) in expected.iter_mut().enumerate() {
        block[15] = counter as u8;
        *block = aes128(key, *block);
    }
    let ciphers = [Ctr::big, Ctr::small, Ctr::ct, Ctr::ct64].map(|new| new(&key));
    for cipher in &ciphers {
        let mut made = [[0; 16]; BLOCKS];
        cipher.run(made.as_flattened_mut());
        assert_eq!(made, expected, "a cipher of BearSSL's is not AES");
    }
    ciphers
}
