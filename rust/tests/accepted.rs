//! How many strings are accepted (request E14), counted on the compiled library
//! where they are few enough to try every one: the strings of one and of two bytes.

use std::collections::BTreeSet;

use jarrovento::{Key, Refusal};
use support::{header, Source};

/// A key and a header from a seed.
fn fixed(seed: u64) -> (Key, Vec<u8>) {
    let mut source = Source::new(seed);
    let key = Key::try_from(&source.key()[..]).unwrap();
    let strings = [source.bytes(12), b"n7".to_vec(), vec![], b"de".to_vec()];
    (key, header(&strings))
}

/// Every string of one byte, or of two.
fn all_strings(length: usize) -> impl Iterator<Item = Vec<u8>> {
    (0..1_u32 << (8 * length)).map(move |number| number.to_be_bytes()[4 - length..].to_vec())
}

/// How many strings of this length open. All others are refused by the check alone.
fn accepted(key: &Key, header: &[u8], stretch: u64, length: usize) -> usize {
    let mut out = [0; 2];
    let opens = |sealed: &Vec<u8>| match key.open(header, stretch, sealed, &mut out) {
        Ok(text) => {
            assert_eq!(text.len() + stretch as usize, length);
            true
        }
        Err(refusal) => {
            assert_eq!(refusal, Refusal::CheckFails);
            false
        }
    };
    all_strings(length).filter(opens).count()
}

/// 256 to the power of length less stretch; as long as the stretch it is one.
#[test]
fn as_many_open_as_there_are_texts() {
    let counts = [
        (0, 1, 256),
        (0, 2, 65_536),
        (1, 1, 1),
        (1, 2, 256),
        (2, 2, 1),
    ];
    for seed in 0..3 {
        let (key, header) = fixed(seed);
        for (stretch, length, count) in counts {
            let found = accepted(&key, &header, stretch, length);
            assert_eq!(found, count, "stretch {stretch}, length {length}");
        }
    }
}

/// At stretch 0 the sealed strings of a length are the strings of that length.
#[test]
fn sealing_rearranges_the_strings_of_a_length() {
    for length in [1, 2] {
        let (key, header) = fixed(length as u64);
        let mut out = [0; 2];
        let seal = |text: Vec<u8>| key.seal(&header, 0, &text, &mut out).unwrap().to_vec();
        let sealed: BTreeSet<Vec<u8>> = all_strings(length).map(seal).collect();
        assert!(sealed.into_iter().eq(all_strings(length)));
    }
}
