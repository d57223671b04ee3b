//! What the tests and the example have in common: bytes from a fixed seed, headers,
//! hex, and the vectors of the gate's program.

pub mod vectors;

/// Numbers that look random and are the same in every run (SplitMix64).
pub struct Source(u64);

impl Source {
    pub fn new(seed: u64) -> Source {
        Source(seed)
    }

    pub fn number(&mut self) -> u64 {
        self.0 = self.0.wrapping_add(0x9e37_79b9_7f4a_7c15);
        let mixed = (self.0 ^ (self.0 >> 30)).wrapping_mul(0xbf58_476d_1ce4_e5b9);
        let mixed = (mixed ^ (mixed >> 27)).wrapping_mul(0x94d0_49bb_1331_11eb);
        mixed ^ (mixed >> 31)
    }

    pub fn below(&mut self, limit: usize) -> usize {
        (self.number() % limit as u64) as usize
    }

    pub fn bytes(&mut self, length: usize) -> Vec<u8> {
        (0..length).map(|_| self.number() as u8).collect()
    }

    pub fn key(&mut self) -> Vec<u8> {
        self.bytes(48)
    }

    /// The bytes with one of them, at this place, changed to some other value.
    pub fn damaged(&mut self, bytes: &[u8], place: usize) -> Vec<u8> {
        let mut damaged = bytes.to_vec();
        damaged[place] ^= 1 + self.below(255) as u8;
        damaged
    }
}

/// A header in document 01's layout. It may have strings too many or too long.
pub fn header<S: AsRef<[u8]>>(strings: &[S]) -> Vec<u8> {
    let mut header = vec![strings.len() as u8];
    for string in strings.iter().map(AsRef::as_ref) {
        header.extend((string.len() as u16).to_be_bytes());
        header.extend_from_slice(string);
    }
    header
}

/// A record of a day file: its header's number, its stretch and its sealed string.
pub type DayRecord = (u16, u8, Vec<u8>);

/// A day file in request E1's layout. Its headers may not read, and its records may
/// name headers that it lacks, or stretches that are too long.
pub fn day_file<H: AsRef<[u8]>>(headers: &[H], records: &[DayRecord]) -> Vec<u8> {
    let count = |length: usize| (length as u32).to_be_bytes();
    let mut file = count(headers.len()).to_vec();
    for header in headers.iter().map(AsRef::as_ref) {
        file.extend((header.len() as u16).to_be_bytes());
        file.extend_from_slice(header);
    }
    file.extend(count(records.len()));
    let mut index = count(records.len()).to_vec();
    for (header, stretch, sealed) in records {
        index.extend(count(file.len()));
        file.extend(header.to_be_bytes());
        file.push(*stretch);
        file.extend(count(sealed.len()));
        file.extend_from_slice(sealed);
    }
    [file, index].concat()
}

/// A header of four strings: 01, "n7", no bytes, "de".
pub fn four_strings() -> Vec<u8> {
    header(&[&[1][..], b"n7", b"", b"de"])
}

/// Stretch, text and sealed string, under the key 00 01 .. 2f and the header of
/// four strings. Two programs, written apart from each other, agree on them.
pub fn four_values() -> [(u64, Vec<u8>, Vec<u8>); 4] {
    [
        (16, vec![], "4c524f8ff2a54c93b35356939984411c"),
        (
            16,
            b"hello".to_vec(),
            "e3600052f6f4be16f514d7f4fee221ddcf4d71fd5d",
        ),
        (0, b"hello".to_vec(), "a68fcc5b92"),
        (
            16,
            counting(32),
            "a91e24916e35e079f6c7832c1fda0c91f5e5b1e20a553e167a97c4dea85631bc\
             952faa992a488f5e4a8af659dc162d84",
        ),
    ]
    .map(|(stretch, text, sealed)| (stretch, text, unhex(sealed)))
}

/// The bytes 00, 01, 02, .., going round after ff.
pub fn counting(length: usize) -> Vec<u8> {
    (0..length).map(|byte| byte as u8).collect()
}

/// What an output holds before a call: bytes that differ from their neighbours
/// and are never zero, so that a byte written or cleared is seen.
pub fn pattern(length: usize) -> Vec<u8> {
    (0..length).map(|place| (place % 255) as u8 + 1).collect()
}

pub fn hex(bytes: &[u8]) -> String {
    bytes.iter().map(|byte| format!("{byte:02x}")).collect()
}

pub fn unhex(digits: &str) -> Vec<u8> {
    assert_eq!(digits.len() % 2, 0);
    (0..digits.len())
        .step_by(2)
        .map(|at| u8::from_str_radix(&digits[at..at + 2], 16).unwrap())
        .collect()
}
