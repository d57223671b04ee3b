//! AEZ-hash and AEZ-prf (Figure 6, lines 300 to 312), the hash on a header as it is
//! lent: a count, and strings each after its length.

use super::aes::{xor, Block, ZERO};
use super::key::{double, load, of_number, padded, Key};

/// Delta of the stretch, in bits, and the header's strings; none where the header does
/// not read.
pub fn hash(key: &Key, stretch: usize, header: &[u8]) -> Option<Block> {
    let (&count, mut rest) = header.split_first()?;
    if !(1..=16).contains(&count) {
        return None;
    }
    let mut rows = Rows::default();
    let bits = of_number(8 * stretch as u128).map(u64::to_le_bytes);
    let mut delta = of_string(key, rows.next(key), bits.as_flattened());
    for _ in 0..count {
        let (length, after) = rest.split_first_chunk::<2>()?;
        let length = usize::from(u16::from_be_bytes(*length));
        if 1_024 < length {
            return None;
        }
        let (string, after) = after.split_at_checked(length)?;
        delta = xor(delta, of_string(key, rows.next(key), string));
        rest = after;
    }
    rest.is_empty().then_some(delta)
}

/// Lines 303 to 306 for a string under its row's mask.
fn of_string(key: &Key, row: Block, string: &[u8]) -> Block {
    let mut sum = ZERO;
    let (blocks, rest) = string.as_chunks::<16>();
    for (block, mask) in blocks.iter().zip(key.masks()) {
        sum = xor(sum, key.e0(xor(row, mask), load(block)));
    }
    if !rest.is_empty() || string.is_empty() {
        sum = xor(sum, key.e0(row, padded(rest)));
    }
    sum
}

/// The masks (8s)·J of the strings s = 1, 2, ..
#[derive(Default)]
struct Rows {
    s: usize,
    mask: Block,
    /// (2^(t + 1) - 1)·(8·J) for the t that have come: by so much s·(8·J) changes where
    /// s becomes a multiple of 2^t and of no higher power.
    steps: [Block; 5],
}

impl Rows {
    fn next(&mut self, key: &Key) -> Block {
        self.s += 1;
        let t = self.s.trailing_zeros() as usize;
        if self.s.is_power_of_two() {
            let before = if t == 0 { ZERO } else { self.steps[t - 1] };
            self.steps[t] = xor(double(before), key.eight_j);
        }
        self.mask = xor(self.mask, self.steps[t]);
        self.mask
    }
}

/// Fills the output with AEZ-prf of Delta.
pub fn prf(key: &Key, delta: Block, out: &mut [u8]) {
    for (n, part) in (0..).zip(out.chunks_mut(16)) {
        let block = key.e10(3, xor(delta, of_number(n))).map(u64::to_le_bytes);
        part.copy_from_slice(&block.as_flattened()[..part.len()]);
    }
}
