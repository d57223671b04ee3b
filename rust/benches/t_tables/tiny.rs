//! AEZ-tiny (Figure 5, lines 210 to 218), on strings of 1 to 31 bytes.

use super::aes::{xor, Block};
use super::key::{number, of_number, zero_filled, Key};
use super::Way;

pub fn tiny(key: &Key, delta: Block, text: &mut [u8], way: Way) {
    if way == Way::Back {
        last_step(key, delta, text);
    }
    let halves = Halves::of(text);
    let (l, r) = turns(key, delta, halves, way);
    text.copy_from_slice(&halves.join(l, r)[..text.len()]);
    if way == Way::There {
        last_step(key, delta, text);
    }
}

/// The two halves, each of n bits at the front of a block.
#[derive(Clone, Copy)]
struct Halves {
    n: usize,
    l: Block,
    r: Block,
    /// The n bits.
    mask: Block,
    /// The bit behind the half, which makes R10* of R0*.
    end: Block,
}

impl Halves {
    fn of(text: &[u8]) -> Halves {
        let n = 4 * text.len();
        let (high, low) = text.split_at(text.len().min(16));
        let (high, low) = (number(zero_filled(high)), number(zero_filled(low)));
        let mask = u128::MAX << (128 - n);
        Halves {
            n,
            l: of_number(high & mask),
            r: of_number((high << n | low >> (128 - n)) & mask),
            mask: of_number(mask),
            end: of_number(1 << (127 - n)),
        }
    }

    /// R, then L, and zeros.
    fn join(self, l: Block, r: Block) -> [u8; 32] {
        let (l, r) = (number(l), number(r));
        let mut joined = [0; 32];
        joined[..16].copy_from_slice(&(r | l >> self.n).to_be_bytes());
        joined[16..].copy_from_slice(&(l << (128 - self.n)).to_be_bytes());
        joined
    }
}

/// Lines 212 to 216; the way back counts down.
fn turns(key: &Key, delta: Block, halves: Halves, way: Way) -> (Block, Block) {
    let (count, j) = match halves.n / 4 {
        1 => (24, 7),
        2 => (16, 7),
        3..=15 => (10, 7),
        _ => (8, 6),
    };
    let under = xor(xor(delta, halves.end), key.of_j[j]);
    let (mut l, mut r) = (halves.l, halves.r);
    for turn in 0..count {
        let i = match way {
            Way::There => turn,
            Way::Back => count - 1 - turn,
        };
        let e = key.e0(xor(under, [0, i << 56]), r);
        let e = [e[0] & halves.mask[0], e[1] & halves.mask[1]];
        (l, r) = (r, xor(l, e));
    }
    (l, r)
}

/// The second part of line 217: below 16 bytes, the first bit.
fn last_step(key: &Key, delta: Block, text: &mut [u8]) {
    if 16 <= text.len() {
        return;
    }
    let mut x = zero_filled(text);
    x[0] |= 0x80;
    let e = key.e0(xor(delta, key.of_j[3]), x);
    text[0] ^= e[0] as u8 & 0x80;
}
