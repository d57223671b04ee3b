//! The key record and the block function E (Figure 6, lines 400 to 409).

use super::aes::{rounds, xor, Block, ZERO};

/// The lists of lines 402 and 403 without their first key, which is zero, and their last,
/// which is zero or I; and the multiples that masks are made of.
pub struct Key {
    k0: [Block; 3],
    k1: [Block; 3],
    k2: [Block; 3],
    k10: [Block; 9],
    i: Block,
    l: Block,
    /// 0·J to 7·J.
    pub of_j: [Block; 8],
    pub eight_j: Block,
}

impl Key {
    pub fn new(bytes: &[u8; 48]) -> Key {
        let [i, j, l] = [0, 16, 32].map(|start| load(&bytes[start..]));
        let j2 = double(j);
        let j4 = double(j2);
        let (j3, j6) = (xor(j2, j), xor(j4, j2));
        Key {
            k0: [i, j, l],
            k1: [j, l, i],
            k2: [l, i, j],
            k10: [i, l, j, i, l, j, i, l, j],
            i,
            l,
            of_j: [ZERO, j, j2, j3, j4, xor(j4, j), j6, xor(j6, j)],
            eight_j: double(j4),
        }
    }

    /// E(0, b), and the rows from 3 on, under their mask (lines 405 to 409).
    #[inline(always)]
    pub fn e0(&self, mask: Block, x: Block) -> Block {
        rounds(xor(x, mask), &self.k0)
    }

    /// E(1, b) under its mask (line 406).
    #[inline(always)]
    pub fn e1(&self, mask: Block, x: Block) -> Block {
        rounds(xor(x, mask), &self.k1)
    }

    /// E(2, b) under its mask.
    #[inline(always)]
    pub fn e2(&self, mask: Block, x: Block) -> Block {
        xor(rounds(xor(x, mask), &self.k2), self.i)
    }

    /// E(-1, b) (line 404).
    pub fn e10(&self, b: usize, x: Block) -> Block {
        xor(rounds(xor(x, self.of_j[b]), &self.k10), self.i)
    }

    /// (b mod 8)·J ⊕ 2^⌊(b - 1) / 8⌋·L for b = 1, 2, .. (line 406).
    #[inline(always)]
    pub fn masks(&self) -> impl Iterator<Item = Block> + '_ {
        let mut l = self.l;
        (1..).map(move |b: usize| {
            let mask = xor(self.of_j[b % 8], l);
            if b.is_multiple_of(8) {
                l = double(l);
            }
            mask
        })
    }
}

/// The first 16 bytes.
#[inline(always)]
pub fn load(bytes: &[u8]) -> Block {
    let (words, _) = bytes[..16].as_chunks::<8>();
    [u64::from_le_bytes(words[0]), u64::from_le_bytes(words[1])]
}

#[inline(always)]
pub fn store(block: Block, bytes: &mut [u8]) {
    bytes[..8].copy_from_slice(&block[0].to_le_bytes());
    bytes[8..16].copy_from_slice(&block[1].to_le_bytes());
}

/// At most 16 bytes, and zeros to the block's end.
pub fn zero_filled(bytes: &[u8]) -> Block {
    match bytes.split_first_chunk() {
        Some((first, rest)) => [u64::from_le_bytes(*first), short(rest)],
        None => [short(bytes), 0],
    }
}

/// X10* of at most 15 bytes.
pub fn padded(bytes: &[u8]) -> Block {
    let mut block = zero_filled(bytes);
    block[bytes.len() / 8] ^= 0x80 << (8 * (bytes.len() % 8));
    block
}

/// At most 8 bytes: two loads of four or of two, which may overlap.
fn short(bytes: &[u8]) -> u64 {
    let joined = |first: u64, last: u64, size| first | last << (8 * (bytes.len() - size));
    if let (Some(first), Some(last)) = (bytes.first_chunk::<4>(), bytes.last_chunk::<4>()) {
        let (first, last) = (u32::from_le_bytes(*first), u32::from_le_bytes(*last));
        joined(first.into(), last.into(), 4)
    } else if let (Some(first), Some(last)) = (bytes.first_chunk::<2>(), bytes.last_chunk::<2>()) {
        let (first, last) = (u16::from_le_bytes(*first), u16::from_le_bytes(*last));
        joined(first.into(), last.into(), 2)
    } else {
        bytes.first().map_or(0, |&byte| byte.into())
    }
}

/// The block's bytes as a number, the first the highest.
pub fn number(block: Block) -> u128 {
    u128::from(block[0].swap_bytes()) << 64 | u128::from(block[1].swap_bytes())
}

pub fn of_number(n: u128) -> Block {
    [((n >> 64) as u64).swap_bytes(), (n as u64).swap_bytes()]
}

/// 2·X (section 7).
pub fn double(x: Block) -> Block {
    let n = number(x);
    of_number((n << 1) ^ (135 * (n >> 127)))
}
