//! Figure 6: AEZ-hash, AEZ-prf and the tweakable block function E, with the
//! notation of section 7 that they use.

use crate::aes::{aes10, aes4, xor, Block};

/// The block of zero bits, bold 0 in the paper.
pub const ZERO: Block = [0; 16];

/// Line 401: I, J and L. Extract is outside, so a key is the 48 bytes of the three.
#[derive(Clone, Copy)]
pub struct Key {
    pub i: Block,
    pub j: Block,
    pub l: Block,
}

impl Key {
    /// The three blocks in their order, or nothing if there are not 48 bytes.
    pub fn read(bytes: &[u8]) -> Option<Key> {
        if bytes.len() != 48 {
            return None;
        }
        Some(Key {
            i: block(&bytes[..16]),
            j: block(&bytes[16..32]),
            l: block(&bytes[32..]),
        })
    }

    /// Line 402: the keys of AES4.
    fn k0(&self) -> [Block; 5] {
        [ZERO, self.i, self.j, self.l, ZERO]
    }

    fn k1(&self) -> [Block; 5] {
        [ZERO, self.j, self.l, self.i, ZERO]
    }

    fn k2(&self) -> [Block; 5] {
        [ZERO, self.l, self.i, self.j, self.i]
    }

    /// Line 403: the keys of AES10, bold K in the paper.
    fn k(&self) -> [Block; 11] {
        let Key { i, j, l } = *self;
        [ZERO, i, l, j, i, l, j, i, l, j, i]
    }
}

/// The block that a string of sixteen bytes is.
pub fn block(x: &[u8]) -> Block {
    let mut full = ZERO;
    full.copy_from_slice(x);
    full
}

/// X10* of a string below sixteen bytes: a 1 bit, then zero bits to a block.
pub fn pad(x: &[u8]) -> Block {
    let mut padded = ZERO;
    padded[..x.len()].copy_from_slice(x);
    padded[x.len()] = 0x80;
    padded
}

/// The paper's `[n]_128`: a number as a block, high byte first.
pub fn number(n: u128) -> Block {
    n.to_be_bytes()
}

/// 2·X: X << 1, and 135 into the last byte if the bit lost was 1.
pub fn double(x: Block) -> Block {
    let bits = u128::from_be_bytes(x);
    number((bits << 1) ^ (135 * (bits >> 127)))
}

/// n·X: 0·X = 0, 2n·X = 2·(n·X), (2n+1)·X = 2n·X xor X, which gives 1·X = X.
pub fn times(n: u32, x: Block) -> Block {
    if n == 0 {
        return ZERO;
    }
    let even = double(times(n / 2, x));
    if n.is_multiple_of(2) {
        even
    } else {
        xor(even, x)
    }
}

/// 2^e·X as e doublings: 2^e itself soon passes every number type.
pub fn power_times(e: u32, x: Block) -> Block {
    (0..e).fold(x, |power, _| double(power))
}

/// 2^floor((j-1)/8)·L of lines 406 and 408 for j = 1, 2, 3, ..: each power
/// serves eight j, and the next is its double.
pub fn powers_of_l(key: &Key) -> impl Iterator<Item = Block> {
    std::iter::successors(Some(key.l), |&power| Some(double(power))).flat_map(|power| [power; 8])
}

/// Lines 400 to 409: the block function E with the tweak (i, j), i the row and
/// j the number in it.
///
/// # Panics
///
/// Where the figure does not define E: a row below -1, j above 7 in the rows
/// -1 and 0, and j = 0 in the rows 1 and 2.
pub fn e(key: &Key, i: i32, j: u32, x: Block) -> Block {
    let power = power_times(j.saturating_sub(1) / 8, key.l);
    e_with_power(key, i, j, power, x)
}

/// E as above, given 2^floor((j-1)/8)·L. The lines that do not use the power
/// do not look at it.
pub fn e_with_power(key: &Key, i: i32, j: u32, power: Block, x: Block) -> Block {
    match (i, j) {
        // 404
        (-1, 0..=7) => aes10(&key.k(), xor(x, times(j, key.j))),
        // 405
        (0, 0..=7) => aes4(&key.k0(), xor(x, times(j, key.j))),
        // 406
        (1, 1..) => aes4(&key.k1(), xor(x, j_and_power(key, j, power))),
        (2, 1..) => aes4(&key.k2(), xor(x, j_and_power(key, j, power))),
        // 407, 408
        (3.., 1..) => {
            let mask = xor(j_and_power(key, j, power), row_mask(key, i));
            aes4(&key.k0(), xor(x, mask))
        }
        // 409
        (3.., 0) => aes4(&key.k0(), xor(x, row_mask(key, i))),
        _ => panic!("Figure 6 does not define E with the tweak ({i}, {j})"),
    }
}

/// (j mod 8)J xor 2^floor((j-1)/8)·L of lines 406 and 408.
fn j_and_power(key: &Key, j: u32, power: Block) -> Block {
    xor(times(j % 8, key.j), power)
}

/// (i-2)8J of lines 408 and 409, for the rows i from 3 on. It is 8·((i-2)·J)
/// by the rule for 2n·X, which keeps the number (i-2)8 out of the way.
fn row_mask(key: &Key, i: i32) -> Block {
    power_times(3, times(i.abs_diff(2), key.j))
}

/// Lines 300 to 307: AEZ-hash of the strings T_1, .., T_t.
pub fn aez_hash(key: &Key, t: &[Vec<u8>]) -> Block {
    // 302, 307
    (1..).zip(t).fold(ZERO, |delta, (i, t_i)| {
        xor(delta, hash_string(key, 2 + i, t_i))
    })
}

/// Lines 303 to 306: Delta_i, with the row 2 + i given.
fn hash_string(key: &Key, row: i32, t_i: &[u8]) -> Block {
    let mut delta_i = ZERO;
    // 303: the blocks. An empty string has one, which is empty.
    let full = t_i.chunks_exact(16);
    let short = full.remainder();
    // 304 and 306: the full blocks from 1 on.
    for ((j, power), x_j) in (1..).zip(powers_of_l(key)).zip(full) {
        delta_i = xor(delta_i, e_with_power(key, row, j, power, block(x_j)));
    }
    // 305, 306: the last block where it is not full.
    if !short.is_empty() || t_i.is_empty() {
        delta_i = xor(delta_i, e(key, row, 0, pad(short)));
    }
    delta_i
}

/// Lines 310 to 312: AEZ-prf, the first tau bits; tau is a multiple of 8.
pub fn aez_prf(key: &Key, t: &[Vec<u8>], tau: usize) -> Vec<u8> {
    // 311
    let delta = aez_hash(key, t);
    // 312
    (0..)
        .flat_map(|n| e(key, -1, 3, xor(delta, number(n))))
        .take(tau / 8)
        .collect()
}
