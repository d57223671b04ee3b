//! AES rounds by four tables of 256 words: SubBytes, ShiftRows and MixColumns of a
//! byte are one look-up, and of a column four.

/// A block's bytes as they stand in memory, the first in the lowest eight bits.
pub type Block = [u64; 2];

pub const ZERO: Block = [0; 2];

/// Table r has for each byte of row r what it adds to its column.
static TABLES: [[u32; 256]; 4] = tables();

/// p runs through the powers of 3, which are all bytes but 0, and q through their
/// inverses, since 0xf6 is the inverse of 3.
const fn tables() -> [[u32; 256]; 4] {
    let mut tables = [[0; 256]; 4];
    let (mut p, mut q) = (1, 1);
    let mut left = 255;
    while 0 < left {
        fill(&mut tables, p, q);
        p = product(p, 3);
        q = product(q, 0xf6);
        left -= 1;
    }
    fill(&mut tables, 0, 0);
    tables
}

/// The entries of a byte whose inverse is q (FIPS 197, sections 5.1.1 and 5.1.3).
const fn fill(tables: &mut [[u32; 256]; 4], byte: u8, q: u8) {
    let turned = q.rotate_left(1) ^ q.rotate_left(2) ^ q.rotate_left(3) ^ q.rotate_left(4);
    let s = q ^ turned ^ 0x63;
    let column = u32::from_le_bytes([product(s, 2), s, s, product(s, 3)]);
    let mut row = 0;
    while row < 4 {
        tables[row][byte as usize] = column.rotate_left(8 * row as u32);
        row += 1;
    }
}

/// The product of FIPS 197, section 4.2.
const fn product(a: u8, b: u8) -> u8 {
    let (mut power, mut rest, mut sum) = (a, b, 0);
    while rest != 0 {
        if rest & 1 == 1 {
            sum ^= power;
        }
        power = (power << 1) ^ (0x1b * (power >> 7));
        rest >>= 1;
    }
    sum
}

#[inline(always)]
pub fn xor(a: Block, b: Block) -> Block {
    [a[0] ^ b[0], a[1] ^ b[1]]
}

/// FIPS 197's columns, the byte of row 0 in the lowest eight bits.
type Columns = [u32; 4];

#[inline(always)]
fn columns(x: Block) -> Columns {
    [
        x[0] as u32,
        (x[0] >> 32) as u32,
        x[1] as u32,
        (x[1] >> 32) as u32,
    ]
}

/// aesenc under the key zero.
#[inline(always)]
fn round(s: Columns) -> Columns {
    let [t0, t1, t2, t3] = &TABLES;
    let column = |a: u32, b: u32, c: u32, d: u32| {
        t0[usize::from(a as u8)]
            ^ t1[usize::from((b >> 8) as u8)]
            ^ t2[usize::from((c >> 16) as u8)]
            ^ t3[usize::from((d >> 24) as u8)]
    };
    [
        column(s[0], s[1], s[2], s[3]),
        column(s[1], s[2], s[3], s[0]),
        column(s[2], s[3], s[0], s[1]),
        column(s[3], s[0], s[1], s[2]),
    ]
}

/// A round under each key and then one under the key zero.
#[inline(always)]
pub fn rounds<const R: usize>(x: Block, keys: &[Block; R]) -> Block {
    let mut s = columns(x);
    for &key in keys {
        let (t, key) = (round(s), columns(key));
        s = [t[0] ^ key[0], t[1] ^ key[1], t[2] ^ key[2], t[3] ^ key[3]];
    }
    let [a, b, c, d] = round(s);
    let joined = |low, high| u64::from(low) | u64::from(high) << 32;
    [joined(a, b), joined(c, d)]
}
