//! Figure 5: the main routines of AEZ, in the figure's order and with its names.
//!
//! The header is the figure's N, A_1, .., A_m as one list. The stretch t is in
//! bytes at the door; inside, tau = 8t is in bits.

use crate::aes::{xor, Block};
use crate::figure6::{
    aez_hash, aez_prf, block, e, e_with_power, number, pad, powers_of_l, Key, ZERO,
};

/// Lines 100 to 103: authenticated encryption.
pub fn encrypt(key: &Key, header: &[Vec<u8>], t: usize, m: &[u8]) -> Vec<u8> {
    let tau = 8 * t;
    // 102
    let tweak = tweak(header, tau);
    // 103
    if m.is_empty() {
        return aez_prf(key, &tweak, tau);
    }
    // 101
    let mut x = m.to_vec();
    x.resize(m.len() + t, 0);
    encipher(key, &tweak, &x)
}

/// Lines 110 to 115: authenticated decryption. The figure's bottom is `None`.
pub fn decrypt(key: &Key, header: &[Vec<u8>], t: usize, c: &[u8]) -> Option<Vec<u8>> {
    let tau = 8 * t;
    // 111
    let tweak = tweak(header, tau);
    // 112
    if c.len() < t {
        return None;
    }
    // 113
    if c.len() == t {
        return (c == aez_prf(key, &tweak, tau)).then(Vec::new);
    }
    // 114
    let mut m = decipher(key, &tweak, c);
    let z = m.split_off(c.len() - t);
    // 115
    z.iter().all(|&byte| byte == 0).then_some(m)
}

/// Lines 102 and 111: tau as a block, then the header strings.
fn tweak(header: &[Vec<u8>], tau: usize) -> Vec<Vec<u8>> {
    let mut tweak = vec![number(tau as u128).to_vec()];
    tweak.extend_from_slice(header);
    tweak
}

/// Lines 200 to 202, for an X of one byte or more.
pub fn encipher(key: &Key, tweak: &[Vec<u8>], x: &[u8]) -> Vec<u8> {
    if x.len() < 32 {
        encipher_aez_tiny(key, tweak, x)
    } else {
        encipher_aez_core(key, tweak, x)
    }
}

/// Section 7: Decipher, the inverse of Encipher.
pub fn decipher(key: &Key, tweak: &[Vec<u8>], y: &[u8]) -> Vec<u8> {
    if y.len() < 32 {
        decipher_aez_tiny(key, tweak, y)
    } else {
        decipher_aez_core(key, tweak, y)
    }
}

/// Lines 210 to 218, on one to 31 bytes.
pub fn encipher_aez_tiny(key: &Key, tweak: &[Vec<u8>], m: &[u8]) -> Vec<u8> {
    let delta = aez_hash(key, tweak);
    let m = to_bits(m);
    let mut halves = Halves::cut(&m);
    // 215
    for i in 0..tiny_rounds(m.len()) {
        halves.round(key, delta, i);
    }
    // 217, 218
    to_bytes(&correct_even_cycles(key, delta, halves.join()))
}

/// Section 7: as lines 210 to 218, but with the `if` of line 217 done first,
/// on M, and with line 215 counting down.
pub fn decipher_aez_tiny(key: &Key, tweak: &[Vec<u8>], m: &[u8]) -> Vec<u8> {
    let delta = aez_hash(key, tweak);
    let m = correct_even_cycles(key, delta, to_bits(m));
    let mut halves = Halves::cut(&m);
    for i in (0..tiny_rounds(m.len())).rev() {
        halves.round(key, delta, i);
    }
    to_bytes(&halves.join())
}

/// Lines 212 and 213: k for m bits.
fn tiny_rounds(m: usize) -> u32 {
    match m {
        8 => 24,
        16 => 16,
        ..128 => 10,
        _ => 8,
    }
}

/// L and R of AEZ-tiny, equally many bits each, with j of line 214.
struct Halves {
    l: Vec<bool>,
    r: Vec<bool>,
    j: u32,
}

impl Halves {
    /// Line 214.
    fn cut(m: &[bool]) -> Halves {
        let (l, r) = m.split_at(m.len() / 2);
        Halves {
            l: l.to_vec(),
            r: r.to_vec(),
            j: if m.len() >= 128 { 6 } else { 7 },
        }
    }

    /// Line 216.
    fn round(&mut self, key: &Key, delta: Block, i: u32) {
        let mut r10 = self.r.clone();
        r10.push(true);
        let input = xor(xor(delta, pad_with_zeros(r10)), number(u128::from(i)));
        let output = to_bits(&e(key, 0, self.j, input));
        let r = xor_bits(&self.l, &output);
        self.l = std::mem::replace(&mut self.r, r);
    }

    /// Line 217, the first part: R, then L.
    fn join(self) -> Vec<bool> {
        [self.r, self.l].concat()
    }
}

/// Line 217, the `if` part: below 128 bits the first bit is xored with that of
/// E of C0* with its first bit set. It looks at no first bit, so it undoes itself.
fn correct_even_cycles(key: &Key, delta: Block, mut c: Vec<bool>) -> Vec<bool> {
    if c.len() < 128 {
        let mut first_set = c.clone();
        first_set[0] = true;
        let input = xor(delta, pad_with_zeros(first_set));
        c[0] ^= to_bits(&e(key, 0, 3, input))[0];
    }
    c
}

/// The bits of a string, each byte's top bit first.
fn to_bits(bytes: &[u8]) -> Vec<bool> {
    bytes
        .iter()
        .flat_map(|byte| (0..8).rev().map(move |place| byte >> place & 1 == 1))
        .collect()
}

/// The string that these bits are, eight to a byte.
fn to_bytes(bits: &[bool]) -> Vec<u8> {
    bits.chunks(8)
        .map(|byte| byte.iter().fold(0, |high, &bit| high << 1 | u8::from(bit)))
        .collect()
}

/// X0* of up to 128 bits, as a block.
fn pad_with_zeros(mut x: Vec<bool>) -> Block {
    x.resize(128, false);
    block(&to_bytes(&x))
}

/// The xor of unequal strings (section 7): the longer loses its rightmost bits.
fn xor_bits(a: &[bool], b: &[bool]) -> Vec<bool> {
    a.iter().zip(b).map(|(a, b)| a ^ b).collect()
}

/// As `xor_bits`, on bytes.
fn xor_bytes(a: &[u8], b: &[u8]) -> Vec<u8> {
    a.iter().zip(b).map(|(a, b)| a ^ b).collect()
}

/// A tweak (i, j) of E.
type Tweak = (i32, u32);

/// The tweaks of lines 230 and 239, in the order in which they are used.
struct XyTweaks {
    /// (0, 1) and (-1, 1) at line 230.
    first: [Tweak; 2],
    /// (-1, 2) and (0, 2) at line 239.
    second: [Tweak; 2],
}

/// Lines 220 to 240, on 32 bytes or more.
pub fn encipher_aez_core(key: &Key, tweak: &[Vec<u8>], m: &[u8]) -> Vec<u8> {
    let tweaks = XyTweaks {
        first: [(0, 1), (-1, 1)],
        second: [(-1, 2), (0, 2)],
    };
    aez_core(key, tweak, &tweaks, m)
}

/// Section 7: as enciphering, with (0, 1) and (0, 2) swapped, and (-1, 1) and (-1, 2).
pub fn decipher_aez_core(key: &Key, tweak: &[Vec<u8>], m: &[u8]) -> Vec<u8> {
    let tweaks = XyTweaks {
        first: [(0, 2), (-1, 2)],
        second: [(-1, 1), (0, 1)],
    };
    aez_core(key, tweak, &tweaks, m)
}

/// Lines 221 and 222: m, the number of pairs, and d, here in bytes, for a
/// string of 32 bytes or more.
pub fn cut(length: usize) -> (usize, usize) {
    (length / 32 - 1, length % 32)
}

fn aez_core(key: &Key, tweak: &[Vec<u8>], tweaks: &XyTweaks, message: &[u8]) -> Vec<u8> {
    // 221, 222
    let (m, d) = cut(message.len());
    let (pairs, rest) = message.split_at(32 * m);
    let (m_uv, xy) = rest.split_at(d);
    let (m_x, m_y) = (block(&xy[..16]), block(&xy[16..]));
    // 223
    let delta = aez_hash(key, tweak);
    // 224, 225
    let (m_u, m_v) = m_uv.split_at(d.min(16));
    // 226
    let mut w = Vec::with_capacity(m);
    let mut x_i = Vec::with_capacity(m);
    for ((i, power), pair) in (1..).zip(powers_of_l(key)).zip(pairs.chunks(32)) {
        let (m_i, m_prime_i) = (block(&pair[..16]), block(&pair[16..]));
        let w_i = xor(m_i, e_with_power(key, 1, i, power, m_prime_i));
        x_i.push(xor(m_prime_i, e(key, 0, 0, w_i)));
        w.push(w_i);
    }
    // 227 to 229
    let x = xor(sum(&x_i), uv_term(key, m_u, m_v));
    // 230
    let [(x_row, x_number), (xx_row, xx_number)] = tweaks.first;
    let s_x = xor(xor(xor(m_x, delta), x), e(key, x_row, x_number, m_y));
    let s_y = xor(m_y, e(key, xx_row, xx_number, s_x));
    let s = xor(s_x, s_y);
    // 231 to 233
    let mut c = Vec::with_capacity(message.len());
    let mut y_i = Vec::with_capacity(m);
    for ((i, power), (w_i, x_i)) in (1..).zip(powers_of_l(key)).zip(w.into_iter().zip(x_i)) {
        let s_prime = e_with_power(key, 2, i, power, s);
        let (y, z) = (xor(w_i, s_prime), xor(x_i, s_prime));
        let c_prime_i = xor(y, e(key, 0, 0, z));
        let c_i = xor(z, e_with_power(key, 1, i, power, c_prime_i));
        y_i.push(y);
        c.extend(c_i);
        c.extend(c_prime_i);
    }
    // 234 to 238: with M_u or M_v empty, so is C_u or C_v.
    let c_u = xor_bytes(m_u, &e(key, -1, 4, s));
    let c_v = xor_bytes(m_v, &e(key, -1, 5, s));
    let y = xor(sum(&y_i), uv_term(key, &c_u, &c_v));
    // 239
    let [(yy_row, yy_number), (y_row, y_number)] = tweaks.second;
    let c_y = xor(s_x, e(key, yy_row, yy_number, s_y));
    let c_x = xor(xor(xor(s_y, delta), y), e(key, y_row, y_number, c_y));
    // 240
    c.extend(c_u);
    c.extend(c_v);
    c.extend(c_x);
    c.extend(c_y);
    c
}

/// The last term of lines 227 to 229, and of lines 234, 236 and 238. A full u
/// brings the v term with it, also where v is empty.
fn uv_term(key: &Key, u: &[u8], v: &[u8]) -> Block {
    match u.len() {
        0 => ZERO,
        1..=15 => e(key, 0, 4, pad(u)),
        _ => xor(e(key, 0, 4, block(u)), e(key, 0, 5, pad(v))),
    }
}

/// X_1 xor .. xor X_m, the zero block if there are none.
fn sum(blocks: &[Block]) -> Block {
    blocks.iter().fold(ZERO, |sum, &x| xor(sum, x))
}
