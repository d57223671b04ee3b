//! AEZ-core (Figure 5, lines 220 to 240), in place, on strings of 32 bytes and more.

use super::aes::{xor, Block, ZERO};
use super::key::{load, padded, store, zero_filled, Key};
use super::Way;

pub fn core(key: &Key, delta: Block, text: &mut [u8], way: Way) {
    let (x, y) = match way {
        Way::There => (1, 2),
        Way::Back => (2, 1),
    };
    let (rest, last) = text.split_at_mut(text.len() - 32);
    let (pairs, uv) = rest.as_chunks_mut::<32>();
    let (m_x, m_y) = (load(last), load(&last[16..]));

    let sum = xor(first_pass(key, pairs), of_uv(key, uv));
    let s_x = xor(xor(m_x, delta), xor(sum, key.e0(key.of_j[x], m_y)));
    let s_y = xor(m_y, key.e10(x, s_x));
    let s = xor(s_x, s_y);
    mask_uv(key, s, uv);
    let sum = xor(second_pass(key, s, pairs), of_uv(key, uv));
    let c_y = xor(s_x, key.e10(y, s_y));
    let c_x = xor(xor(s_y, delta), xor(sum, key.e0(key.of_j[y], c_y)));
    store(c_x, last);
    store(c_y, &mut last[16..]);
}

/// Line 226: puts W and X in the place of each pair, and gives the sum of all X.
fn first_pass(key: &Key, pairs: &mut [[u8; 32]]) -> Block {
    let mut sum = ZERO;
    for (pair, mask) in pairs.iter_mut().zip(key.masks()) {
        let (m, m2) = (load(pair), load(&pair[16..]));
        let w = xor(m, key.e1(mask, m2));
        let x = xor(m2, key.e0(ZERO, w));
        store(w, pair);
        store(x, &mut pair[16..]);
        sum = xor(sum, x);
    }
    sum
}

/// Lines 231 to 233: of W and X makes C and C′ of each pair, and gives the sum of all Y.
fn second_pass(key: &Key, s: Block, pairs: &mut [[u8; 32]]) -> Block {
    let mut sum = ZERO;
    for (pair, mask) in pairs.iter_mut().zip(key.masks()) {
        let s2 = key.e2(mask, s);
        let (y, z) = (xor(load(pair), s2), xor(load(&pair[16..]), s2));
        let c2 = xor(y, key.e0(ZERO, z));
        let c = xor(z, key.e1(mask, c2));
        store(c, pair);
        store(c2, &mut pair[16..]);
        sum = xor(sum, y);
    }
    sum
}

/// What u and v add to X or Y (lines 227 to 229 and 234 to 238).
fn of_uv(key: &Key, uv: &[u8]) -> Block {
    if uv.is_empty() {
        return ZERO;
    }
    if uv.len() < 16 {
        return key.e0(key.of_j[4], padded(uv));
    }
    let v = key.e0(key.of_j[5], padded(&uv[16..]));
    xor(key.e0(key.of_j[4], load(uv)), v)
}

/// Lines 236 and 237.
fn mask_uv(key: &Key, s: Block, uv: &mut [u8]) {
    for (b, part) in [4, 5].into_iter().zip(uv.chunks_mut(16)) {
        let masked = xor(zero_filled(part), key.e10(b, s)).map(u64::to_le_bytes);
        part.copy_from_slice(&masked.as_flattened()[..part.len()]);
    }
}
