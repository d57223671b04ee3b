//! The AES round of FIPS 197, and AES4 and AES10 of the paper's section 7.

/// Sixteen bytes; the leftmost bit is the top bit of byte 0. As an AES state,
/// byte 4c + r stands in row r of column c (FIPS 197, section 3.4).
pub type Block = [u8; 16];

/// SubBytes' table, worked out from its rule when the program is compiled.
pub const S_BOX: [u8; 256] = s_box();

/// The field's product with x, that is {02} (FIPS 197, section 4.2.1).
const fn xtime(a: u8) -> u8 {
    let shifted = a << 1;
    if a & 0x80 != 0 {
        shifted ^ 0x1b
    } else {
        shifted
    }
}

/// The product in the field of 256 elements (FIPS 197, section 4.2).
const fn product(a: u8, b: u8) -> u8 {
    let mut sum = 0;
    let mut power = a;
    let mut rest = b;
    while rest != 0 {
        if rest & 1 != 0 {
            sum ^= power;
        }
        power = xtime(power);
        rest >>= 1;
    }
    sum
}

/// The inverse in the field, with 0 going to 0. There are 255 nonzero
/// elements, so a^254 is the inverse of a, and 0^254 is 0.
const fn inverse(a: u8) -> u8 {
    let mut power = 1;
    let mut exponent = 0;
    while exponent < 254 {
        power = product(power, a);
        exponent += 1;
    }
    power
}

/// The affine step (FIPS 197, section 5.1.1): bit i of the result is the xor
/// of bits i, i+4, i+5, i+6, i+7 (mod 8) of b and of bit i of {63}.
const fn affine(b: u8) -> u8 {
    b ^ b.rotate_left(1) ^ b.rotate_left(2) ^ b.rotate_left(3) ^ b.rotate_left(4) ^ 0x63
}

const fn s_box() -> [u8; 256] {
    let mut table = [0; 256];
    let mut a = 0;
    while a < 256 {
        table[a] = affine(inverse(a as u8));
        a += 1;
    }
    table
}

/// SubBytes (FIPS 197, section 5.1.1).
pub fn sub_bytes(state: Block) -> Block {
    state.map(|byte| S_BOX[usize::from(byte)])
}

/// ShiftRows (FIPS 197, section 5.1.2): row r moves r places to the left.
pub fn shift_rows(state: Block) -> Block {
    let mut shifted = [0; 16];
    for column in 0..4 {
        for row in 0..4 {
            shifted[4 * column + row] = state[4 * ((column + row) % 4) + row];
        }
    }
    shifted
}

/// MixColumns (FIPS 197, section 5.1.3): each column times {03}x^3 + x^2 + x + {02}.
pub fn mix_columns(state: Block) -> Block {
    let mut mixed = [0; 16];
    for column in 0..4 {
        for row in 0..4 {
            let below = |places: usize| state[4 * column + (row + places) % 4];
            mixed[4 * column + row] =
                product(below(0), 2) ^ product(below(1), 3) ^ below(2) ^ below(3);
        }
    }
    mixed
}

/// The xor of two blocks; AddRoundKey is this (FIPS 197, section 5.1.4).
pub fn xor(a: Block, b: Block) -> Block {
    std::array::from_fn(|place| a[place] ^ b[place])
}

/// Section 7: SubBytes, ShiftRows, MixColumns, then an AddRoundKey with K.
pub fn aesenc(x: Block, k: Block) -> Block {
    xor(mix_columns(shift_rows(sub_bytes(x))), k)
}

/// Section 7: X xor key 0, then four rounds; the last keeps its MixColumns.
pub fn aes4(keys: &[Block; 5], x: Block) -> Block {
    rounds(keys[0], &keys[1..], x)
}

/// Section 7: X xor key 0, then ten rounds; the last keeps its MixColumns.
pub fn aes10(keys: &[Block; 11], x: Block) -> Block {
    rounds(keys[0], &keys[1..], x)
}

fn rounds(first: Block, others: &[Block], x: Block) -> Block {
    others
        .iter()
        .fold(xor(x, first), |state, &key| aesenc(state, key))
}

/// The AES-128 key schedule (FIPS 197, section 5.2), four words to a block.
pub fn key_expansion(key: Block) -> [Block; 11] {
    let mut keys = [key; 11];
    let mut rcon = 1;
    for round in 1..11 {
        let previous = keys[round - 1];
        // SubWord(RotWord(last word)) xor Rcon.
        let mut word = [13, 14, 15, 12].map(|place: usize| S_BOX[usize::from(previous[place])]);
        word[0] ^= rcon;
        rcon = xtime(rcon);
        for place in 0..16 {
            word[place % 4] ^= previous[place];
            keys[round][place] = word[place % 4];
        }
    }
    keys
}

/// AES-128 of one block (FIPS 197, section 5.1): nine rounds, then one without
/// MixColumns. AEZ has no use for it. It is here so that the steps above can
/// be held against FIPS 197's own values.
pub fn aes128(key: Block, x: Block) -> Block {
    let keys = key_expansion(key);
    let state = rounds(keys[0], &keys[1..10], x);
    xor(shift_rows(sub_bytes(state)), keys[10])
}
