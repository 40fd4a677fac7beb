//! Arithmetic in the tower GF(((2^2)^2)^2) and the changes of basis. The columns of the change are
//! multiplied out from W, Z and Y in the AES field; the document's bytes are only compared with them.

use crate::aes::field_product;

const W: u8 = 0xbd;
const Z: u8 = 0x5c;
const Y: u8 = 0xff;

/// n is W^2, and N is nibble 1, in the tower's own digits.
const PAIR_N: u8 = 2;
const NIBBLE_N: u8 = 1;

/// The two bits of a pair change places: its square and its inverse.
pub const fn exchange(pair: u8) -> u8 {
    (pair >> 1) | ((pair & 1) << 1)
}

/// (h W^2 + l W)(h' W^2 + l' W), with W^2 + W = 1.
const fn multiply_pairs(x: u8, y: u8) -> u8 {
    let (h, l, k, m) = (x >> 1, x & 1, y >> 1, y & 1);
    let both = (h & m) ^ (l & k);
    (((l & m) ^ both) << 1) | ((h & k) ^ both)
}

const fn multiply_nibbles(x: u8, y: u8) -> u8 {
    let (x1, x0, y1, y0) = (x >> 2, x & 3, y >> 2, y & 3);
    let k = multiply_pairs(PAIR_N, multiply_pairs(x1 ^ x0, y1 ^ y0));
    ((multiply_pairs(x1, y1) ^ k) << 2) | (multiply_pairs(x0, y0) ^ k)
}

const fn pair_products() -> [u8; 16] {
    let (mut table, mut i) = ([0; 16], 0);
    while i < 16 {
        table[i] = multiply_pairs(i as u8 >> 2, i as u8 & 3);
        i += 1;
    }
    table
}

const fn nibble_products() -> [u8; 256] {
    let (mut table, mut i) = ([0; 256], 0);
    while i < 256 {
        table[i] = multiply_nibbles(i as u8 >> 4, i as u8 & 15);
        i += 1;
    }
    table
}

static PAIR_PRODUCTS: [u8; 16] = pair_products();
static NIBBLE_PRODUCTS: [u8; 256] = nibble_products();

#[inline(always)]
pub fn pair_product(x: u8, y: u8) -> u8 {
    PAIR_PRODUCTS[((x << 2 | y) & 15) as usize]
}

#[inline(always)]
pub fn nibble_product(x: u8, y: u8) -> u8 {
    NIBBLE_PRODUCTS[(x << 4 | y) as usize]
}

/// n times the square of a pair.
#[inline(always)]
pub fn pair_scaled_square(x: u8) -> u8 {
    pair_product(PAIR_N, exchange(x))
}

/// N times the square of a nibble.
#[inline(always)]
pub fn nibble_scaled_square(x: u8) -> u8 {
    nibble_product(NIBBLE_N, nibble_product(x, x))
}

pub fn nibble_inverse(x: u8) -> u8 {
    let (x1, x0) = (x >> 2, x & 3);
    let inverse = exchange(pair_product(x1, x0) ^ pair_scaled_square(x1 ^ x0));
    pair_product(x0, inverse) << 2 | pair_product(x1, inverse)
}

pub fn byte_inverse(a: u8) -> u8 {
    let (a1, a0) = (a >> 4, a & 15);
    let inverse = nibble_inverse(nibble_product(a1, a0) ^ nibble_scaled_square(a1 ^ a0));
    nibble_product(a0, inverse) << 4 | nibble_product(a1, inverse)
}

/// What bit `bit` of a tower byte stands for in the AES field.
pub const fn column(bit: u32) -> u8 {
    let w = if bit & 1 == 0 { W } else { W ^ 1 };
    let z = if bit & 2 == 0 { Z } else { Z ^ 1 };
    let y = if bit & 4 == 0 { Y } else { Y ^ 1 };
    field_product(w, field_product(z, y))
}

const fn changes() -> ([u8; 256], [u8; 256]) {
    let (mut from, mut to, mut tower) = ([0; 256], [0; 256], 0);
    while tower < 256 {
        let mut bit = 0;
        while bit < 8 {
            from[tower] ^= column(bit) * ((tower >> bit) & 1) as u8;
            bit += 1;
        }
        to[from[tower] as usize] = tower as u8;
        tower += 1;
    }
    (from, to)
}

static CHANGES: ([u8; 256], [u8; 256]) = changes();

pub fn from_tower(tower: u8) -> u8 {
    CHANGES.0[tower as usize]
}

pub fn to_tower(byte: u8) -> u8 {
    CHANGES.1[byte as usize]
}
