//! Bare AES as FIPS 197 states it. Both S-box tables are computed from the field, none is copied.

/// Sixteen bytes; byte i stands in row i mod 4, column i / 4.
pub type State = [u8; 16];

/// Sixteen lent bytes as a state.
pub fn state(bytes: &[u8]) -> State {
    std::array::from_fn(|i| bytes[i])
}

/// Puts a mask on or takes it off.
pub fn add(x: &[u8], y: &[u8]) -> State {
    std::array::from_fn(|i| x[i] ^ y[i])
}

pub const fn xtime(a: u8) -> u8 {
    (a << 1) ^ (0x1b * (a >> 7))
}

pub const fn field_product(a: u8, b: u8) -> u8 {
    let (mut power, mut sum, mut bit) = (a, 0, 0);
    while bit < 8 {
        sum ^= power * ((b >> bit) & 1);
        power = xtime(power);
        bit += 1;
    }
    sum
}

/// The 254th power, which sends zero to zero.
pub const fn field_inverse(a: u8) -> u8 {
    let (mut result, mut factor, mut step) = (1, a, 0);
    while step < 7 {
        factor = field_product(factor, factor);
        result = field_product(result, factor);
        step += 1;
    }
    result
}

/// The affine step without its constant 63.
pub const fn affine_linear(x: u8) -> u8 {
    x ^ x.rotate_left(1) ^ x.rotate_left(2) ^ x.rotate_left(3) ^ x.rotate_left(4)
}

/// The inverse affine step without its constant 05.
pub const fn inverse_affine_linear(x: u8) -> u8 {
    x.rotate_left(1) ^ x.rotate_left(3) ^ x.rotate_left(6)
}

const fn substitutions() -> ([u8; 256], [u8; 256]) {
    let (mut forth, mut back, mut x) = ([0; 256], [0; 256], 0);
    while x < 256 {
        let y = affine_linear(field_inverse(x as u8)) ^ 0x63;
        forth[x] = y;
        back[y as usize] = x as u8;
        x += 1;
    }
    (forth, back)
}

static SUBSTITUTIONS: ([u8; 256], [u8; 256]) = substitutions();

pub fn sbox(x: u8) -> u8 {
    SUBSTITUTIONS.0[x as usize]
}

pub fn inverse_sbox(x: u8) -> u8 {
    SUBSTITUTIONS.1[x as usize]
}

pub fn shift_rows(state: &State) -> State {
    std::array::from_fn(|i| state[(i + 4 * (i % 4)) % 16])
}

pub fn inverse_shift_rows(state: &State) -> State {
    std::array::from_fn(|i| state[(i + 12 * (i % 4)) % 16])
}

pub fn mix_columns(state: &State) -> State {
    mix(state, [2, 3, 1, 1])
}

pub fn inverse_mix_columns(state: &State) -> State {
    mix(state, [0x0e, 0x0b, 0x0d, 0x09])
}

/// Multiplies every column by the circulant matrix with this first row.
fn mix(state: &State, row: [u8; 4]) -> State {
    std::array::from_fn(|i| {
        let column = i - i % 4;
        (0..4).fold(0, |sum, k| sum ^ field_product(row[(4 + k - i % 4) % 4], state[column + k]))
    })
}

pub fn add_round_key(state: &State, round_keys: &[u8], round: usize) -> State {
    add(state, &round_keys[16 * round..])
}

/// Nr, which the length of the round keys gives.
pub fn rounds(round_keys: &[u8]) -> usize {
    round_keys.len() / 16 - 1
}

pub fn cipher(input: &State, round_keys: &[u8]) -> State {
    let last = rounds(round_keys);
    let mut state = add_round_key(input, round_keys, 0);
    for round in 1..=last {
        state = shift_rows(&state.map(sbox));
        if round < last {
            state = mix_columns(&state);
        }
        state = add_round_key(&state, round_keys, round);
    }
    state
}

pub fn inverse_cipher(input: &State, round_keys: &[u8]) -> State {
    let last = rounds(round_keys);
    let mut state = add_round_key(input, round_keys, last);
    for round in (0..last).rev() {
        state = inverse_shift_rows(&state).map(inverse_sbox);
        state = add_round_key(&state, round_keys, round);
        if round > 0 {
            state = inverse_mix_columns(&state);
        }
    }
    state
}

/// The length of the round keys for a key of 16, 24 or 32 bytes.
pub fn expanded_length(key_length: usize) -> Option<usize> {
    [(16, 176), (24, 208), (32, 240)].iter().find(|pair| pair.0 == key_length).map(|pair| pair.1)
}

/// KeyExpansion, for a key of one of the three lengths.
pub fn expand(key: &[u8]) -> Vec<u8> {
    let words_in_key = key.len() / 4;
    let words = 4 * (words_in_key + 7);
    let (mut keys, mut constant) = (key.to_vec(), 1);
    for i in words_in_key..words {
        let mut word: [u8; 4] = std::array::from_fn(|k| keys[4 * i - 4 + k]);
        if i % words_in_key == 0 {
            word.rotate_left(1);
            word = word.map(sbox);
            word[0] ^= constant;
            constant = xtime(constant);
        } else if words_in_key > 6 && i % words_in_key == 4 {
            word = word.map(sbox);
        }
        for k in 0..4 {
            keys.push(keys[4 * (i - words_in_key) + k] ^ word[k]);
        }
    }
    keys
}
