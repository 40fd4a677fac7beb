//! Cases for the block call: good ones of every size both ways, spent strips, and every kind of
//! damage that a refusal names, alone and together.

use crate::aes;
use crate::case::{direction, length, some_defects, wrong_ones, Call, Case, Maker};
use crate::case_sbox::third_byte;
use crate::rng::Rng;
use crate::strip;

/// The order of refusal of a block call.
pub const ORDER: [u32; 9] = [13, 6, 5, 7, 11, 8, 9, 12, 10];

pub const KEY_SIZES: [usize; 3] = [16, 24, 32];
const GOOD_ROUND_KEYS: [usize; 3] = [176, 208, 240];

pub struct Blocks {
    rng: Rng,
    last: Option<Case>,
}

impl Maker for Blocks {
    /// Of eight cases five are good, the sixth lends the fifth's strip again, two are damaged.
    fn case(&mut self, index: usize) -> Case {
        let case = match (index % 8, self.last.take()) {
            (5, Some(last)) => self.again(&last),
            (6 | 7, _) => {
                let defects = some_defects(&ORDER, &mut self.rng);
                self.damaged(&defects)
            }
            _ => self.good(KEY_SIZES[index % 3], (index / 3 % 2) as u32),
        };
        self.last = Some(case.clone());
        case
    }
}

impl Blocks {
    pub fn new(rng: Rng) -> Blocks {
        Blocks { rng, last: None }
    }

    pub fn good(&mut self, key_size: usize, direction: u32) -> Case {
        let rng = &mut self.rng;
        let round_keys = round_keys(key_size, true, rng);
        let strip = strip::frame(1, key_size as u8, &good_records(key_size, rng));
        let mask = if rng.one_in(16) { vec![0; 16] } else { rng.bytes(16) };
        Case { call: Call::Block, direction, buffers: vec![rng.bytes(16), mask, round_keys, strip] }
    }

    /// The same strip a second time, as the first call left it.
    pub fn again(&mut self, first: &Case) -> Case {
        let mut case = first.clone();
        case.buffers[0] = self.rng.bytes(16);
        case.buffers[1] = self.rng.bytes(16);
        case.buffers[3] = first.run().1.swap_remove(3);
        case
    }

    /// A case in which these numbers apply (8 gives way to 11, for a version is one number).
    pub fn damaged(&mut self, defects: &[u32]) -> Case {
        let rng = &mut self.rng;
        let key_size = rng.pick(&KEY_SIZES);
        let wrong: [bool; 2] = wrong_ones(defects.contains(&6), rng);
        let lengths = wrong.map(|bad| length(!bad, 16, rng));
        let mut buffers: Vec<Vec<u8>> = lengths.iter().map(|&length| rng.bytes(length)).collect();
        buffers.push(round_keys(key_size, !defects.contains(&5), rng));
        buffers.push(damaged_strip(defects, key_size, rng));
        Case { call: Call::Block, direction: direction(!defects.contains(&13), rng), buffers }
    }
}

/// Round keys from a key, or any bytes; or bytes of a length that is none of the three.
fn round_keys(key_size: usize, good: bool, rng: &mut Rng) -> Vec<u8> {
    let right = aes::expanded_length(key_size).expect("one of the three key sizes");
    if good && rng.one_in(2) {
        return aes::expand(&rng.bytes(key_size));
    }
    let mut count = right;
    while !good && GOOD_ROUND_KEYS.contains(&count) {
        let other = rng.pick(&[16, 24, 32, 160, 175, 192, 207, 209, 224, 239, 241, 256]);
        count = if rng.one_in(2) { other } else { length(false, right, rng) };
    }
    rng.bytes(count)
}

/// Records that serve; at times the edges: all zero, or all bits set with third bytes 3.
pub fn good_records(key_size: usize, rng: &mut Rng) -> Vec<u8> {
    let mut records = strip::random_records(key_size, rng);
    match rng.below(16) {
        0 => records.fill(0),
        1 => records.chunks_exact_mut(strip::RECORD).for_each(|record| record.copy_from_slice(&[255, 255, 3])),
        2 => records.chunks_exact_mut(strip::RECORD).for_each(|record| record[2] = 3),
        _ => {}
    }
    records
}

pub fn damaged_strip(defects: &[u32], key_size: usize, rng: &mut Rng) -> Vec<u8> {
    let mut records = good_records(key_size, rng);
    if defects.contains(&10) {
        spoil_records(&mut records, rng);
    }
    if defects.contains(&12) {
        records = wrong_count(records, rng);
    }
    let size = if defects.contains(&9) { wrong_size(key_size as u8, rng) } else { key_size as u8 };
    if defects.contains(&9) && rng.one_in(2) {
        // Half of them are whole strips, made for the other size.
        records.resize(strip::record_bytes(size.into()).unwrap_or(records.len()), 1);
    }
    let mut strip = strip::frame(version(defects, rng), size, &records);
    if defects.contains(&11) && rng.one_in(2) {
        strip::wipe(&mut strip);
    }
    if defects.contains(&7) {
        break_framing(&mut strip, rng);
    }
    strip
}

/// A third byte above 3 in the first record, the last, or any; at times in several.
fn spoil_records(records: &mut [u8], rng: &mut Rng) {
    let last = records.len() / strip::RECORD - 1;
    for _ in 0..1 + rng.below(3) {
        let random = rng.below(last);
        let index = rng.pick(&[0, last, random, random]);
        records[strip::RECORD * index + 2] = third_byte(false, rng);
    }
}

/// Another number of record bytes, that of the other sizes too.
fn wrong_count(mut records: Vec<u8>, rng: &mut Rng) -> Vec<u8> {
    let right = records.len();
    while records.len() == right {
        let random = rng.below(900);
        let near = right + 4 - rng.below(9);
        let count = rng.pick(&[0, 1, 2, 3, 480, 576, 672, near, near, random]);
        records.resize(count, 2);
    }
    records
}

fn wrong_size(right: u8, rng: &mut Rng) -> u8 {
    let random = rng.byte();
    let other = rng.pick(&[16, 24, 32, 16, 24, 32, 0, 1, 128, 192, random]);
    if other == right { right ^ 1 } else { other }
}

fn version(defects: &[u32], rng: &mut Rng) -> u8 {
    if defects.contains(&11) {
        return 0;
    }
    let other = rng.pick(&[2, 3, 4, 16, 128, 254, 255, 129]);
    if defects.contains(&8) { other } else { 1 }
}

/// Cuts the strip, lengthens it, or writes another length field, until 7 applies.
fn break_framing(strip: &mut Vec<u8>, rng: &mut Rng) {
    while strip::is_framed(strip) {
        let field = strip.len() as u16 - 2;
        let random = rng.word() as u16;
        let ways = if rng.one_in(8) { 5 } else { 4 };
        match rng.below(ways) {
            0 => strip.truncate(rng.below(strip::HEADER)),
            1 => strip.resize(strip::HEADER + rng.below(800), 3),
            2 => set_field(strip, rng.pick(&[field + 2, field + 1, field - 1, field - 2, field + 4, 0])),
            3 => set_field(strip, rng.pick(&[field.swap_bytes(), random, 0xffff])),
            _ => strip.resize(strip.len() + 0x1_0000, 3),
        }
    }
}

fn set_field(strip: &mut [u8], field: u16) {
    strip[..2].copy_from_slice(&field.to_be_bytes());
}
