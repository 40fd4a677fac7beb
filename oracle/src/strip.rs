//! Strips: their form, the checks in order, the record reader, and the wipe.

use crate::refusal::{first, FRAMING, KEY_SIZE, RECORD_COUNT, SPENT, STRIP_RECORD, VERSION};
use crate::rng::Rng;

pub const HEADER: usize = 4;
pub const RECORD: usize = 3;
const FRESH: u8 = 1;
const WIPED: u8 = 0;

/// How many record bytes a strip for this key size has.
pub fn record_bytes(key_size: usize) -> Option<usize> {
    [(16, 160), (24, 192), (32, 224)].iter().find(|pair| pair.0 == key_size).map(|pair| RECORD * pair.1)
}

/// Random records, third bytes 0 to 3.
pub fn random_records(key_size: usize, rng: &mut Rng) -> Vec<u8> {
    let mut records = rng.bytes(record_bytes(key_size).expect("one of the three key sizes"));
    for third in records.iter_mut().skip(2).step_by(RECORD) {
        *third &= 3;
    }
    records
}

/// A strip with good framing round these records; the length field keeps its low sixteen bits.
pub fn frame(version: u8, key_size: u8, records: &[u8]) -> Vec<u8> {
    let length = ((records.len() + HEADER - 2) as u16).to_be_bytes();
    [&length[..], &[version, key_size], records].concat()
}

pub fn make(key_size: usize, rng: &mut Rng) -> Vec<u8> {
    frame(FRESH, key_size as u8, &random_records(key_size, rng))
}

/// True unless refusal 7 applies.
pub fn is_framed(strip: &[u8]) -> bool {
    strip.len() >= HEADER && usize::from(u16::from_be_bytes([strip[0], strip[1]])) == strip.len() - 2
}

fn records(strip: &[u8]) -> &[u8] {
    strip.get(HEADER..).unwrap_or(&[])
}

/// The refusals of a strip for a block under round keys of this key size: 7, 11, 8, 9, 12, 10.
pub fn check(strip: &[u8], key_size: usize) -> u32 {
    let version = strip.get(2).copied();
    first(&[
        (!is_framed(strip), FRAMING),
        (version == Some(WIPED), SPENT),
        (version != Some(FRESH), VERSION),
        (strip.get(3).map(|&size| usize::from(size)) != Some(key_size), KEY_SIZE),
        (Some(records(strip).len()) != record_bytes(key_size), RECORD_COUNT),
        (records(strip).chunks_exact(RECORD).any(|record| record[2] > 3), STRIP_RECORD),
    ])
}

/// The refusals of a strip on its own, with 9 for a key size that is none of the three: any of them
/// differs from that one, and a good key size is held against itself.
pub fn check_own(strip: &[u8]) -> u32 {
    let named = strip.get(3).map(|&size| usize::from(size));
    check(strip, named.filter(|&size| record_bytes(size).is_some()).unwrap_or(16))
}

/// The record reader: a part of the strip, empty when 7, 8 or 11 applies or the record is not there.
pub fn record(strip: &[u8], index: usize) -> &[u8] {
    if !is_framed(strip) || strip[2] != FRESH || index >= records(strip).len() / RECORD {
        return &[];
    }
    &records(strip)[RECORD * index..RECORD * (index + 1)]
}

/// What a strip is once it has served: length and key size stay.
pub fn wipe(strip: &mut [u8]) {
    strip[2] = WIPED;
    strip[HEADER..].fill(0);
}
