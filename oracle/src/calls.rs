//! The calls as a host sees them: refusals in their order, and lent bytes that change only when done.

use crate::aes;
use crate::cipher::{self, Work};
use crate::points::{self, Points, Record};
use crate::refusal::*;
use crate::sbox::{masked_sbox, Direction};
use crate::strip;

/// The S-box call; without a points buffer, refusal 3 falls away.
pub fn sbox(direction: u32, data: &mut [u8], mask: &mut [u8], record: &[u8], points: Option<&mut [u8]>) -> u32 {
    let way = Direction::from_number(direction);
    let number = first(&[
        (way.is_none(), DIRECTION),
        (data.len() != 1 || mask.len() != 1 || record.len() != strip::RECORD, PART_LENGTH),
        (points.as_ref().map_or(false, |buffer| buffer.len() != points::COUNT), POINTS_LENGTH),
        (record.get(2).map_or(false, |&third| third > 3), RECORD_BYTE),
    ]);
    if let (DONE, Some(way)) = (number, way) {
        let substituted = masked_sbox(way, data[0], mask[0], &Record::read(record));
        data[0] = substituted.data;
        mask[0] = substituted.mask;
        if let Some(buffer) = points {
            buffer.copy_from_slice(&substituted.points);
        }
    }
    number
}

pub fn expand(key: &[u8], round_keys: &mut [u8]) -> u32 {
    let length = aes::expanded_length(key.len());
    let number = first(&[
        (length.is_none(), KEY_LENGTH),
        (length != Some(round_keys.len()), ROUND_KEYS_LENGTH),
    ]);
    if number == DONE {
        round_keys.copy_from_slice(&aes::expand(key));
    }
    number
}

/// The key size that a round-key buffer's length stands for.
pub fn key_size(round_keys: &[u8]) -> Option<usize> {
    [16, 24, 32].into_iter().find(|&size| aes::expanded_length(size) == Some(round_keys.len()))
}

pub fn block(direction: u32, block: &mut [u8], mask: &mut [u8], round_keys: &[u8], strip: &mut [u8]) -> u32 {
    block_with_points(direction, block, mask, round_keys, strip, &mut Vec::new())
}

/// The block call, which also hands over the points of every S-box in the order of work.
pub fn block_with_points(
    direction: u32,
    block: &mut [u8],
    mask: &mut [u8],
    round_keys: &[u8],
    strip: &mut [u8],
    points: &mut Vec<Points>,
) -> u32 {
    let (way, size) = (Direction::from_number(direction), key_size(round_keys));
    let number = first(&[
        (way.is_none(), DIRECTION),
        (block.len() != 16 || mask.len() != 16, PART_LENGTH),
        (size.is_none(), ROUND_KEYS_LENGTH),
        (true, size.map_or(DONE, |size| strip::check(strip, size))),
    ]);
    if let (DONE, Some(way)) = (number, way) {
        let mut work = Work::new(aes::state(block), aes::state(mask));
        cipher::run(way, &mut work, round_keys, strip);
        block.copy_from_slice(&work.data);
        mask.copy_from_slice(&work.mask);
        strip::wipe(strip);
        *points = work.points;
    }
    number
}
