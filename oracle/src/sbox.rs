//! The masked S-box and its inverse: data and mask travel apart and meet only in the points.

use crate::aes::{affine_linear, inverse_affine_linear};
use crate::points::{masked_inverse, masked_inversion, Order, Points, Record};
use crate::tower::{from_tower, to_tower};

#[derive(Clone, Copy, PartialEq, Debug)]
pub enum Direction {
    Encrypt,
    Decrypt,
}

impl Direction {
    pub fn from_number(number: u32) -> Option<Direction> {
        match number {
            0 => Some(Direction::Encrypt),
            1 => Some(Direction::Decrypt),
            _ => None,
        }
    }
}

/// What one substitution gives: the masked byte, its mask, and the points it went through.
pub struct Substituted {
    pub data: u8,
    pub mask: u8,
    pub points: Points,
}

pub fn masked_sbox(direction: Direction, data: u8, mask: u8, record: &Record) -> Substituted {
    match direction {
        Direction::Encrypt => {
            let inverted = invert(data, mask, record);
            Substituted {
                data: affine_linear(inverted.data) ^ 0x63,
                mask: affine_linear(inverted.mask),
                points: inverted.points,
            }
        }
        Direction::Decrypt => invert(inverse_affine_linear(data) ^ 0x05, inverse_affine_linear(mask), record),
    }
}

/// Inversion of an AES byte: to the tower, through the points, and back.
fn invert(data: u8, mask: u8, record: &Record) -> Substituted {
    let points = masked_inversion(Order::MaskFirst, to_tower(data), to_tower(mask), record);
    Substituted { data: from_tower(masked_inverse(&points)), mask: from_tower(record.s), points }
}
