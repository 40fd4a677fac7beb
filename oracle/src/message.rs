//! Messages between the masters as bytes. They are framed as strips are: two bytes of length, counting
//! all that follows, then a version byte, and where a strip has its key size, the kind.

use crate::strip;

pub const LONGEST: usize = 688;
pub const ANSWER: usize = 8;

const VERSION: u8 = 1;
const ADDITION: u8 = 1;
const TAKING: u8 = 2;
const ACKNOWLEDGEMENT: u8 = 3;

pub enum Message<'a> {
    Addition { sequence: u64, number: u64, strip: &'a [u8] },
    Taking { sequence: u64, number: u64 },
    Acknowledgement { sequence: u64 },
}

/// Numbers are four bytes; none that is written here is larger.
pub fn four(number: u64) -> [u8; 4] {
    u32::try_from(number).expect("numbers stop at the largest 32-bit value").to_be_bytes()
}

/// The number in four bytes.
pub fn number(bytes: &[u8]) -> u64 {
    bytes[..4].iter().fold(0, |sum, &byte| sum << 8 | u64::from(byte))
}

pub fn addition(sequence: u64, number: u64, strip: &[u8]) -> Vec<u8> {
    strip::frame(VERSION, ADDITION, &[&four(sequence)[..], &four(number), strip].concat())
}

pub fn taking(sequence: u64, number: u64) -> Vec<u8> {
    strip::frame(VERSION, TAKING, &[four(sequence), four(number)].concat())
}

pub fn acknowledgement(sequence: u64) -> Vec<u8> {
    strip::frame(VERSION, ACKNOWLEDGEMENT, &four(sequence))
}

/// None for bytes that are no message: framing, version, kind or size is wrong.
pub fn read(bytes: &[u8]) -> Option<Message<'_>> {
    if !strip::is_framed(bytes) || bytes[2] != VERSION {
        return None;
    }
    let at = |start: usize| number(&bytes[start..]);
    match (bytes[3], bytes.len()) {
        (ADDITION, 12..) => Some(Message::Addition { sequence: at(4), number: at(8), strip: &bytes[12..] }),
        (TAKING, 12) => Some(Message::Taking { sequence: at(4), number: at(8) }),
        (ACKNOWLEDGEMENT, 8) => Some(Message::Acknowledgement { sequence: at(4) }),
        _ => None,
    }
}
