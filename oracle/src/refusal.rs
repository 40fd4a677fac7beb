//! The refusal numbers, and the rule that the first one that applies is given.

pub const DONE: u32 = 0;
pub const RECORD_BYTE: u32 = 2;
pub const POINTS_LENGTH: u32 = 3;
pub const KEY_LENGTH: u32 = 4;
pub const ROUND_KEYS_LENGTH: u32 = 5;
pub const PART_LENGTH: u32 = 6;
pub const FRAMING: u32 = 7;
pub const VERSION: u32 = 8;
pub const KEY_SIZE: u32 = 9;
pub const STRIP_RECORD: u32 = 10;
pub const SPENT: u32 = 11;
pub const RECORD_COUNT: u32 = 12;
pub const DIRECTION: u32 = 13;
pub const FULL: u32 = 14;
pub const EMPTY: u32 = 15;
pub const MESSAGE: u32 = 16;
pub const WAITING: u32 = 23;
pub const USED_UP: u32 = 24;

/// Each line says when a number applies; the order of the lines is the order of refusal.
pub fn first(lines: &[(bool, u32)]) -> u32 {
    lines.iter().find(|line| line.0).map_or(DONE, |line| line.1)
}
