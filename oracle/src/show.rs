//! Hex in and out, and the command that shows the points of a whole block.

use crate::calls;

pub fn hex(text: &str) -> Option<Vec<u8>> {
    let digits: Option<Vec<u32>> = text.chars().map(|c| c.to_digit(16)).collect();
    let digits = digits.filter(|digits| digits.len() % 2 == 0)?;
    Some(digits.chunks(2).map(|two| (two[0] * 16 + two[1]) as u8).collect())
}

/// One byte, from one or two digits.
pub fn byte(text: &str) -> Option<u8> {
    u8::from_str_radix(text, 16).ok()
}

pub fn text(bytes: &[u8]) -> String {
    bytes.iter().map(|byte| format!("{byte:02x}")).collect()
}

/// Prints the number, the lent buffers after the call, and a line of points for each S-box.
pub fn block_points(direction: u32, buffers: &[&str; 4]) -> Option<bool> {
    let [mut block, mut mask, round_keys, mut strip] = buffers.map(hex);
    let (block, mask, strip) = (block.as_mut()?, mask.as_mut()?, strip.as_mut()?);
    let mut points = Vec::new();
    let number = calls::block_with_points(direction, block, mask, &round_keys?, strip, &mut points);
    println!("number {number}\nblock {}\nmask {}\nstrip {}", text(block), text(mask), text(strip));
    for (index, of_one) in points.iter().enumerate() {
        println!("record {index} points {}", text(of_one));
    }
    Some(true)
}
