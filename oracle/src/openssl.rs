//! Blocks compared with the `openssl` command, where it is installed: one call for many blocks.

use crate::aes;
use crate::calls;
use crate::rng::Rng;
use crate::show;
use crate::strip;
use crate::tally::Tally;
use std::io::Write;
use std::process::{Command, Stdio};

/// Few enough that the command's answer fits into a pipe while its input is still being written.
const BLOCKS: usize = 1000;
const KEYS: usize = 4;

pub fn compare(tally: &mut Tally, rng: &mut Rng) {
    if Command::new("openssl").arg("version").stdout(Stdio::null()).status().is_err() {
        println!("openssl is not installed: blocks not compared with it");
        return;
    }
    for size in [16, 24, 32] {
        for direction in [0, 1].repeat(KEYS) {
            compare_key(&rng.bytes(size), direction, tally, rng);
        }
    }
}

fn compare_key(key: &[u8], direction: u32, tally: &mut Tally, rng: &mut Rng) {
    let input = rng.bytes(16 * BLOCKS);
    let answer = run(key, direction, &input).unwrap_or_default();
    let round_keys = aes::expand(key);
    for (index, block) in input.chunks(16).enumerate() {
        let ours = masked(direction, block, &round_keys, rng);
        let theirs = answer.get(16 * index..16 * index + 16);
        tally.check(theirs == Some(&ours[..]), format!("openssl, key {}, block {index}", show::text(key)));
    }
}

/// The block through the masked call under a random mask and strip, and the mask taken off again.
pub fn masked(direction: u32, block: &[u8], round_keys: &[u8], rng: &mut Rng) -> Vec<u8> {
    let mut mask = rng.bytes(16);
    let mut data = aes::add(block, &mask);
    let mut strip = strip::make(calls::key_size(round_keys).expect("a good length"), rng);
    match calls::block(direction, &mut data, &mut mask, round_keys, &mut strip) {
        0 => aes::add(&data, &mask).to_vec(),
        _ => Vec::new(),
    }
}

fn run(key: &[u8], direction: u32, input: &[u8]) -> Option<Vec<u8>> {
    let name = format!("-aes-{}-ecb", 8 * key.len());
    let way = if direction == 0 { "-e" } else { "-d" };
    let mut child = Command::new("openssl")
        .args(["enc", &name, way, "-nopad", "-K", &show::text(key)])
        .stdin(Stdio::piped())
        .stdout(Stdio::piped())
        .spawn()
        .ok()?;
    child.stdin.take()?.write_all(input).ok()?;
    child.wait_with_output().ok().map(|output| output.stdout)
}
