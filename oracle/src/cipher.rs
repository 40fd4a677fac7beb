//! The masked block cipher, both ways. Linear steps act on data and mask apart; round keys are added
//! to data only; every substitution takes the record of its place in the order of work.

use crate::aes::{self, State};
use crate::points::{Points, Record};
use crate::sbox::{masked_sbox, Direction};
use crate::strip;

/// A block under way: its two parts, and the points of every S-box so far, in the order of work.
pub struct Work {
    pub data: State,
    pub mask: State,
    pub points: Vec<Points>,
}

impl Work {
    pub fn new(data: State, mask: State) -> Work {
        Work { data, mask, points: Vec::new() }
    }

    fn each_part(&mut self, step: fn(&State) -> State) {
        self.data = step(&self.data);
        self.mask = step(&self.mask);
    }

    fn add_round_key(&mut self, round_keys: &[u8], round: usize) {
        self.data = aes::add_round_key(&self.data, round_keys, round);
    }

    /// Sixteen S-boxes by position; the number of S-boxes done so far says which records are next.
    fn substitute(&mut self, direction: Direction, strip: &[u8]) {
        let used = self.points.len();
        for i in 0..16 {
            let record = Record::read(strip::record(strip, used + i));
            let substituted = masked_sbox(direction, self.data[i], self.mask[i], &record);
            self.data[i] = substituted.data;
            self.mask[i] = substituted.mask;
            self.points.push(substituted.points);
        }
    }
}

/// Works through all rounds; round keys and strip have passed their checks.
pub fn run(direction: Direction, work: &mut Work, round_keys: &[u8], strip: &[u8]) {
    match direction {
        Direction::Encrypt => encrypt(work, round_keys, strip),
        Direction::Decrypt => decrypt(work, round_keys, strip),
    }
}

fn encrypt(work: &mut Work, round_keys: &[u8], strip: &[u8]) {
    let last = aes::rounds(round_keys);
    work.add_round_key(round_keys, 0);
    for round in 1..=last {
        work.substitute(Direction::Encrypt, strip);
        work.each_part(aes::shift_rows);
        if round < last {
            work.each_part(aes::mix_columns);
        }
        work.add_round_key(round_keys, round);
    }
}

fn decrypt(work: &mut Work, round_keys: &[u8], strip: &[u8]) {
    let last = aes::rounds(round_keys);
    work.add_round_key(round_keys, last);
    for round in (0..last).rev() {
        work.each_part(aes::inverse_shift_rows);
        work.substitute(Direction::Decrypt, strip);
        work.add_round_key(round_keys, round);
        if round > 0 {
            work.each_part(aes::inverse_mix_columns);
        }
    }
}
