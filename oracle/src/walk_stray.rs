//! Calls that the masters of a walk do not make: wrong lengths, states that no run of calls makes, bytes
//! that nobody sent, and masters in any possible state with any bytes in their rooms.

use crate::case::{wrong_length, Told};
use crate::message;
use crate::pool::{Master, Role, Sent, LAST_NUMBER, ROOM};
use crate::pool_call::{self, Call, CALLS};
use crate::refusal::PART_LENGTH;
use crate::rng::Rng;
use crate::walk::{any_strip, good_strip};

/// Their lines in a file, so that each master's own line stays short.
const ODD_LINE: usize = 3;
const STRAY_LINE: usize = 4;

/// A master of no walk, for a few calls at a time.
pub struct Odd(Master);

impl Odd {
    pub fn new(rng: &mut Rng) -> Odd {
        Odd(odd_master(rng))
    }

    pub fn call(&mut self, rng: &mut Rng) -> Told {
        if rng.one_in(4) {
            self.0 = odd_master(rng);
        }
        let call = if rng.one_in(2) { rng.pick(&CALLS) } else { rng.pick(usual(&self.0)) };
        let given = given(&self.0, call, rng);
        let told = pool_call::make(&mut self.0, call, &given, rng);
        self.0.check();
        Told { line: ODD_LINE, ..told }
    }
}

/// The calls that are for such a master.
fn usual(master: &Master) -> &'static [Call] {
    match (master.role, &master.outstanding) {
        (Role::Active, Some(_)) => &[Call::Outstanding, Call::Acknowledge],
        (Role::Standby, _) => &[Call::Apply],
        _ => &[Call::Add, Call::Take],
    }
}

/// A master with any first byte of state, the edges of its counters more often than the rest; what lies
/// in its rooms need not be a strip.
fn odd_master(rng: &mut Rng) -> Master {
    let kind = rng.below(5);
    let (role, empty) = match kind {
        1 | 2 => (Role::Active, false),
        3 => (Role::Standby, rng.one_in(4)),
        4 => (Role::Alone, rng.one_in(4)),
        _ => (Role::Active, rng.one_in(4)),
    };
    let count = if empty { 0 } else { rng.pick(&[1, 2, 3, 62, 63, 64]) };
    let most = if kind == 4 { LAST_NUMBER - count } else { (LAST_NUMBER - count - u64::from(kind == 2)) / 2 };
    let random = rng.word() % most;
    let taken = rng.pick(&[0, 1, 63, 64, random, random, most - 1, most, most]);
    let rooms: Vec<Vec<u8>> = (0..count).map(|_| odd_room(rng)).collect();
    let mut master = Master::holding(role, taken, &rooms);
    if rng.one_in(2) {
        master.free = rng.bytes(master.free.len());
    }
    match kind {
        1 => outstanding_addition(&mut master),
        2 => assert_eq!(master.take(), Ok(None), "the taking is sent"),
        _ => {}
    }
    master
}

/// The last strip was added just now: what its room holds goes into the message.
fn outstanding_addition(master: &mut Master) {
    let strip = master.held.back().map_or(Vec::new(), |held| held.strip().to_vec());
    let message = message::addition(master.sequence, master.added, &strip);
    master.outstanding = Some(Sent { sequence: master.sequence, message, taken: None });
}

/// A strip, any bytes, or bytes with a small length field.
fn odd_room(rng: &mut Rng) -> Vec<u8> {
    let mut room = rng.bytes(ROOM);
    match rng.below(4) {
        0 | 1 => return good_strip(rng),
        2 => room[..2].copy_from_slice(&[rng.pick(&[0, 1, 2]), rng.byte()]),
        _ => {}
    }
    room
}

/// A call with wrong lengths, or with a state that no run of calls makes, or both: number 6, whatever
/// else is wrong.
pub fn refused(master: &Master, line: usize, rng: &mut Rng) -> Told {
    let call = rng.pick(&CALLS);
    let given = given(master, call, rng);
    let mut buffers = pool_call::lend(master, call, &given, rng);
    let rooms = buffers.get(1).map(Vec::len);
    let way = rng.below(5);
    if way < 3 {
        buffers[0] = impossible_state(rng);
    }
    if way >= 2 {
        wrong_lengths(&mut buffers, call, rng);
    }
    let line = if buffers.get(1).map(Vec::len) == rooms { line } else { STRAY_LINE };
    Told { call: call as u8, line, direction: 0, number: PART_LENGTH, before: buffers.clone(), after: buffers }
}

/// At least one wrong length among the buffers that have a right one.
fn wrong_lengths(buffers: &mut [Vec<u8>], call: Call, rng: &mut Rng) {
    let sized: Vec<usize> = (0..buffers.len()).filter(|&index| index != 2 || !pool_call::reads(call)).collect();
    let chosen = rng.pick(&sized);
    for index in sized {
        if index == chosen || rng.one_in(4) {
            let length = wrong_length(buffers[index].len(), rng);
            buffers[index].resize(length, 0);
        }
    }
}

/// Nine bytes of which one thing at least is impossible; numbers too that come out right in 32 bits.
fn impossible_state(rng: &mut Rng) -> Vec<u8> {
    let (role, random) = (rng.below(5), rng.word() >> 32);
    let small = rng.pick(&[0, 1, 2, 63, 64, 65, 1000]);
    let (role, added, taken) = match rng.below(6) {
        0 => (rng.pick(&[5, 6, 128, 255]), small, small - small.min(1)),
        1 => {
            let taken = 1 + rng.pick(&[small, random % LAST_NUMBER, LAST_NUMBER - 1]);
            (role, rng.pick(&[0, taken - 1, random % taken]), taken)
        }
        2 => {
            let least = if role == 2 { 64 } else { 65 };
            let taken = rng.pick(&[small, random % 0x7fff_0000]);
            (role, taken + least + rng.pick(&[0, 0, 1, random % 0x7fff_0000]), taken)
        }
        3 => (1, small, small),
        4 => (2, small.min(63), 0),
        _ => {
            let (held, over) = (small.min(63), LAST_NUMBER + 1);
            let least = (over - held + 1) / 2;
            let taken = least + rng.pick(&[0, 0, 1, random % (LAST_NUMBER - held - least), LAST_NUMBER - held - least]);
            (rng.below(4), taken + held, taken)
        }
    };
    [&[role as u8][..], &message::four(added), &message::four(taken)].concat()
}

/// Bytes that nobody sent, or that were changed on the way. They may be good ones by chance, so the call
/// is made at a copy of the master, who goes on as if it had not been.
pub fn forged(master: &Master, line: usize, sent: &[Vec<u8>], rng: &mut Rng) -> Told {
    let call = rng.pick(&[Call::Apply, Call::Acknowledge]);
    let mut bytes = given(master, call, rng);
    if !sent.is_empty() && rng.one_in(2) {
        bytes = sent[rng.below(sent.len())].clone();
        damage(&mut bytes, rng);
    }
    let mut copy = master.clone();
    let told = pool_call::make(&mut copy, call, &bytes, rng);
    copy.check();
    Told { line: if copy == *master { line } else { STRAY_LINE }, ..told }
}

/// What a call may be given to read, made for this master: often just what it waits for, at times what
/// is for the other one.
fn given(master: &Master, call: Call, rng: &mut Rng) -> Vec<u8> {
    let mut bytes = match (call, rng.below(8)) {
        (Call::Take | Call::Outstanding | Call::GoAlone, _) => return Vec::new(),
        (Call::Add, _) => return any_strip(rng),
        (Call::Acknowledge, 1..) => message::acknowledgement(near(master.sequence, rng)),
        (Call::Apply, 0) => message::acknowledgement(near(master.sequence + 1, rng)),
        (_, 0..=3) => message::taking(near(master.sequence + 1, rng), near(master.taken + 1, rng)),
        _ => {
            let strip = if rng.one_in(5) { odd_length(rng) } else { any_strip(rng) };
            message::addition(near(master.sequence + 1, rng), near(master.added + 1, rng), &strip)
        }
    };
    if rng.one_in(4) {
        damage(&mut bytes, rng);
    }
    bytes
}

/// Bytes where a strip should be, as many as a message can carry or none at all.
fn odd_length(rng: &mut Rng) -> Vec<u8> {
    let length = rng.pick(&[0, 0, 1, 2, 3, 4, 677, 688, 65525]);
    rng.bytes(length)
}

/// This number in half of all cases, else one close to it, or any. Past the last number it is the last,
/// or what is left of it in 32 bits.
fn near(number: u64, rng: &mut Rng) -> u64 {
    let random = rng.word() >> 32;
    let below = number.saturating_sub(1);
    let other = rng.pick(&[below, below, number + 1, number + 1, number + 2, 0, 1, LAST_NUMBER, random]);
    let chosen = if rng.one_in(2) { number } else { other };
    if rng.one_in(2) { chosen.min(LAST_NUMBER) } else { chosen % (LAST_NUMBER + 1) }
}

/// Breaks the form of a message: its size, length field, version or kind.
fn damage(bytes: &mut Vec<u8>, rng: &mut Rng) {
    let (size, random) = (bytes.len(), rng.word() as u16);
    match rng.below(8) {
        0 => bytes.truncate(rng.below(size)),
        1 => bytes.resize(size + rng.pick(&[1, 2, 4, 12, 188, 672]), 0),
        2 => bytes[2] = rng.pick(&[0, 2, 3, 129, 255]),
        3 => bytes[3] = rng.pick(&[0, 1, 2, 3, 4, 255]),
        4 => set_length(bytes, rng.pick(&[0, size as u16, size as u16 - 1, size as u16 - 3, random])),
        5 => *bytes = rng.bytes(usize::from(random) % 700),
        6 => bytes.resize(size + 0x1_0000, 0),
        _ => {
            // A whole message again, but of a size that its kind has not.
            let size = 4 + rng.pick(&[0, 1, 3, 4, 5, 7, 8, 9, 484, 492]);
            bytes.resize(size, 0);
            set_length(bytes, size as u16 - 2);
        }
    }
}

fn set_length(bytes: &mut [u8], length: u16) {
    bytes[..2].copy_from_slice(&length.to_be_bytes());
}
