//! The pool's calls as a host makes them: buffers lent at their right lengths, and what is in them
//! afterwards.

use crate::case::Told;
use crate::message;
use crate::pool::{Held, Master, ROOM};
use crate::refusal::DONE;
use crate::rng::Rng;

#[derive(Clone, Copy, PartialEq, Eq, PartialOrd, Ord, Debug)]
pub enum Call {
    Add = 5,
    Take = 6,
    Outstanding = 7,
    Acknowledge = 8,
    Apply = 9,
    GoAlone = 10,
}

/// What the host does by itself, told like a call: it copies the state and the rooms, or puts the last copy back.
pub const STORE: u8 = 11;
pub const RESTART: u8 = 12;

pub const CALLS: [Call; 6] = [Call::Add, Call::Take, Call::Outstanding, Call::Acknowledge, Call::Apply, Call::GoAlone];

/// All buffers of a call, in the order of the C parameters; `given` is the strip, message or
/// acknowledgement that the call reads. What it writes is lent with any bytes.
pub fn lend(master: &Master, call: Call, given: &[u8], rng: &mut Rng) -> Vec<Vec<u8>> {
    let mut buffers = vec![master.state()];
    if call != Call::GoAlone {
        buffers.push(master.rooms());
    }
    if reads(call) {
        buffers.push(given.to_vec());
    }
    let written: &[usize] = match call {
        Call::Take | Call::Acknowledge => &[4, ROOM],
        Call::Outstanding => &[message::LONGEST],
        Call::Apply => &[message::ANSWER],
        Call::Add | Call::GoAlone => &[],
    };
    buffers.extend(written.iter().map(|&length| rng.bytes(length)));
    buffers
}

/// Whether the third buffer is one that the call reads, of any length.
pub fn reads(call: Call) -> bool {
    matches!(call, Call::Add | Call::Acknowledge | Call::Apply)
}

/// Makes the call at this master.
pub fn make(master: &mut Master, call: Call, given: &[u8], rng: &mut Rng) -> Told {
    let before = lend(master, call, given, rng);
    let mut after = before.clone();
    let number = run(master, call, &mut after);
    after[0] = master.state();
    if call != Call::GoAlone {
        after[1] = master.rooms();
    }
    Told { call: call as u8, line: 0, direction: 0, number, before, after }
}

fn run(master: &mut Master, call: Call, buffers: &mut [Vec<u8>]) -> u32 {
    match (call, buffers) {
        (Call::Add, [_, _, strip]) => master.add(strip),
        (Call::Take, [_, _, number, strip]) => hand_out(master.take(), number, strip),
        (Call::Outstanding, [_, _, message]) => {
            *message = master.message();
            DONE
        }
        (Call::Acknowledge, [_, _, answer, number, strip]) => hand_out(master.acknowledge(answer), number, strip),
        (Call::Apply, [_, _, message, answer]) => match master.apply(message) {
            Ok(bytes) => {
                *answer = bytes;
                DONE
            }
            Err(number) => number,
        },
        (Call::GoAlone, [_]) => master.go_alone(),
        _ => unreachable!("a call has its buffers"),
    }
}

/// Number 0 says that no strip is handed out; then the strip's buffer stays.
fn hand_out(handed: Result<Option<Held>, u32>, number: &mut Vec<u8>, strip: &mut Vec<u8>) -> u32 {
    match handed {
        Ok(Some(held)) => {
            *number = message::four(held.number).to_vec();
            *strip = held.room;
            DONE
        }
        Ok(None) => {
            number.fill(0);
            DONE
        }
        Err(refused) => refused,
    }
}
