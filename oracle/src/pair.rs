//! Two masters with their hosts, and what has left them. Each host keeps the rule: nothing leaves a
//! cabinet before the state and the rooms that it comes from are stored. So a master is there twice, in
//! memory and as it was stored last, and a restart puts the stored one back.

use crate::case::Told;
use crate::message;
use crate::pool::{Master, Role};
use crate::pool_call::{Call, RESTART, STORE};
use crate::refusal::DONE;
use std::collections::BTreeSet;

/// What a call has made to leave.
#[derive(Clone)]
enum Leaving {
    Message(Vec<u8>),
    Acknowledgement(Vec<u8>),
    Strip(u64),
}

pub struct Side {
    pub memory: Master,
    stored: Master,
    /// It leaves when memory is stored, and a restart forgets it.
    waiting: Vec<Leaving>,
}

impl Side {
    fn new(master: Master) -> Side {
        Side { stored: master.clone(), memory: master, waiting: Vec::new() }
    }

    pub fn waits(&self) -> bool {
        !self.waiting.is_empty()
    }

    /// The strips that it has handed out and that are still inside.
    fn strips(&self) -> impl Iterator<Item = u64> + '_ {
        self.waiting.iter().filter_map(|leaving| match leaving {
            Leaving::Strip(number) => Some(*number),
            _ => None,
        })
    }
}

pub struct Pair {
    pub active: Side,
    pub standby: Side,
    pub cut: bool,
    /// All that has ever left; no message is ever gone for good.
    pub messages: Vec<Vec<u8>>,
    pub acknowledgements: Vec<Vec<u8>>,
    handed_out: BTreeSet<u64>,
}

impl Pair {
    pub fn new(active: Master, standby: Master, cut: bool) -> Pair {
        Pair {
            active: Side::new(active),
            standby: Side::new(standby),
            cut,
            messages: Vec::new(),
            acknowledgements: Vec::new(),
            handed_out: BTreeSet::new(),
        }
    }

    pub fn side(&mut self, at_active: bool) -> &mut Side {
        if at_active { &mut self.active } else { &mut self.standby }
    }

    /// What a call that is done has written is to be sent, or to be handed out.
    pub fn note(&mut self, at_active: bool, call: Call, after: &[Vec<u8>]) {
        let leaving = match call {
            Call::Take => strip(&after[2]),
            Call::Acknowledge => strip(&after[3]),
            Call::Apply => Some(Leaving::Acknowledgement(after[3].clone())),
            Call::Outstanding => outstanding(&after[2]),
            Call::Add | Call::GoAlone => None,
        };
        self.side(at_active).waiting.extend(leaving);
    }

    /// The host stores the state and the rooms, and lets go what waited for that: no number twice.
    pub fn store(&mut self, at_active: bool) -> Told {
        let side = self.side(at_active);
        let buffers = vec![side.memory.state(), side.memory.rooms()];
        side.stored = side.memory.clone();
        for leaving in std::mem::take(&mut side.waiting) {
            match leaving {
                Leaving::Message(bytes) => self.messages.push(bytes),
                Leaving::Acknowledgement(bytes) => self.acknowledgements.push(bytes),
                Leaving::Strip(number) => {
                    assert!(self.handed_out.insert(number), "strip {number} is handed out twice")
                }
            }
        }
        Told { call: STORE, line: 0, direction: 0, number: DONE, before: buffers.clone(), after: buffers }
    }

    /// The master's power fails, and it starts again from what was stored last.
    pub fn restart(&mut self, at_active: bool) -> Told {
        self.cut &= !at_active;
        let side = self.side(at_active);
        let before = vec![side.memory.state(), side.memory.rooms()];
        let after = vec![side.stored.state(), side.stored.rooms()];
        side.memory = side.stored.clone();
        side.waiting.clear();
        Told { call: RESTART, line: 0, direction: 0, number: DONE, before, after }
    }

    /// What chapter 7 of the rules promises holds at any moment, and since power may fail at any moment, of each master in
    /// memory and as it would start again.
    pub fn check(&self) {
        for (active, first) in [(&self.active.memory, true), (&self.active.stored, false)] {
            for (standby, second) in [(&self.standby.memory, true), (&self.standby.stored, false)] {
                let mut handed_out = self.handed_out.clone();
                let inside = self.active.strips().filter(|_| first).chain(self.standby.strips().filter(|_| second));
                for number in inside {
                    assert!(handed_out.insert(number), "strip {number} would be handed out twice");
                }
                check(active, standby, &handed_out);
            }
        }
    }
}

/// The standby offers no number that was handed out, for the cut may come at any moment; and it is one
/// message behind at most, and not at all where nothing is outstanding.
fn check(active: &Master, standby: &Master, handed_out: &BTreeSet<u64>) {
    active.check();
    standby.check();
    let offered = standby.held.iter().map(|held| held.number).find(|number| handed_out.contains(number));
    assert_eq!(offered, None, "the standby holds a strip that was handed out");
    if standby.role == Role::Alone {
        return;
    }
    let waits = active.outstanding.is_some();
    if waits && active.sequence == standby.sequence + 1 {
        return;
    }
    let counters = |master: &Master| (master.added, master.taken, master.sequence);
    assert_eq!(counters(active), counters(standby), "the counters differ");
    assert_eq!(active.held, standby.held, "the masters hold different strips");
    assert!(waits || active.rooms() == standby.rooms(), "nothing is outstanding, and the rooms differ");
}

/// Number 0 says that no strip is handed out.
fn strip(bytes: &[u8]) -> Option<Leaving> {
    Some(message::number(bytes)).filter(|&number| number != 0).map(Leaving::Strip)
}

/// The message without the zeros behind it, where there is one.
fn outstanding(bytes: &[u8]) -> Option<Leaving> {
    let length = usize::from(u16::from_be_bytes([bytes[0], bytes[1]]));
    Some(length).filter(|&length| length > 0).map(|length| Leaving::Message(bytes[..length + 2].to_vec()))
}
