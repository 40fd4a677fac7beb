//! One master's pool by chapter 7 of the rules: a list of numbered strips, and counters of its own for each thing
//! that is counted. The state and the rooms that a host lends are made from these and never read back.

use crate::message::{self, Message};
use crate::refusal::*;
use crate::strip;
use std::collections::VecDeque;

pub const ROOM: usize = 676;
pub const ROOM_COUNT: usize = 64;
pub const LAST_NUMBER: u64 = u32::MAX as u64;

/// A strip under its number, as it lies in its room: with zeros behind it.
#[derive(Clone, PartialEq, Debug)]
pub struct Held {
    pub number: u64,
    pub room: Vec<u8>,
}

impl Held {
    pub fn new(number: u64, strip: &[u8]) -> Held {
        let mut room = strip.to_vec();
        room.resize(ROOM, 0);
        Held { number, room }
    }

    /// The strip is as long as its length field says, at most the whole room.
    pub fn strip(&self) -> &[u8] {
        let length = 2 + usize::from(u16::from_be_bytes([self.room[0], self.room[1]]));
        &self.room[..length.min(ROOM)]
    }
}

#[derive(Clone, Copy, PartialEq, Debug)]
pub enum Role {
    Active,
    Standby,
    Alone,
}

/// What the active sent and has no acknowledgement of; a taking has its strip with it.
#[derive(Clone, PartialEq, Debug)]
pub struct Sent {
    pub sequence: u64,
    pub message: Vec<u8>,
    pub taken: Option<Held>,
}

#[derive(Clone, PartialEq, Debug)]
pub struct Master {
    pub role: Role,
    /// Lowest number first.
    pub held: VecDeque<Held>,
    pub added: u64,
    pub taken: u64,
    /// Of the last message sent, at the active, or applied, at the standby.
    pub sequence: u64,
    pub outstanding: Option<Sent>,
    /// What lies in rooms without a strip: zeros, unless a host lends other bytes.
    pub free: Vec<u8>,
}

impl Master {
    /// A master who has taken so many strips and holds these, all of it acknowledged.
    pub fn holding(role: Role, taken: u64, strips: &[Vec<u8>]) -> Master {
        let held: VecDeque<Held> = (taken + 1..).zip(strips).map(|(number, strip)| Held::new(number, strip)).collect();
        let added = taken + held.len() as u64;
        let free = vec![0; ROOM_COUNT * ROOM];
        Master { role, held, added, taken, sequence: added + taken, outstanding: None, free }
    }

    /// The nine bytes of state.
    pub fn state(&self) -> Vec<u8> {
        let role = match (self.role, &self.outstanding) {
            (Role::Active, None) => 0,
            (Role::Active, Some(Sent { taken: None, .. })) => 1,
            (Role::Active, Some(_)) => 2,
            (Role::Standby, _) => 3,
            (Role::Alone, _) => 4,
        };
        [&[role][..], &message::four(self.added), &message::four(self.taken)].concat()
    }

    /// All rooms: a strip that is taken lies in its room until it is handed out.
    pub fn rooms(&self) -> Vec<u8> {
        let leaving = self.outstanding.iter().filter_map(|sent| sent.taken.as_ref());
        let mut rooms = self.free.clone();
        for held in self.held.iter().chain(leaving) {
            room_of(&mut rooms, held.number).copy_from_slice(&held.room);
        }
        rooms
    }

    fn sequences_used_up(&self) -> bool {
        self.role == Role::Active && self.sequence == LAST_NUMBER
    }

    fn send(&mut self, message: Vec<u8>, taken: Option<Held>) {
        self.sequence += 1;
        self.outstanding = Some(Sent { sequence: self.sequence, message, taken });
    }

    fn hold(&mut self, strip: &[u8]) {
        self.added += 1;
        self.held.push_back(Held::new(self.added, strip));
    }

    /// The strip leaves its room, and the room is zeroed.
    fn leave(&mut self, held: Held) -> Held {
        room_of(&mut self.free, held.number).fill(0);
        held
    }

    pub fn add(&mut self, strip: &[u8]) -> u32 {
        let own = strip::check_own(strip);
        let number = first(&[
            (self.role == Role::Standby, PART_LENGTH),
            (self.outstanding.is_some(), WAITING),
            (self.sequences_used_up(), USED_UP),
            (own != DONE, own),
            (self.held.len() == ROOM_COUNT || self.added == LAST_NUMBER, FULL),
        ]);
        if number == DONE {
            self.hold(strip);
            if self.role == Role::Active {
                self.send(message::addition(self.sequence + 1, self.added, strip), None);
            }
        }
        number
    }

    /// The strip is handed out at once where the master is alone.
    pub fn take(&mut self) -> Result<Option<Held>, u32> {
        let number = first(&[
            (self.role == Role::Standby, PART_LENGTH),
            (self.outstanding.is_some(), WAITING),
            (self.sequences_used_up(), USED_UP),
        ]);
        if number != DONE {
            return Err(number);
        }
        let held = self.held.pop_front().ok_or(EMPTY)?;
        self.taken += 1;
        if self.role == Role::Alone {
            return Ok(Some(self.leave(held)));
        }
        self.send(message::taking(self.sequence + 1, held.number), Some(held));
        Ok(None)
    }

    /// The outstanding message with zeros behind it, or nothing but zeros.
    pub fn message(&self) -> Vec<u8> {
        let mut bytes = self.outstanding.as_ref().map_or(Vec::new(), |sent| sent.message.clone());
        bytes.resize(message::LONGEST, 0);
        bytes
    }

    /// The strip is handed out where its taking is acknowledged.
    pub fn acknowledge(&mut self, bytes: &[u8]) -> Result<Option<Held>, u32> {
        let sequence = match message::read(bytes) {
            Some(Message::Acknowledgement { sequence }) => sequence,
            _ => return Err(MESSAGE),
        };
        let counts = self.outstanding.as_ref().map_or(false, |sent| sent.sequence == sequence);
        let settled = if counts { self.outstanding.take() } else { None };
        Ok(settled.and_then(|sent| sent.taken).map(|held| self.leave(held)))
    }

    /// The acknowledgement, where there is one.
    pub fn apply(&mut self, bytes: &[u8]) -> Result<Vec<u8>, u32> {
        let message = message::read(bytes).filter(|_| self.role == Role::Standby).ok_or(MESSAGE)?;
        let sequence = match message {
            Message::Addition { sequence, .. } | Message::Taking { sequence, .. } => sequence,
            Message::Acknowledgement { .. } => return Err(MESSAGE),
        };
        if sequence > self.sequence {
            if sequence > self.sequence + 1 || !self.follow(&message) {
                return Err(MESSAGE);
            }
            self.sequence = sequence;
        }
        Ok(message::acknowledgement(sequence))
    }

    /// Does what the next message asks for, where it fits.
    fn follow(&mut self, message: &Message) -> bool {
        match *message {
            Message::Addition { number, strip, .. } => {
                let fits = strip::check_own(strip) == DONE
                    && self.held.len() < ROOM_COUNT
                    && number == self.added + 1;
                if fits {
                    self.hold(strip);
                }
                fits
            }
            Message::Taking { number, .. } => {
                let lowest = self.held.front().cloned().filter(|held| held.number == number);
                let fits = lowest.is_some();
                if let Some(held) = lowest {
                    self.held.pop_front();
                    self.taken += 1;
                    self.leave(held);
                }
                fits
            }
            Message::Acknowledgement { .. } => false,
        }
    }

    pub fn go_alone(&mut self) -> u32 {
        if self.role == Role::Active {
            return PART_LENGTH;
        }
        self.role = Role::Alone;
        DONE
    }

    /// What rules 7.1 and 7.6 say of each pool by itself: strips ever added equal those held plus those ever taken,
    /// and those held have the numbers that follow the last one taken.
    pub fn check(&self) {
        assert_eq!(self.added, self.held.len() as u64 + self.taken, "added are not held and taken");
        let in_turn = (self.taken + 1..).zip(&self.held).all(|(number, held)| held.number == number);
        assert!(in_turn, "the strips held are not those after number {}", self.taken);
        let counted = self.role == Role::Alone || self.sequence == self.added + self.taken;
        assert!(counted, "{} messages for {} added and {} taken", self.sequence, self.added, self.taken);
    }
}

fn room_of(rooms: &mut [u8], number: u64) -> &mut [u8] {
    let start = (number as usize - 1) % ROOM_COUNT * ROOM;
    &mut rooms[start..start + ROOM]
}
