//! Random walks over two masters: strips added and taken, messages and acknowledgements lost, repeated
//! and late, both masters stored and started again at any moment, the active's power cut, the standby
//! going on alone. After every step the walk holds the two masters against what chapter 7 of the rules promises, and
//! stops where it does not hold.

use crate::case::{some_defects, Told};
use crate::case_block::{damaged_strip, good_records, KEY_SIZES};
use crate::pair::Pair;
use crate::pool::{Master, Role, LAST_NUMBER};
use crate::pool_call::{self, Call, CALLS};
use crate::refusal::DONE;
use crate::rng::Rng;
use crate::strip;
use crate::walk_stray::{self, Odd};

/// The lines of a file in which the calls of each master stand.
const ACTIVE_LINE: usize = 1;
const STANDBY_LINE: usize = 2;

/// What can be wrong with a strip by itself.
const STRIP_ORDER: [u32; 6] = [7, 11, 8, 9, 12, 10];

pub struct Walk {
    rng: Rng,
    pair: Pair,
    /// Of ten calls that add or take, so many add.
    additions: usize,
    /// So many masters of a new pair are still to be stored for the first time.
    unstored: usize,
    odd: Odd,
}

/// A new pair of masters.
fn new_pair(rng: &mut Rng) -> Pair {
    let (standby_role, cut, taken, count) = start(rng);
    let strips: Vec<Vec<u8>> = (0..count).map(|_| good_strip(rng)).collect();
    let active = match cut {
        true => Master::holding(Role::Active, 0, &[]),
        false => Master::holding(Role::Active, taken, &strips),
    };
    Pair::new(active, Master::holding(standby_role, taken, &strips), cut)
}

/// How a pair starts: the standby's role, whether the active is gone, strips ever taken, strips held. New
/// pools; any number of strips; close to the last sequence number; or, since only a master alone can come
/// so far, alone and close to the last strip number.
fn start(rng: &mut Rng) -> (Role, bool, u64, u64) {
    let held = rng.pick(&[0, 1, 2, 31, 60, 63, 64]);
    match rng.below(5) {
        0 => (Role::Standby, false, 0, 0),
        1 | 2 => (Role::Standby, false, rng.below(1000) as u64, held),
        3 => (Role::Standby, false, (LAST_NUMBER - rng.below(12) as u64 - held) / 2, held),
        _ => (Role::Alone, true, LAST_NUMBER - rng.below(6) as u64 - held, held),
    }
}

pub fn good_strip(rng: &mut Rng) -> Vec<u8> {
    let key_size = rng.pick(&KEY_SIZES);
    strip::frame(1, key_size as u8, &good_records(key_size, rng))
}

/// A strip for an addition, one in four damaged in one or more ways.
pub fn any_strip(rng: &mut Rng) -> Vec<u8> {
    if !rng.one_in(4) {
        return good_strip(rng);
    }
    let (defects, key_size) = (some_defects(&STRIP_ORDER, rng), rng.pick(&KEY_SIZES));
    damaged_strip(&defects, key_size, rng)
}

/// One that was sent before, most often one of the last; no bytes where none was.
fn earlier(sent: &[Vec<u8>], rng: &mut Rng) -> Vec<u8> {
    let among = sent.len().min(rng.pick(&[1, 1, 2, 4, 1000]));
    match among {
        0 => Vec::new(),
        _ => sent[sent.len() - 1 - rng.below(among)].clone(),
    }
}

/// Of ten calls that add or take, so many add.
fn additions(rng: &mut Rng) -> usize {
    rng.pick(&[2, 5, 5, 5, 8, 9])
}

fn line(at_active: bool) -> usize {
    if at_active { ACTIVE_LINE } else { STANDBY_LINE }
}

impl Walk {
    pub fn new(mut rng: Rng) -> Walk {
        let (pair, odd) = (new_pair(&mut rng), Odd::new(&mut rng));
        Walk { additions: additions(&mut rng), rng, pair, unstored: 2, odd }
    }

    /// One call, a storing or a restart, and the promises held against what it leaves.
    pub fn step(&mut self) -> Told {
        if self.is_alone() && self.rng.one_in(80) {
            self.pair = new_pair(&mut self.rng);
            self.additions = additions(&mut self.rng);
            self.unstored = 2;
        }
        let told = match self.unstored {
            0 => self.any_step(),
            _ => self.store(self.unstored == 2),
        };
        self.unstored = self.unstored.saturating_sub(1);
        self.pair.check();
        told
    }

    fn any_step(&mut self) -> Told {
        self.pair.cut |= self.rng.one_in(if self.pair.active.memory.sequence == LAST_NUMBER { 20 } else { 150 });
        match self.rng.below(100) {
            0..=14 => self.stray(),
            15..=29 => self.odd.call(&mut self.rng),
            30..=34 => self.any_call(),
            35..=36 => self.restart(),
            _ if self.pair.cut || self.is_alone() && self.rng.one_in(2) => self.after_the_cut(),
            37..=74 => self.due(),
            _ => self.out_of_turn(),
        }
    }

    fn is_alone(&self) -> bool {
        self.pair.standby.memory.role == Role::Alone
    }

    fn store(&mut self, at_active: bool) -> Told {
        Told { line: line(at_active), ..self.pair.store(at_active) }
    }

    fn store_any(&mut self) -> Told {
        let at_active = self.rng.one_in(2);
        self.store(at_active)
    }

    /// Either master starts again; one whose power was cut does so less often.
    fn restart(&mut self) -> Told {
        let at_active = self.rng.one_in(if self.pair.cut { 20 } else { 2 });
        Told { line: line(at_active), ..self.pair.restart(at_active) }
    }

    /// A call that counts: the master goes on from what it leaves, and what it writes is sent.
    fn call(&mut self, at_active: bool, call: Call, given: &[u8]) -> Told {
        let master = &mut self.pair.side(at_active).memory;
        let told = Told { line: line(at_active), ..pool_call::make(master, call, given, &mut self.rng) };
        if told.number == DONE {
            self.pair.note(at_active, call, &told.after);
        }
        told
    }

    /// The same, given a new strip or anything that was sent before.
    fn call_with_any(&mut self, at_active: bool, call: Call) -> Told {
        let given = match call {
            Call::Add => any_strip(&mut self.rng),
            Call::Apply => earlier(&self.pair.messages, &mut self.rng),
            Call::Acknowledge => earlier(&self.pair.acknowledgements, &mut self.rng),
            Call::Take | Call::Outstanding | Call::GoAlone => Vec::new(),
        };
        self.call(at_active, call, &given)
    }

    /// What the masters do when nothing goes wrong.
    fn due(&mut self) -> Told {
        if self.pair.active.waits() || self.pair.standby.waits() {
            return self.store(self.pair.active.waits());
        }
        let sent = match &self.pair.active.memory.outstanding {
            Some(sent) => sent,
            None => return self.add_or_take(true),
        };
        if self.pair.standby.memory.sequence == sent.sequence {
            let answer = self.pair.acknowledgements.last().cloned().unwrap_or_default();
            return self.call(true, Call::Acknowledge, &answer);
        }
        let message = sent.message.clone();
        match self.pair.messages.last() == Some(&message) {
            true => self.call(false, Call::Apply, &message),
            false => self.call(true, Call::Outstanding, &[]),
        }
    }

    fn add_or_take(&mut self, at_active: bool) -> Told {
        let adds = self.rng.below(10) < self.additions;
        self.call_with_any(at_active, if adds { Call::Add } else { Call::Take })
    }

    /// Calls that are right for their master but come at any time, with bytes from any time.
    fn out_of_turn(&mut self) -> Told {
        match self.rng.below(7) {
            0 | 1 => self.add_or_take(true),
            2 => self.call_with_any(true, Call::Outstanding),
            3 => self.call_with_any(true, Call::Acknowledge),
            4 | 5 => self.call_with_any(false, Call::Apply),
            _ => self.store_any(),
        }
    }

    /// The active is gone. What is still under way arrives before the standby goes on alone, and after.
    fn after_the_cut(&mut self) -> Told {
        let alone = self.is_alone();
        if self.pair.standby.waits() && self.rng.one_in(2) {
            return self.store(false);
        }
        match self.rng.below(8) {
            0 => self.call_with_any(false, Call::Apply),
            1 => self.call_with_any(false, Call::Acknowledge),
            2 => self.call_with_any(false, Call::Outstanding),
            3 => self.call_with_any(false, Call::GoAlone),
            _ if alone => self.add_or_take(false),
            _ => self.call_with_any(false, Call::Apply),
        }
    }

    /// Any call at any master, but none at one without power, and a standby goes on alone only after a cut.
    fn any_call(&mut self) -> Told {
        let at_active = !self.pair.cut && self.rng.one_in(2);
        let call = self.rng.pick(&CALLS);
        let too_early = call == Call::GoAlone && !at_active && !self.pair.cut;
        self.call_with_any(at_active, if too_early { Call::Outstanding } else { call })
    }

    /// A call at either master, or at a copy of it, that leaves the walk as it is.
    fn stray(&mut self) -> Told {
        let at_active = self.rng.one_in(2);
        let (master, line) = (&self.pair.side(at_active).memory.clone(), line(at_active));
        if self.rng.one_in(2) {
            return walk_stray::refused(master, line, &mut self.rng);
        }
        let sent = if self.rng.one_in(3) { &self.pair.acknowledgements } else { &self.pair.messages };
        walk_stray::forged(master, line, sent, &mut self.rng)
    }
}
