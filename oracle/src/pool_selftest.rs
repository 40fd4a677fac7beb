//! The oracle's checks of its pool: messages and states written out by hand, every moment of a cut, a restart
//! with the rule broken and kept, the refusals of rule 7.9, and walks that reach every number of every call.

use crate::case::Told;
use crate::message;
use crate::pool::{Held, Master, Role, LAST_NUMBER, ROOM};
use crate::pool_call::{Call, CALLS, RESTART, STORE};
use crate::rng::Rng;
use crate::show::hex;
use crate::strip;
use crate::tally::Tally;
use crate::walk::Walk;
use std::collections::BTreeSet;

const STEPS: usize = 10_000;

pub fn run(tally: &mut Tally, rng: &mut Rng) {
    by_hand(tally, rng);
    cuts(tally, rng);
    stored_too_late_and_in_time(tally, rng);
    refused_at_the_standby(tally, rng);
    limits(tally, rng);
    strips_of_their_own(tally, rng);
    walks(tally);
}

fn new_pair() -> (Master, Master) {
    (Master::holding(Role::Active, 0, &[]), Master::holding(Role::Standby, 0, &[]))
}

fn is(bytes: &[u8], text: &str) -> bool {
    Some(bytes) == hex(&text.replace(' ', "")).as_deref()
}

/// One strip from its addition to its handing out.
fn by_hand(tally: &mut Tally, rng: &mut Rng) {
    let (mut active, mut standby) = new_pair();
    let strip = strip::make(16, rng);
    tally.check(active.add(&strip) == 0 && is(&active.state(), "01 00000001 00000000"), "added");
    let message = active.message();
    tally.check(is(&message[..12], "01ee 01 01 00000001 00000001"), "an addition's front");
    tally.check(message[12..496] == strip[..] && message[496..].iter().all(|&byte| byte == 0), "an addition's strip");
    tally.check(active.add(&strip) == 23 && active.take() == Err(23), "waiting");
    let answer = standby.apply(&message[..496]).unwrap_or_default();
    tally.check(is(&answer, "0006 01 03 00000001") && is(&standby.state(), "03 00000001 00000000"), "applied");
    tally.check(active.acknowledge(&answer) == Ok(None) && is(&active.state(), "00 00000001 00000000"), "acknowledged");
    tally.check(active.rooms() == standby.rooms() && active.rooms()[..484] == strip[..], "in its room");
    tally.check(active.take() == Ok(None) && is(&active.state(), "02 00000001 00000001"), "taken");
    let message = active.message();
    tally.check(is(&message[..12], "000a 01 02 00000002 00000001"), "a taking");
    let answer = standby.apply(&message[..12]).unwrap_or_default();
    tally.check(is(&answer, "0006 01 03 00000002") && standby.rooms().iter().all(|&byte| byte == 0), "taken there too");
    tally.check(active.rooms()[..484] == strip[..], "in its room until it is handed out");
    let handed = active.acknowledge(&answer).ok().flatten();
    tally.check(handed.map_or(false, |held| held.number == 1 && held.strip() == &strip[..]), "handed out");
    tally.check(active.rooms().iter().all(|&byte| byte == 0) && active.take() == Err(15), "nothing left");
    tally.check(active.message().iter().all(|&byte| byte == 0), "nothing outstanding");
}

/// A taking cut before the standby applied it, and after: the strip is handed out alone, or lost.
fn cuts(tally: &mut Tally, rng: &mut Rng) {
    for applied in [false, true] {
        let strips = [strip::make(24, rng), strip::make(32, rng)];
        let (mut active, mut standby) =
            (Master::holding(Role::Active, 7, &strips), Master::holding(Role::Standby, 7, &strips));
        tally.check(active.take() == Ok(None), "taken before the cut");
        let message = active.message()[..12].to_vec();
        if applied {
            tally.check(standby.apply(&message).is_ok(), "applied before the cut");
        }
        tally.check(active.go_alone() == 6 && standby.go_alone() == 0, "the standby goes on alone");
        tally.check(standby.apply(&message) == Err(16), "alone, an old message too gets 16");
        let handed = standby.take().ok().flatten().map(|held| held.number);
        tally.check(handed == Some(if applied { 9 } else { 8 }), "alone, the next strip");
        tally.check(standby.go_alone() == 0 && standby.role == Role::Alone, "alone already");
    }
}

/// A message that leaves before the state that it comes from is stored, and the same run with the rule kept.
/// The active restarts, and its taking gets the number of the addition: strip 1 is handed out by both.
fn stored_too_late_and_in_time(tally: &mut Tally, rng: &mut Rng) {
    for in_time in [false, true] {
        let strips: Vec<Vec<u8>> = (0..4).map(|_| strip::make(16, rng)).collect();
        let (mut active, mut standby) =
            (Master::holding(Role::Active, 0, &strips[..3]), Master::holding(Role::Standby, 0, &strips[..3]));
        let before = active.clone();
        tally.check(active.add(&strips[3]) == 0, "a fourth strip is added");
        tally.check(standby.apply(&active.message()[..496]).is_ok(), "its message is applied");
        active = if in_time { active } else { before };
        let (taken, length) = (active.take(), if in_time { 496 } else { 12 });
        tally.check(taken == if in_time { Err(23) } else { Ok(None) }, "a taking after the restart");
        let answer = standby.apply(&active.message()[..length]).unwrap_or_default();
        let number = |handed: Result<Option<Held>, u32>| handed.ok().flatten().map(|held| held.number);
        let handed = number(active.acknowledge(&answer));
        tally.check(handed == if in_time { None } else { Some(1) }, "what the active hands out after the restart");
        tally.check(standby.go_alone() == 0 && number(standby.take()) == Some(1), "alone, strip 1");
    }
}

/// What the request lists for 16, and what is acknowledged.
fn refused_at_the_standby(tally: &mut Tally, rng: &mut Rng) {
    let strips: Vec<Vec<u8>> = (0..64).map(|_| strip::make(16, rng)).collect();
    let (good, bad) = (strip::make(32, rng), strip::frame(1, 17, &[0; 480]));
    // Two are taken: with five held, nine messages were applied.
    let at = |held: usize, bytes: Vec<u8>| Master::holding(Role::Standby, 2, &strips[..held]).apply(&bytes).is_ok();
    let cases = [
        (at(5, message::addition(10, 8, &good)), true, "the next addition"),
        (at(5, message::addition(11, 8, &good)), false, "a message beyond the next"),
        (at(5, message::addition(10, 8, &bad)), false, "a strip of bad form"),
        (at(64, message::addition(69, 67, &good)), false, "a full pool"),
        (at(63, message::addition(68, 66, &good)), true, "the last room"),
        (at(5, message::addition(10, 9, &good)), false, "a number that is not the next"),
        (at(5, message::taking(10, 3)), true, "the lowest held"),
        (at(5, message::taking(10, 4)), false, "a number that is not the lowest"),
        (at(5, message::taking(10, 2)), false, "a number that was taken"),
        (at(0, message::taking(5, 3)), false, "a taking where none is held"),
        (at(5, message::taking(9, 3)), true, "the message before the next"),
        (at(5, message::addition(0, 77, &bad)), true, "an old message, whatever it carries"),
        (at(5, message::acknowledgement(9)), false, "an acknowledgement"),
    ];
    for (served, expected, name) in cases {
        tally.check(served == expected, format!("at the standby: {name}"));
    }
}

/// Numbers stop at the largest 32-bit value: 24 at the active, 14 and 15 alone.
fn limits(tally: &mut Tally, rng: &mut Rng) {
    let (strip, half) = (strip::make(16, rng), LAST_NUMBER / 2);
    let mut active = Master::holding(Role::Active, half - 1, &[strip.clone(), strip.clone()]);
    tally.check(active.take() == Ok(None), "the last message is sent");
    let handed = active.acknowledge(&message::acknowledgement(LAST_NUMBER));
    tally.check(handed.map_or(false, |held| held.is_some()), "its acknowledgement counts");
    let used_up = active.add(&strip) == 24 && active.add(&[]) == 24 && active.take() == Err(24);
    tally.check(used_up, "sequence numbers are used up");
    let mut alone = Master::holding(Role::Alone, LAST_NUMBER - 1, &[]);
    tally.check(alone.add(&strip) == 0 && alone.add(&strip) == 14, "strip numbers are used up");
    tally.check(alone.take().map_or(false, |held| held.is_some()) && alone.take() == Err(15), "the last strip");
}

/// 9 exactly for a key size that is none of the three, before 12 and after 8.
fn strips_of_their_own(tally: &mut Tally, rng: &mut Rng) {
    for key_size in 0..=255 {
        let good = strip::record_bytes(key_size.into()).is_some();
        let bare = strip::check_own(&strip::frame(1, key_size, &[]));
        tally.check(bare == if good { 12 } else { 9 }, format!("a strip without records for key size {key_size}"));
        tally.check(strip::check_own(&strip::frame(2, key_size, &[])) == 8, format!("version 2, key size {key_size}"));
    }
    for key_size in [16, 24, 32] {
        tally.check(strip::check_own(&strip::make(key_size, rng)) == 0, format!("a good strip for {key_size}"));
    }
}

fn numbers(call: Call) -> &'static [u32] {
    match call {
        Call::Add => &[0, 6, 23, 24, 7, 11, 8, 9, 12, 10, 14],
        Call::Take => &[0, 6, 23, 24, 15],
        Call::Outstanding | Call::GoAlone => &[0, 6],
        Call::Acknowledge | Call::Apply => &[0, 6, 16],
    }
}

/// Every number of every call, none besides, and 14 for want of numbers as well as of rooms.
fn walks(tally: &mut Tally) {
    for seed in 1..=3 {
        let mut walk = Walk::new(Rng::new(seed));
        let (mut reached, mut no_number_left) = (BTreeSet::new(), false);
        for _ in 0..STEPS {
            let told = walk.step();
            reached.insert((told.call, told.number));
            no_number_left |= told.number == 14 && free_rooms(&told) > 0;
            let kept = told.number == 0 || told.before == told.after;
            tally.check(kept, format!("call {} changes a byte on refusal {}", told.call, told.number));
        }
        let mut all = BTreeSet::from([(STORE, 0), (RESTART, 0)]);
        all.extend(CALLS.iter().flat_map(|&call| numbers(call).iter().map(move |&number| (call as u8, number))));
        tally.check(reached == all, format!("walk {seed} reaches every number of every call"));
        tally.check(no_number_left, format!("walk {seed} runs out of strip numbers"));
    }
}

fn free_rooms(told: &Told) -> usize {
    told.before[1].chunks(ROOM).filter(|room| room.iter().all(|&byte| byte == 0)).count()
}
