//! Cases for the S-box calls: every data byte, mask and direction in turn, then the refusals.

use crate::case::{direction, length, some_defects, wrong_ones, Call, Case, Maker};
use crate::points;
use crate::rng::Rng;

/// The order of refusal of an S-box call with points.
pub const ORDER: [u32; 4] = [13, 6, 3, 2];

pub struct Sboxes {
    rng: Rng,
}

impl Maker for Sboxes {
    /// Of eight cases six walk through every byte and mask with points, one without, one is damaged.
    fn case(&mut self, index: usize) -> Case {
        match index % 8 {
            6 => self.in_turn(Call::Sbox, index / 8),
            7 => {
                let defects = some_defects(&ORDER, &mut self.rng);
                self.damaged(&defects)
            }
            place => self.in_turn(Call::SboxPoints, 6 * (index / 8) + place),
        }
    }
}

impl Sboxes {
    pub fn new(rng: Rng) -> Sboxes {
        Sboxes { rng }
    }

    /// A good case; the low seventeen bits of the turn are data, mask and direction.
    fn in_turn(&mut self, call: Call, turn: usize) -> Case {
        let mut case = self.damaged(&[]);
        case.direction = (turn >> 16 & 1) as u32;
        case.buffers[0] = vec![turn as u8];
        case.buffers[1] = vec![(turn >> 8) as u8];
        with_points_if(case, call == Call::SboxPoints)
    }

    /// A case in which exactly these numbers apply, 3 only where there is a points buffer.
    pub fn damaged(&mut self, defects: &[u32]) -> Case {
        let rng = &mut self.rng;
        let wrong: [bool; 3] = wrong_ones(defects.contains(&6), rng);
        let lengths: [usize; 3] = std::array::from_fn(|i| length(!wrong[i], [1, 1, 3][i], rng));
        let mut buffers: Vec<Vec<u8>> = lengths.iter().map(|&length| rng.bytes(length)).collect();
        if let Some(third) = buffers[2].get_mut(2) {
            *third = third_byte(!defects.contains(&2), rng);
        }
        let points = if defects.contains(&3) { rng.pick(&[0, 1, 61, 63, 200, 318]) } else { points::COUNT };
        buffers.push(rng.bytes(points));
        let case = Case { call: Call::SboxPoints, direction: direction(!defects.contains(&13), rng), buffers };
        let keep = defects.contains(&3) || rng.one_in(2);
        with_points_if(case, keep)
    }
}

/// Makes the case one with a points buffer, or one without.
fn with_points_if(mut case: Case, points: bool) -> Case {
    case.call = if points { Call::SboxPoints } else { Call::Sbox };
    case.buffers.resize(if points { 4 } else { 3 }, vec![0xa5; points::COUNT]);
    case
}

/// A third record byte: 0 to 3, or above.
pub fn third_byte(good: bool, rng: &mut Rng) -> u8 {
    if good {
        return rng.byte() & 3;
    }
    let random = 4 + rng.below(252) as u8;
    rng.pick(&[4, 5, 7, 8, 128, 255, random, random])
}
