//! Cases for expansion: every key length against every round-key length, and many good keys.

use crate::aes::expanded_length;
use crate::case::{Call, Case, Maker};
use crate::rng::Rng;

/// Lengths past the grid that a narrower number would take for a good one.
const FAR_KEYS: [usize; 4] = [48, 64, 272, 65552];
const FAR_ROUND_KEYS: [usize; 4] = [432, 464, 496, 65712];

pub struct Expansions {
    rng: Rng,
    grid: Vec<(usize, usize)>,
}

impl Maker for Expansions {
    /// Every other case is good, the rest walk the grid.
    fn case(&mut self, index: usize) -> Case {
        let (key, round_keys) = match index % 2 {
            0 => self.grid[index / 2 % self.grid.len()],
            _ => good_lengths(self.rng.pick(&[16, 24, 32])),
        };
        let buffers = vec![self.rng.bytes(key), self.rng.bytes(round_keys)];
        Case { call: Call::Expand, direction: 0, buffers }
    }
}

impl Expansions {
    pub fn new(rng: Rng) -> Expansions {
        let keys = || (0..=40).chain(FAR_KEYS);
        let round_keys = || (0..=260).chain(FAR_ROUND_KEYS);
        let grid = keys().flat_map(|key| round_keys().map(move |round| (key, round))).collect();
        Expansions { rng, grid }
    }
}

fn good_lengths(key: usize) -> (usize, usize) {
    (key, expanded_length(key).expect("one of the three key sizes"))
}
