//! Numbers for a file from a seed.

use super::tasks::{any_word, random_lines, random_m, random_n};
use crate::reference::seeds::Request;
use crate::rng::Rng;

impl Request {
    /// Within the ranges, and with limits at which a plan is a choice.
    pub fn random(rng: &mut Rng) -> Request {
        let longest = rng.pick(&[1, 2, 4, 8, 64]) * rng.pick(&[500, 1000, 1500]);
        let (any_q, any_r) = (any_word(rng), any_word(rng));
        let (n, m) = if rng.percent(1) {
            (64, 32)
        } else {
            (random_n(rng) as u32, random_m(rng) as u32)
        };
        Request {
            seed: any_word(rng),
            n,
            m,
            s: random_lines(rng) as u32,
            q: rng.pick(&[longest, longest, any_q]),
            r: rng.pick(&[0, 1, 5, 25, any_r]),
        }
    }

    /// With N, M or S perhaps out of its range.
    pub fn damaged(mut self, rng: &mut Rng) -> Request {
        let high = |rng: &mut Rng, most: u32| {
            let some = 1 + rng.below(most as usize) as u32;
            rng.pick(&[most + 1, most + some, 256 + some, 65536 + some, u32::MAX])
        };
        match rng.below(6) {
            0 => self.n = 0,
            1 => self.n = high(rng, 64),
            2 => self.m = high(rng, 32),
            3 => self.s = 0,
            4 => self.s = high(rng, 512),
            _ => {}
        }
        self
    }
}
