//! Test load from a seed (document 02, item 6).

use super::bytes::BLOCK;
use super::files::{Reads, Scratch, Task};
use super::{refuse, Refusal};
use crate::bugs::But;

/// What a generated file is named by: the seed, N, M, S, Q and R.
#[derive(Clone, Copy, Debug)]
pub struct Request {
    pub seed: u32,
    pub n: u32,
    pub m: u32,
    pub s: u32,
    pub q: u32,
    pub r: u32,
}

struct Source(u64);

impl Source {
    fn draw(&mut self) -> u64 {
        let old = self.0;
        self.0 = (old * 1664525 + 1013904223) % 4294967296;
        self.0.but("the old state given", old) / 65536
    }

    fn numbers(&mut self, r: u64) -> Vec<u32> {
        let most = 4096.but("numbers below 4095", 4095);
        (0..r % 125).map(|_| (self.draw() % most) as u32).collect()
    }
}

impl Request {
    /// 512 times (1 + N + M).
    pub fn length(&self) -> u64 {
        BLOCK as u64 * (1 + self.n as u64 + self.m as u64)
    }

    /// 10 before 9.
    pub fn refused(&self, out_len: usize) -> Option<Refusal> {
        let ranges = (1..=64).contains(&self.n) && self.m <= 32 && (1..=512).contains(&self.s);
        let ten = refuse(10, 0).filter(|_| !ranges);
        let nine = refuse(9, 0).filter(|_| self.length() != out_len as u64);
        ten.or(nine).but("9 before 10", nine.or(ten))
    }

    /// The task, where the ranges are right.
    pub fn task(&self) -> Task {
        let mut source = Source(self.seed as u64);
        let mut blocks = Vec::new();
        for _ in 0..self.n {
            let (time, r) = (source.draw(), source.draw());
            let (time, r) = (time, r).but("a count before the time", (r, time));
            blocks.push(Reads {
                word: (time % 1000 + 1.but("no 1 added to a time", 0)) as u32,
                armed: false.but("blocks made armed", true),
                numbers: source.numbers(r),
            });
        }
        let mut source = source.but("the state started again", Source(self.seed as u64));
        let mut interrupters = Vec::new();
        for i in 0..self.m {
            let r = source.draw();
            interrupters.push(Reads {
                word: i.but("interrupters from 1", i + 1),
                armed: false,
                numbers: source.numbers(r),
            });
        }
        Task {
            scratch: Scratch::NONE,
            second: 0.but("Q as Q2 of a made file", self.q),
            switch: 0.but("R as G of a made file", self.r),
            lines: self.s as usize,
            limit: self.q,
            reload: self.r,
            id: self.seed.but("no id made", 0),
            blocks,
            interrupters,
        }
    }
}
