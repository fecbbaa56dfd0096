//! Random tasks.

use crate::reference::files::{Reads, Scratch, Task};
use crate::reference::regions::Model;
use crate::rng::Rng;

const EDGE_LINES: [usize; 17] = [
    1, 2, 3, 4, 5, 7, 8, 16, 31, 64, 100, 255, 256, 257, 300, 511, 512,
];

pub fn any_word(rng: &mut Rng) -> u32 {
    match rng.below(6) {
        0 => 0,
        1 => u32::MAX,
        2 => rng.pick(&[1, 255, 256, 65535, 65536, 0x7FFF_FFFF, 0x8000_0000]),
        3 => rng.below(100) as u32,
        _ => rng.word(),
    }
}

/// A memory block number on the given line.
fn number_on(rng: &mut Rng, line: usize, lines: usize) -> u32 {
    let most = (u32::MAX as usize - line) / lines;
    let times = match rng.below(10) {
        0 => most,
        1 => rng.between(0, most),
        2 => most.min(0x8000_0000 / lines + 1),
        3 => most.min(256),
        _ => rng.between(0, most.min(3)),
    };
    (line + lines * times) as u32
}

/// The most numbers that a block reads.
const MOST_READS: usize = 124;

/// The same task with interrupters of other numbers, orders and ids that touch the same lines.
pub fn renumbered(rng: &mut Rng, task: &Task) -> Task {
    let mut interrupters: Vec<Reads> = (0..task.interrupters.len())
        .map(|_| Reads {
            word: any_word(rng),
            armed: false,
            numbers: Vec::new(),
        })
        .collect();
    let old = task.interrupters.iter().flat_map(|r| &r.numbers);
    let mut lines = vec![None; task.lines];
    for &m in old.filter(|&&m| !task.scratch.has(m)) {
        lines[m as usize % task.lines] = Some(m);
    }
    let touched: Vec<u32> = lines.into_iter().flatten().collect();
    for (i, &m) in touched.iter().enumerate() {
        let left = touched.len() - i - 1;
        let times = rng.between(1, 3);
        for again in 0..times {
            let room: usize = interrupters
                .iter()
                .map(|r| MOST_READS - r.numbers.len())
                .sum();
            if again > 0 && room <= left {
                break;
            }
            let new = number_on(rng, m as usize % task.lines, task.lines);
            let number = if task.scratch.has(new) { m } else { new };
            let open: Vec<usize> = (0..interrupters.len())
                .filter(|&j| interrupters[j].numbers.len() < MOST_READS)
                .collect();
            let numbers = &mut interrupters[rng.pick(&open)].numbers;
            let at = rng.between(0, numbers.len());
            numbers.insert(at, number);
        }
    }
    Task {
        interrupters,
        ..task.clone()
    }
}

/// The same where each interrupter touches the lines that it touched.
pub fn renumbered_each(rng: &mut Rng, task: &Task) -> Task {
    let of_one = |reads: &Reads, rng: &mut Rng| {
        let one = Task {
            interrupters: vec![reads.clone()],
            ..task.clone()
        };
        renumbered(rng, &one).interrupters.remove(0)
    };
    Task {
        interrupters: task
            .interrupters
            .iter()
            .map(|reads| of_one(reads, rng))
            .collect(),
        ..task.clone()
    }
}

pub fn random_n(rng: &mut Rng) -> usize {
    match rng.below(200) {
        0..=9 => 1,
        10..=24 => rng.between(2, 3),
        25..=139 => rng.between(4, 12),
        140..=189 => {
            let high = rng.between(13, 40);
            rng.between(13, high)
        }
        190..=195 => rng.between(41, 63),
        _ => 64,
    }
}

pub fn random_m(rng: &mut Rng) -> usize {
    match rng.below(20) {
        0 => 0,
        1..=15 => rng.between(1, 3),
        16..=18 => rng.between(4, 31),
        _ => 32,
    }
}

pub fn random_lines(rng: &mut Rng) -> usize {
    if rng.percent(70) {
        rng.pick(&EDGE_LINES)
    } else {
        rng.between(1, 512)
    }
}

/// Numbers that collide on a few lines. The first of a line is read more often than the others.
struct Pool {
    lines: Vec<Vec<u32>>,
    steady: usize,
}

impl Pool {
    fn random(rng: &mut Rng, s: usize, dense: bool) -> Pool {
        let lines: Vec<usize> = if dense || rng.percent(8) {
            (0..s).collect()
        } else {
            let edges: Vec<usize> = [0, 1, 44, 63, 64, 127, 128, 255, 256, 300, 511, s - 1]
                .into_iter()
                .filter(|&c| c < s)
                .collect();
            let count = if rng.percent(60) {
                rng.between(1, 5)
            } else {
                rng.between(1, 24)
            };
            (0..count)
                .map(|_| {
                    if rng.percent(50) {
                        rng.pick(&edges)
                    } else {
                        rng.below(s)
                    }
                })
                .collect()
        };
        let others = rng.pick(&[0, 0, 1, 1, 2, 3]);
        let mut pool = Pool {
            lines: Vec::new(),
            steady: rng.pick(&[0, 50, 80, 90, 100]),
        };
        for line in lines {
            let mut numbers = Vec::new();
            if rng.percent(40) {
                numbers.push(line as u32);
            }
            for _ in 0..1 + others {
                numbers.push(number_on(rng, line, s));
            }
            pool.lines.push(numbers);
        }
        pool
    }

    fn read(&self, rng: &mut Rng) -> u32 {
        let numbers = &self.lines[rng.below(self.lines.len())];
        if rng.percent(self.steady) {
            numbers[0]
        } else {
            rng.pick(numbers)
        }
    }

    /// The first number of one of two lines, which go by the phase.
    fn read_in(&self, rng: &mut Rng, phase: usize) -> u32 {
        self.lines[(2 * phase + rng.below(2)) % self.lines.len()][0]
    }
}

fn random_count(rng: &mut Rng, style: usize) -> usize {
    match style {
        0 => rng.between(0, 3),
        1 => rng.between(0, 12),
        2 => rng.between(0, 124),
        3 => 124,
        4 => rng.pick(&[0, 1, 123, 124]),
        _ => rng.between(1, 6),
    }
}

pub fn random_task(rng: &mut Rng) -> Task {
    let mut task = task_without_limit(rng);
    let model = Model::new(task.clone());
    task.limit = random_limit(rng, &model);
    arm_some(rng, &mut task.blocks);
    task.second = random_second(rng, &model, task.limit);
    task
}

/// Arms no block, one, all, or some.
pub fn arm_some(rng: &mut Rng, blocks: &mut [Reads]) {
    let (kind, one) = (rng.below(10), rng.below(blocks.len()));
    let part = rng.pick(&[10, 30, 50, 90]);
    for (i, block) in blocks.iter_mut().enumerate() {
        block.armed = match kind {
            0..=3 => false,
            4..=5 => i == one,
            6 => true,
            _ => rng.percent(part),
        };
    }
}

/// Q2: at its ends, at Q and beside it, at a stretch's length and beside it, or near the least that lets a list fit.
fn random_second(rng: &mut Rng, model: &Model, limit: u32) -> u32 {
    let q2 = match rng.below(12) {
        0 => 0,
        1 => u32::MAX as u64,
        2 => any_word(rng) as u64,
        3..=4 => beside(rng, limit as u64),
        5..=8 => {
            let a = rng.below(model.n);
            let b = rng.between(a + 1, model.n.min(a + 4));
            beside(rng, model.length(a, b))
        }
        _ => {
            let tight = tightest(model);
            let most = (limit as u64).max(tight);
            tight + (rng.next() % (most - tight + 1)) / rng.pick(&[1, 2, 4, 8])
        }
    };
    q2.min(u32::MAX as u64) as u32
}

/// A random task with Q and Q2 0 and nothing armed.
pub fn task_without_limit(rng: &mut Rng) -> Task {
    let dense = rng.below(150) == 0;
    // Few lines, read over and over and struck often: the choice of points matters.
    let hard = !dense && rng.percent(30);
    let n = if dense {
        rng.between(20, 64)
    } else {
        random_n(rng)
    };
    let m = if dense {
        rng.between(4, 12)
    } else {
        random_m(rng)
    };
    let s = if dense {
        rng.between(256, 512)
    } else {
        random_lines(rng)
    };
    let mut pool = Pool::random(rng, s, dense);
    if hard {
        pool.lines.truncate(9);
        pool.steady = rng.pick(&[80, 90, 95]);
    }
    let scattered = !hard && rng.percent(4);
    // Blocks that follow each other read the same few lines: a point among them is dear, and one behind them cheap.
    let phase = if hard && rng.percent(50) {
        rng.between(2, 4)
    } else {
        0
    };

    let style = match (dense, hard) {
        (true, _) => 3,
        (_, true) => rng.pick(&[0, 5]),
        _ => rng.pick(&[0, 0, 1, 1, 1, 1, 2, 3, 4, 5, 5, 5, 5]),
    };
    let times = if dense || hard {
        rng.between(4, 11)
    } else {
        rng.below(12)
    };
    let base = rng.between(1, 30) as u32;
    let mut blocks = Vec::new();
    for i in 0..n {
        let time = match times {
            0 => 0,
            1 => rng.pick(&[u32::MAX, u32::MAX - 1, 0x8000_0000, 0, 1]),
            2 => rng.between(0, 1 << 30) as u32,
            3 => any_word(rng),
            4..=6 => base,
            _ => rng.between(0, 20) as u32,
        };
        let count = random_count(rng, style);
        let numbers = (0..count)
            .map(|_| {
                if scattered {
                    rng.word()
                } else if phase > 0 {
                    pool.read_in(rng, i / phase)
                } else {
                    pool.read(rng)
                }
            })
            .collect();
        blocks.push(Reads {
            word: time,
            armed: false,
            numbers,
        });
    }

    let style = if dense {
        3
    } else {
        rng.pick(&[0, 1, 1, 2, 2, 3, 3, 4, 5])
    };
    let spared = if rng.percent(40) {
        Some(pool.read(rng) as usize % s)
    } else {
        None
    };
    // Often the last touches lines that no other does.
    let alone = !dense && rng.percent(25);
    let mut interrupters = Vec::new();
    for i in 0..m {
        let count = if alone && i + 1 < m {
            rng.pick(&[0, 0, 1])
        } else {
            random_count(rng, style)
        };
        let mut numbers = Vec::new();
        for _ in 0..count {
            let line = pool.read(rng) as usize % s;
            if Some(line) != spared {
                numbers.push(number_on(rng, line, s));
            }
        }
        interrupters.push(Reads {
            word: any_word(rng),
            armed: false,
            numbers,
        });
    }

    let kinds = if hard {
        rng.between(6, 23)
    } else {
        rng.below(24)
    };
    let reload = match kinds {
        0 => 0,
        1 => u32::MAX,
        2 => rng.pick(&[0x8000_0000, 0x4000_0000, 0x2000_0000, 0x1000_0000]),
        3..=4 => rng.between(1 << 24, 1 << 30) as u32,
        5 => any_word(rng),
        _ if phase > 0 => rng.between(1, 2) as u32,
        6..=12 => base,
        _ => rng.between(1, 20) as u32,
    };
    let scratch = random_scratch(rng, &blocks, &interrupters);
    let switch = match phase {
        0 if dense => rng.below(20) as u32,
        0 => random_switch(rng, &blocks, reload),
        _ => reload * rng.below(6) as u32,
    };
    Task {
        lines: s,
        limit: 0,
        reload,
        id: any_word(rng),
        scratch,
        second: 0,
        switch,
        blocks,
        interrupters,
    }
}

/// G: 0, small, beside a few reloads or a block's time, a part of all times, or beside all of them, where a list with points is longer than
/// the one without.
fn random_switch(rng: &mut Rng, blocks: &[Reads], reload: u32) -> u32 {
    let times: u64 = blocks.iter().map(|block| block.word as u64).sum();
    let one = blocks[rng.below(blocks.len())].word as u64;
    let reloads = reload as u64 * rng.pick(&[1, 1, 2, 3]);
    let g = match rng.below(16) {
        0..=4 => 0,
        5..=8 => rng.between(1, 20) as u64,
        9..=10 => beside(rng, reloads),
        11 => reload as u64 / rng.pick(&[2, 3]),
        12 => beside(rng, one),
        13 => times / rng.pick(&[2, 4, 8]),
        14 => beside(rng, times),
        _ => any_word(rng) as u64,
    };
    g.min(u32::MAX as u64) as u32
}

/// The numbers from first on and before end, or up to the last number that a range can have.
fn scratch_to(first: u32, end: u64) -> Scratch {
    let count = end.saturating_sub(first as u64).min(u32::MAX as u64) as u32;
    Scratch { first, count }
}

/// Mostly no range; else an empty one, one number, all numbers up to the last, all but one, or
/// numbers around those that the file reads.
fn random_scratch(rng: &mut Rng, blocks: &[Reads], interrupters: &[Reads]) -> Scratch {
    let of =
        |blocks: &[Reads]| -> Vec<u32> { blocks.iter().flat_map(|b| b.numbers.clone()).collect() };
    let (mut read, struck) = (of(blocks), of(interrupters));
    if rng.percent(40) || read.is_empty() {
        read = struck;
    }
    let mut used = || {
        if read.is_empty() {
            any_word(rng)
        } else {
            rng.pick(&read)
        }
    };
    let (one, other) = (used(), used());
    let (low, high) = (one.min(other), one.max(other) as u64);
    match rng.below(20) {
        0 => Scratch {
            first: any_word(rng),
            count: 0,
        },
        1 => scratch_to(one, one as u64 + 1),
        2 => scratch_to(any_word(rng), 1 << 32),
        3 => scratch_to(one.max(1), 1 << 32),
        4 => scratch_to(rng.below(2) as u32, 1 << 32),
        5 => scratch_to(0, high + 1),
        6..=7 => scratch_to(
            low.saturating_add(rng.below(2) as u32),
            high + rng.below(2) as u64,
        ),
        8 => {
            let first = one.saturating_sub(rng.below(4) as u32);
            scratch_to(
                first,
                (first as u64 + rng.between(1, 5) as u64).min(1 << 32),
            )
        }
        _ => Scratch::NONE,
    }
}

/// Q: at its ends, at a stretch's length and beside it, or near the least that lets a list fit.
fn random_limit(rng: &mut Rng, model: &Model) -> u32 {
    let costly = model.task.reload.max(model.task.switch);
    if costly >= 1 << 24 && rng.percent(40) {
        return u32::MAX - rng.below(2) as u32;
    }
    let q = match rng.below(20) {
        0 => 0,
        1..=2 => u32::MAX as u64,
        3 => any_word(rng) as u64,
        4..=7 => {
            let a = rng.below(model.n);
            let b = rng.between(a + 1, model.n);
            beside(rng, model.length(a, b))
        }
        8 => beside(rng, model.length(0, model.n)),
        9..=13 => {
            let tight = tightest(model);
            beside(rng, tight)
        }
        _ => {
            let tight = tightest(model);
            let whole = model.length(0, model.n).max(tight);
            tight + (rng.next() % (whole - tight + 1)) / rng.pick(&[1, 2, 4, 8])
        }
    };
    q.min(u32::MAX as u64) as u32
}

fn beside(rng: &mut Rng, length: u64) -> u64 {
    match rng.below(4) {
        0 => length.saturating_sub(1),
        1 => length + 1,
        _ => length,
    }
}

/// The least Q at which some list fits.
pub fn tightest(model: &Model) -> u64 {
    let n = model.n;
    let mut need = vec![0; n + 1];
    for a in (0..n).rev() {
        need[a] = (a + 1..=n)
            .map(|b| model.length(a, b).max(need[b]))
            .min()
            .unwrap();
    }
    need[0]
}
