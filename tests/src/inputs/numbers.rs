//! Lengths, lines, edges and regions.

use crate::reference::bytes::BLOCK;
use crate::reference::files::Task;
use crate::rng::Rng;

pub fn out_len(rng: &mut Rng, right: usize) -> usize {
    if rng.percent(94) {
        right
    } else {
        rng.pick(&[
            0,
            1,
            16,
            24,
            64,
            72,
            63,
            65,
            71,
            73,
            511,
            512,
            513,
            1024,
            right - 1,
            right + 1,
        ])
    }
}

pub fn random_k(rng: &mut Rng, n: usize) -> usize {
    match rng.below(10) {
        0 => rng.pick(&[n, n + 1, n + 2, n - 1, 0, 1]),
        1 => rng.pick(&[
            63,
            64,
            65,
            66,
            255,
            256,
            65535,
            65536,
            1 << 31,
            1 << 32,
            1 << 63,
            usize::MAX,
        ]),
        2 => rng.pick(&[1 << 8, 1 << 16, 1 << 32, 1 << 63]) + rng.between(0, n),
        _ => rng.between(0, n),
    }
}

/// Mostly a line that is read somewhere, some that are not, and numbers that are no line.
pub fn random_line(rng: &mut Rng, task: &Task) -> usize {
    let s = task.lines;
    let numbers: Vec<u32> = task.blocks.iter().flat_map(|b| b.numbers.clone()).collect();
    let read = if numbers.is_empty() {
        0
    } else {
        rng.pick(&numbers) as usize
    };
    match rng.below(12) {
        0 => rng.pick(&[0, s - 1, s, s + 1, 255, 256, 511, 512, 513]),
        1 => rng.pick(&[65535, 65536, 1 << 32, 1 << 63, usize::MAX - 1, usize::MAX]),
        2 => read % s + rng.pick(&[s, 256, 512, 65536, 1 << 32, 1 << 63]),
        3 => read,
        4..=5 => rng.below(s),
        _ => read % s,
    }
}

pub fn random_region(rng: &mut Rng, n: usize) -> (usize, usize) {
    match rng.below(8) {
        0 => (random_k(rng, n), random_k(rng, n)),
        1 => {
            let a = rng.between(0, n + 1);
            (a, rng.between(0, n + 1))
        }
        2 => (rng.between(0, n), n),
        _ => {
            let a = rng.below(n);
            (a, rng.between(a + 1, n))
        }
    }
}

/// The length of a buffer for a file, the right one as a rule.
pub fn made_len(rng: &mut Rng, right: usize, most: usize, others: &[usize]) -> usize {
    let right = right.min(most);
    if rng.percent(85) {
        return right;
    }
    let near = [
        0,
        1,
        BLOCK,
        right.saturating_sub(1),
        right + 1,
        right.saturating_sub(BLOCK),
        right + BLOCK,
    ];
    rng.pick(&[&near, others].concat()).min(most)
}

/// A start for a listing of these numbers: on one of them, beside it, and beyond the last of n blocks.
pub fn random_start(rng: &mut Rng, n: usize, numbers: &[u64]) -> u64 {
    let end = 1u64 << (n - 1);
    let listed = if numbers.is_empty() {
        0
    } else {
        rng.pick(numbers)
    };
    match rng.below(12) {
        0 => 0,
        1..=3 => listed,
        4..=5 => listed + 1,
        6 => rng.pick(&[end - 1, end, end + 1]),
        7 => rng.pick(&[1 << 16, 1 << 31, 1 << 32, 1 << 63]) + listed,
        8 => rng.pick(&[65535, 65536, u32::MAX as u64, u64::MAX - 1, u64::MAX]),
        _ => rng.below(end as usize) as u64,
    }
}
