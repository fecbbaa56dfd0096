//! The loaded lines of a region and its length in plain Rust: one walk up to its first edge, and one over its own blocks, in which the first
//! read of a line decides.

use crate::fast::{numbers, open, refusal, Task, NO_LINE};
use calls::Returned;

fn evicted_lines(task: &Task) -> [u64; 8] {
    let mut words = [0; 8];
    for block in task.preempters() {
        for c in numbers(block).filter_map(|m| task.lines.of(m)) {
            words[c / 64] |= 1 << (c % 64);
        }
    }
    words
}

fn loaded(task: &Task, a: usize, b: usize) -> [u64; 8] {
    /// No number: the line is empty, or was read in the region already.
    const NONE: u64 = u64::MAX;
    let mut held = [NONE; NO_LINE + 1];
    let mut words = [0; 9];
    for block in task.blocks().take(a) {
        for m in numbers(block) {
            held[task.lines.or_none(m)] = m as u64;
        }
    }
    for block in task.blocks().take(b).skip(a) {
        for m in numbers(block) {
            let c = task.lines.or_none(m);
            words[c / 64] |= ((held[c] == m as u64) as u64) << (c % 64);
            held[c] = NONE;
        }
    }
    let evicted = evicted_lines(task);
    std::array::from_fn(|w| words[w] & evicted[w])
}

pub fn region(file: &[u8], a: usize, b: usize, out: &mut [u8]) -> Returned {
    if out.len() != 72 {
        return Err(refusal(9, 0));
    }
    let task = open(file)?;
    if a >= b || b > task.n {
        return Err(refusal(7, 0));
    }
    let words = loaded(&task, a, b);
    let lines: u64 = words.iter().map(|w| w.count_ones() as u64).sum();
    for (place, word) in out
        .chunks_exact_mut(8)
        .zip(words.into_iter().chain([task.length(a, b, lines)]))
    {
        place.copy_from_slice(&word.to_le_bytes());
    }
    Ok(())
}
