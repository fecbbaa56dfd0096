//! The next read of a line and the useful lines of an edge in plain Rust.

use crate::fast::{numbers, open, refusal, Task};
use calls::Returned;

/// The next read of a line after block k, and how many reads were looked at.
fn search(task: &Task, line: usize, k: usize) -> (Option<u32>, usize) {
    let mut looked = 0;
    for block in task.blocks().skip(k) {
        for m in numbers(block) {
            looked += 1;
            if task.lines.of(m) == Some(line) {
                return (Some(m), looked);
            }
        }
    }
    (None, looked)
}

/// What each line holds after blocks 1 to k.
fn held_after(task: &Task, k: usize) -> [Option<u32>; 512] {
    let mut held = [None; 512];
    for block in task.blocks().take(k) {
        for m in numbers(block) {
            if let Some(c) = task.lines.of(m) {
                held[c] = Some(m);
            }
        }
    }
    held
}

/// One search for each line that holds something, of the first later block that reads it, as the planner does: the first
/// readers are noted block after block, as far as a line needs it.
fn useful_by_searches(task: &Task, k: usize) -> [u64; 8] {
    let mut words = [0; 8];
    let mut readers = [None; 512];
    let mut later = task.blocks().skip(k);
    for (c, number) in held_after(task, k).iter().enumerate() {
        if number.is_none() {
            continue;
        }
        while readers[c].is_none() {
            let Some(block) = later.next() else { break };
            for line in numbers(block).filter_map(|m| task.lines.of(m)) {
                readers[line].get_or_insert(block);
            }
        }
        let next = readers[c].and_then(|block| first_on(task, block, c));
        words[c / 64] |= ((*number == next) as u64) << (c % 64);
    }
    words
}

/// The first read of a line in a block.
fn first_on(task: &Task, block: &[u8], line: usize) -> Option<u32> {
    numbers(block).find(|m| task.lines.of(*m) == Some(line))
}

/// One walk over the reads after block k for all lines: the first read of a line decides, and the
/// walk ends when every line that holds something was read.
fn useful_by_walk(task: &Task, k: usize) -> [u64; 8] {
    let mut words = [0; 8];
    let mut held = held_after(task, k);
    let mut open = held.iter().flatten().count();
    for block in task.blocks().skip(k) {
        for m in numbers(block) {
            let Some(c) = task.lines.of(m) else { continue };
            if let Some(number) = held[c].take() {
                words[c / 64] |= ((number == m) as u64) << (c % 64);
                open -= 1;
            }
        }
        if open == 0 {
            break;
        }
    }
    words
}

fn put(words: &[u64], out: &mut [u8]) {
    for (place, word) in out.chunks_exact_mut(8).zip(words) {
        place.copy_from_slice(&word.to_le_bytes());
    }
}

/// The refusals of a call, and otherwise the words that it leaves.
fn answer<const W: usize>(
    file: &[u8],
    k: usize,
    out: &mut [u8],
    words: impl Fn(&Task) -> [u64; W],
) -> Returned {
    if out.len() != 8 * W {
        return Err(refusal(9, 0));
    }
    let task = open(file)?;
    if k > task.n {
        return Err(refusal(7, 0));
    }
    put(&words(&task), out);
    Ok(())
}

pub fn next_read(file: &[u8], line: usize, k: usize, out: &mut [u8]) -> Returned {
    answer(file, k, out, |task| {
        let (number, looked) = search(task, line, k);
        [
            number.is_some() as u64,
            number.unwrap_or(0) as u64,
            looked as u64,
        ]
    })
}

pub fn searched(file: &[u8], k: usize, out: &mut [u8]) -> Returned {
    answer(file, k, out, |task| useful_by_searches(task, k))
}

pub fn walked(file: &[u8], k: usize, out: &mut [u8]) -> Returned {
    answer(file, k, out, |task| useful_by_walk(task, k))
}
