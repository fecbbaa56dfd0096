//! The misses of a file's reads, alone and with points, in plain Rust.

use crate::fast::{numbers, open, refusal, Task};
use calls::Returned;

fn evicted_lines(task: &Task) -> [bool; 512] {
    let mut evicted = [false; 512];
    for block in task.preempters() {
        for m in numbers(block) {
            if let Some(c) = task.lines.of(m) {
                evicted[c] = true;
            }
        }
    }
    evicted
}

/// One walk, as the planner does: with the points a line of H has lost what it holds if no block has
/// read it since the last point.
fn by_one_walk(task: &Task, points: &[u16]) -> [u64; 2] {
    let evicted = evicted_lines(task);
    let mut held = [None; 512];
    let mut since = [0; 512];
    let (mut alone, mut preempted) = (0, 0);
    let mut last = 0;
    let mut rest = points;
    for (k, block) in (1usize..).zip(task.blocks()) {
        for m in numbers(block) {
            let Some(c) = task.lines.of(m) else {
                continue;
            };
            let hit = held[c] == Some(m);
            let lost = evicted[c] & (since[c] <= last);
            alone += !hit as u64;
            preempted += !(hit & !lost) as u64;
            held[c] = Some(m);
            since[c] = k;
        }
        if rest.first().is_some_and(|&p| p as usize == k) {
            rest = &rest[1..];
            last = k;
        }
    }
    [alone, preempted]
}

/// Two caches, and at each point a loop that empties the lines of H in the second.
fn by_two_caches(task: &Task, points: &[u16]) -> [u64; 2] {
    let evicted = evicted_lines(task);
    let mut caches = [[None; 512]; 2];
    let mut misses = [0; 2];
    let mut rest = points;
    for (k, block) in (1usize..).zip(task.blocks()) {
        for m in numbers(block) {
            let Some(c) = task.lines.of(m) else {
                continue;
            };
            for (cache, count) in caches.iter_mut().zip(&mut misses) {
                *count += (cache[c] != Some(m)) as u64;
                cache[c] = Some(m);
            }
        }
        if rest.first().is_some_and(|&p| p as usize == k) {
            rest = &rest[1..];
            for (line, evicted) in caches[1].iter_mut().zip(evicted) {
                if evicted {
                    *line = None;
                }
            }
        }
    }
    misses
}

pub fn wrong_point(n: usize, points: &[u16]) -> Option<usize> {
    let mut last = 0;
    points.iter().position(|&p| {
        let wrong = p <= last || p as usize >= n;
        last = p;
        wrong
    })
}

fn answer(
    file: &[u8],
    points: &[u16],
    out: &mut [u8],
    count: impl Fn(&Task, &[u16]) -> [u64; 2],
) -> Returned {
    if out.len() != 16 {
        return Err(refusal(9, 0));
    }
    let task = open(file)?;
    if let Some(i) = wrong_point(task.n, points) {
        return Err(refusal(7, i));
    }
    for (place, misses) in out.chunks_exact_mut(8).zip(count(&task, points)) {
        place.copy_from_slice(&misses.to_le_bytes());
    }
    Ok(())
}

pub fn one_walk(file: &[u8], points: &[u16], out: &mut [u8]) -> Returned {
    answer(file, points, out, by_one_walk)
}

pub fn two_caches(file: &[u8], points: &[u16], out: &mut [u8]) -> Returned {
    answer(file, points, out, by_two_caches)
}
