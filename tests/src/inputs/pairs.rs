//! Files to join.

use super::damage::damage;
use super::tasks::{any_word, arm_some, random_lines, task_without_limit};
use crate::reference::files::{Reads, Task};
use crate::rng::Rng;

/// Both whole and alike in those fields, as a rule; says what was damaged.
pub fn random_pair(rng: &mut Rng) -> ([Vec<u8>; 2], String) {
    let task = task_without_limit(rng);
    let (n, m) = (task.blocks.len().max(2), task.interrupters.len());
    let totals = match rng.below(100) {
        0 => [64, 32],
        1..=2 => [64, m],
        3..=5 => [65, m],
        6..=7 => [rng.between(66, 128), m],
        8..=9 => [n, 32],
        10..=12 => [n, 33],
        13..=14 => [n, rng.between(34, 64)],
        _ => [n, m],
    };
    let mut tasks = parts(rng, &task, totals, 2);
    if rng.percent(20) {
        set_apart(rng, &mut tasks);
    }
    let mut files: Vec<Vec<u8>> = tasks.iter().map(Task::file).collect();
    let mut said = ["whole".to_string(), "whole".to_string()];
    let damaged: &[usize] = match rng.below(16) {
        0 => &[0],
        1..=2 => &[1],
        3 => &[0, 1],
        _ => &[],
    };
    for &i in damaged {
        said[i] = damage(rng, &mut files[i]);
    }
    (files.try_into().unwrap(), said.join("; second: "))
}

/// Three whole files that can all be joined.
pub fn random_three(rng: &mut Rng) -> [Vec<u8>; 3] {
    let task = task_without_limit(rng);
    let (n, m) = (task.blocks.len().max(3), task.interrupters.len());
    let totals = if rng.percent(5) { [64, 32] } else { [n, m] };
    let tasks = parts(rng, &task, totals, 3);
    let files: Vec<Vec<u8>> = tasks.iter().map(Task::file).collect();
    files.try_into().unwrap()
}

/// One task cut into several, each with limits and an id of its own. Its blocks are repeated or left out, so that N and M are
/// these in all; where it has no interrupter, M is 0.
fn parts(rng: &mut Rng, task: &Task, totals: [usize; 2], count: usize) -> Vec<Task> {
    let again = |reads: &[Reads], total: usize| -> Vec<Reads> {
        reads.iter().cycle().take(total).cloned().collect()
    };
    let mut blocks = again(&task.blocks, totals[0]);
    arm_some(rng, &mut blocks);
    let mut interrupters = again(&task.interrupters, totals[1]);
    let basic = shares(rng, blocks.len(), count, 1, 64);
    let others = shares(rng, interrupters.len(), count, 0, 32);
    let times: u64 = blocks.iter().map(|b| b.word as u64).sum();
    let limit = times / rng.pick(&[1, 2, 4, 8]) + task.reload as u64 * rng.below(9) as u64;
    let limit = limit + task.switch as u64 * rng.below(2) as u64;
    let limit = limit.min(u32::MAX as u64) as u32;
    let mut tasks = Vec::new();
    for (n, m) in basic.into_iter().zip(others) {
        let (any, any_second, near) = (any_word(rng), any_word(rng), rng.below(9) as u32);
        tasks.push(Task {
            limit: rng.pick(&[limit, limit.saturating_add(near), any]),
            second: rng.pick(&[limit / 2, limit, limit.saturating_add(1 + near), any_second]),
            id: any_word(rng),
            blocks: blocks.drain(..n).collect(),
            interrupters: interrupters.drain(..m).collect(),
            ..*task
        });
    }
    tasks
}

/// A total in so many shares, each from least to most.
fn shares(rng: &mut Rng, total: usize, count: usize, least: usize, most: usize) -> Vec<usize> {
    let mut rest = total;
    let mut shares = Vec::new();
    for others in (0..count).rev() {
        let low = rest.saturating_sub(most * others).max(least);
        let high = (rest - least * others).min(most);
        let share = rng.between(low, high);
        shares.push(share);
        rest -= share;
    }
    shares
}

/// Another S, R, range or G in one of the tasks.
fn set_apart(rng: &mut Rng, tasks: &mut [Task]) {
    let bit = 1 << rng.below(32);
    let kind = rng.below(7);
    if kind == 5 {
        tasks.iter_mut().for_each(|task| task.scratch.count = 0);
    }
    let i = rng.below(tasks.len());
    let task = &mut tasks[i];
    match kind {
        0 if task.lines > 256 => task.lines -= 256,
        0 => task.lines += 256,
        1 => task.lines = random_lines(rng),
        2 => task.reload ^= bit,
        3 => task.scratch.count ^= bit,
        6 => task.switch ^= bit,
        _ => task.scratch.first ^= bit,
    }
}
